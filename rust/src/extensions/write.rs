//! Writers of one extension and of one server name (RULES 11).

use super::{SNIType, TlsExtension, TlsExtensionType};
use crate::ffi::{self, Wrote};
use crate::write::writers;
use core::slice;

/// A type that is not written. An `Unknown` is lent by it, whatever its own is: that may be, in a
/// value that is made up, the type of a kind that is.
const RAW: u16 = 0xffff;

writers! {
    /// an extension: its type, and behind its length what it holds, names and groups behind a
    /// length of their own.
    ///
    /// # Errors
    ///
    /// `NotYetImplemented`, where it is `Unknown`; `BadLength`, where names or groups are over
    /// 65,533 bytes, names do not fill their list or groups are an odd number of bytes; then
    /// `NoRoom`.
    fn gen_tls_extension, gen_tls_extension_len, gen_tls_extension_vec(m: &TlsExtension)
        = |out| write_extension(m, out);
    /// a server name as it stands in a list: its type, and the name behind its length. tls-parser
    /// has no such function.
    ///
    /// # Errors
    ///
    /// `BadLength`, where the name has over 65,535 bytes; then `NoRoom`.
    fn gen_tls_server_name, gen_tls_server_name_len, gen_tls_server_name_vec(kind: SNIType, name: &[u8])
        = |out| ffi::write_server_name(kind.0, name, out);
}

fn write_extension(m: &TlsExtension, out: &mut [u8]) -> Wrote {
    let (ext_type, content) = lent(m);
    ffi::write_extension(ext_type, content, out)
}

/// The type and the content by which an extension is lent: the list, the byte, or nothing of one
/// that is not written.
pub(super) fn lent<'m>(m: &'m TlsExtension) -> (u16, &'m [u8]) {
    match m {
        TlsExtension::SNI(names) => (TlsExtensionType::ServerName.0, names.as_bytes()),
        TlsExtension::MaxFragmentLength(value) => {
            (TlsExtensionType::MaxFragmentLength.0, slice::from_ref(value))
        }
        TlsExtension::EllipticCurves(groups) => (TlsExtensionType::SupportedGroups.0, groups.as_bytes()),
        TlsExtension::Unknown(..) => (RAW, &[]),
    }
}
