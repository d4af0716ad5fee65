//! Extension blocks (RULES 11): the bytes of a hello's `ext`, read, and extensions written.

mod block;
#[cfg(feature = "alloc")]
mod rows;
mod table;
mod write;

pub use block::{Extensions, TlsExtensions};
#[cfg(feature = "alloc")]
pub use rows::*;
pub use table::*;
pub use write::*;

use crate::ffi;
use crate::lists::List;
use crate::refusal::{numbered, Reason, Refusal};
use core::fmt;

/// The number told at the front of a block that has no byte.
const NO_SUCH: u8 = Reason::NoSuch.number();

/// An extension (RULES 11), by tls-parser's names: three kinds are opened, any other is `Unknown`.
#[derive(Clone, Copy, PartialEq)]
#[non_exhaustive]
pub enum TlsExtension<'a> {
    /// Server names with their types (RFC 6066 3). Read, they fill the list; there may be none.
    SNI(List<'a, (SNIType, &'a [u8])>),
    /// The longest fragment (RFC 6066 4): 1 to 4 for 512 to 4,096 bytes. Read, it is any byte.
    MaxFragmentLength(u8),
    /// The groups supported (RFC 8422 5.1.1), not elliptic curves alone. There may be none.
    EllipticCurves(List<'a, NamedGroup>),
    /// The type and the data of any other, whatever it holds. No writer writes it.
    Unknown(TlsExtensionType, &'a [u8]),
}

impl From<&TlsExtension<'_>> for TlsExtensionType {
    /// The type that the extension has on the wire.
    fn from(extension: &TlsExtension) -> TlsExtensionType {
        match extension {
            TlsExtension::SNI(_) => TlsExtensionType::ServerName,
            TlsExtension::MaxFragmentLength(_) => TlsExtensionType::MaxFragmentLength,
            TlsExtension::EllipticCurves(_) => TlsExtensionType::SupportedGroups,
            TlsExtension::Unknown(of, _) => *of,
        }
    }
}

impl From<TlsExtension<'_>> for TlsExtensionType {
    /// The same of one that is handed out by value.
    fn from(extension: TlsExtension) -> TlsExtensionType {
        TlsExtensionType::from(&extension)
    }
}

/// Why an extension block is refused, and which item is the first bad one. In time more may be told
/// of it.
#[derive(Clone, Copy, Debug, PartialEq, Eq, Hash)]
#[non_exhaustive]
pub struct Damage {
    /// Why: `LengthValue`.
    pub refusal: Refusal,
    /// The place of the item in the block, counted from 0.
    pub index: usize,
}

impl fmt::Display for Damage {
    fn fmt(&self, f: &mut fmt::Formatter) -> fmt::Result {
        write!(f, "extension {}: {}", self.index, self.refusal)
    }
}

impl core::error::Error for Damage {}

impl From<Damage> for Refusal {
    /// The refusal, without the place.
    fn from(damage: Damage) -> Refusal {
        damage.refusal
    }
}

/// Reads an extension block, the bytes behind its length, as the `ext` of a hello has them. The
/// rest is always empty.
///
/// A block is taken whole or not at all: of a damaged one nothing is handed out, not even what
/// stands before the damage. Repeated types, empty lists and names, name types other than 0 and
/// fragment lengths other than 1 to 4 are no damage. What the other types hold is not looked at.
///
/// A hello whose `ext` is `None` has no extensions, and there is nothing to read; its `tail` may be
/// a block that was cut off.
///
/// ```
/// use norrabist::{parse_tls_extensions, NamedGroup, Reason, Refusal, SNIType, TlsExtension};
///
/// /// The host that a ClientHello asks for, and the groups that it offers.
/// fn asked(ext: &[u8]) -> Result<(Option<&[u8]>, Vec<NamedGroup>), Refusal> {
///     let (_, extensions) = parse_tls_extensions(ext)?;
///     let (mut host, mut groups) = (None, Vec::new());
///     for extension in extensions {
///         match extension {
///             TlsExtension::SNI(names) => {
///                 let first = names.iter().find(|(kind, _)| *kind == SNIType::HostName);
///                 host = first.map(|(_, name)| name);
///             }
///             TlsExtension::EllipticCurves(list) => groups.extend(list),
///             _ => {}
///         }
///     }
///     Ok((host, groups))
/// }
///
/// // server_name, supported_groups, and an extended_master_secret, which is not opened
/// let name = [&[0, 0, 0, 16, 0, 14, 0, 0, 11][..], b"example.org"].concat();
/// let ext = [&name[..], &[0, 10, 0, 6, 0, 4, 0, 29, 0, 23, 0, 23, 0, 0]].concat();
/// let groups = vec![NamedGroup::EcdhX25519, NamedGroup::Secp256r1];
/// assert_eq!(asked(&ext)?, (Some(&b"example.org"[..]), groups));
///
/// // cut off in its last extension, the block hands out nothing
/// let damage = parse_tls_extensions(&ext[..ext.len() - 1]).unwrap_err();
/// assert_eq!((damage.refusal.reason, damage.index), (Reason::LengthValue, 2));
/// # Ok::<(), Refusal>(())
/// ```
///
/// A server that took the name says so by a `server_name` without data (RFC 6066 3), the four bytes
/// `00 00 00 00`. It lacks the length of the list, so the block of such a ServerHello is refused,
/// with the index of this item; the hello itself was read. Who wants the others takes the index for
/// its place, and reads what stands before and behind the four bytes as blocks of their own.
///
/// ```
/// use norrabist::{parse_tls_extensions, Damage, TlsExtension};
///
/// /// The extensions of a ServerHello, but for a `server_name` without data.
/// fn answered(ext: &[u8]) -> Result<Vec<TlsExtension<'_>>, Damage> {
///     let damage = match parse_tls_extensions(ext) {
///         Ok((_, extensions)) => return Ok(extensions.to_vec()),
///         Err(damage) => damage,
///     };
///     // as many whole ones stand before it as its index says: type, length and data
///     let len = |at: usize| 4 + usize::from(u16::from_be_bytes([ext[at + 2], ext[at + 3]]));
///     let (before, from) = ext.split_at((0..damage.index).fold(0, |at, _| at + len(at)));
///     let behind = from.strip_prefix(&[0; 4]).ok_or(damage)?;
///     let (before, behind) = (parse_tls_extensions(before)?.1, parse_tls_extensions(behind)?.1);
///     Ok(before.into_iter().chain(behind).collect())
/// }
///
/// let ext = [0xff, 0x01, 0, 1, 0, 0, 0, 0, 0, 0, 23, 0, 0];
/// assert_eq!(parse_tls_extensions(&ext).unwrap_err().index, 1);
/// assert_eq!(answered(&ext)?.len(), 2);
/// assert!(answered(&[0, 23, 0, 0, 0, 1]).is_err_and(|damage| damage.index == 1));
/// # Ok::<(), Damage>(())
/// ```
///
/// # Errors
///
/// `LengthValue` with the index of the first item that is damaged: its type, length or data is cut
/// off; the list's length of server names or groups is missing or unlike what follows it; the
/// names, each a type and as many bytes as its length says, do not fill their list; a fragment
/// length is not of one byte; a list of groups has an odd number of bytes.
#[inline]
pub fn parse_tls_extensions(i: &[u8]) -> Result<(&[u8], TlsExtensions<'_>), Damage> {
    // at the front the whole block is looked at
    let first = ffi::extension_from(i, 0);
    let (block, rest) = i.split_at(i.len());
    match first.number {
        0 => Ok((rest, TlsExtensions::opened(block, Some(first)))),
        NO_SUCH => Ok((rest, TlsExtensions::opened(block, None))),
        _ => Err(damage(i)),
    }
}

/// The damage of a block that is refused.
#[cold]
#[inline(never)]
fn damage(block: &[u8]) -> Damage {
    let told = ffi::count_extensions(block);
    Damage { refusal: numbered(told.number), index: told.items }
}
