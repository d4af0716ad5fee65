//! The writer of a list of extensions, and the bytes of a list of server names.

use super::write::lent;
use super::{gen_tls_server_name_len, gen_tls_server_name_vec, SNIType, TlsExtension};
use crate::ffi::{self, Wrote};
use crate::lists::List;
use crate::refusal::{Reason, Refusal};
use crate::write::writers;
use alloc::vec::Vec;

/// The most bytes that all extensions of a list have.
const MOST: usize = 0xffff;

/// The bytes before an extension's data: type and length.
const HEAD_LEN: usize = 4;

writers! {
    /// a list of extensions behind its length of two bytes. What follows these is what
    /// [`parse_tls_extensions`](crate::parse_tls_extensions) reads, and what the `ext` of a hello
    /// to be written is.
    ///
    /// What the extensions hold is copied, to be lent together: 65,535 bytes at most.
    ///
    /// # Errors
    ///
    /// `NotYetImplemented`, where any of them is `Unknown`; `BadLength`, where any breaks a rule of
    /// [`gen_tls_extension`](crate::gen_tls_extension), or all together are over 65,535 bytes; then
    /// `NoRoom`.
    ///
    /// ```
    /// use norrabist::{gen_tls_extensions_vec, parse_tls_extensions};
    /// use norrabist::{List, NamedGroup, SNIType, TlsExtension};
    ///
    /// let names = List::encode_names(&[(SNIType::HostName, b"example.org")])?;
    /// let groups = List::encode(&[NamedGroup::EcdhX25519, NamedGroup::Secp256r1]);
    /// let (names, groups) = (List::new(&names), List::new(&groups));
    /// let list = [TlsExtension::SNI(names), TlsExtension::EllipticCurves(groups)];
    ///
    /// let mut text = Vec::new();
    /// assert_eq!(gen_tls_extensions_vec(&list, &mut text), Ok(2 + 20 + 10));
    /// assert_eq!(text[..2], [0, 30]);
    /// let (_, extensions) = parse_tls_extensions(&text[2..])?;
    /// assert_eq!(extensions, list);
    /// # Ok::<(), norrabist::Refusal>(())
    /// ```
    fn gen_tls_extensions, gen_tls_extensions_len, gen_tls_extensions_vec(m: &[TlsExtension])
        = |out| write_extensions(m, out);
}

fn write_extensions(m: &[TlsExtension], out: &mut [u8]) -> Wrote {
    let rows = Rows::of(m);
    ffi::write_extensions(&rows.values, &rows.bytes, out)
}

/// Extensions as they are lent: of each a row, its type and where its content lies in the bytes.
#[derive(Default)]
struct Rows {
    values: Vec<u8>,
    bytes: Vec<u8>,
}

impl Rows {
    /// The rows of a list, up to the extension that makes it too long, whose content is left out:
    /// the archive refuses the list by these rows, as a bad length. Behind them the first `Unknown`
    /// still counts, which is refused before any length.
    fn of(m: &[TlsExtension]) -> Rows {
        let (mut rows, mut len) = (Rows::default(), 0usize);
        let mut left = m.iter();
        for extension in left.by_ref() {
            len = len.saturating_add(HEAD_LEN).saturating_add(lent(extension).1.len());
            rows.put(extension, len <= MOST);
            if len > MOST {
                break;
            }
        }
        if let Some(raw) = left.find(|extension| matches!(extension, TlsExtension::Unknown(..))) {
            rows.put(raw, false);
        }
        rows
    }

    /// Puts a row behind those that are there, with its content or without it. A content that is
    /// left out lies outside the bytes, if it has any.
    fn put(&mut self, extension: &TlsExtension, with_content: bool) {
        let (ext_type, content) = lent(extension);
        // where a number is too large for its four bytes, the content lies outside too
        let number = |n: usize| u32::try_from(n).unwrap_or(u32::MAX).to_be_bytes();
        self.values.extend_from_slice(&ext_type.to_be_bytes());
        self.values.extend_from_slice(&number(self.bytes.len()));
        self.values.extend_from_slice(&number(content.len()));
        if with_content {
            self.bytes.extend_from_slice(content);
        }
    }
}

impl List<'_, (SNIType, &[u8])> {
    /// The bytes of a list of these server names, for [`List::new`].
    ///
    /// # Errors
    ///
    /// `BadLength`, where a name has over 65,535 bytes; `NoRoom` where the memory cannot be had.
    ///
    /// ```
    /// use norrabist::{List, SNIType};
    ///
    /// let bytes = List::encode_names(&[(SNIType::HostName, b"a.b"), (SNIType(9), b"")])?;
    /// assert_eq!(bytes, [0, 0, 3, b'a', b'.', b'b', 9, 0, 0]);
    /// # Ok::<(), norrabist::Refusal>(())
    /// ```
    pub fn encode_names(names: &[(SNIType, &[u8])]) -> Result<Vec<u8>, Refusal> {
        let (mut wire, mut len) = (Vec::new(), 0usize);
        for (kind, name) in names {
            len = len.saturating_add(gen_tls_server_name_len(*kind, name)?);
        }
        if wire.try_reserve_exact(len).is_err() {
            return Err(Reason::NoRoom.into());
        }
        for (kind, name) in names {
            gen_tls_server_name_vec(*kind, name, &mut wire)?;
        }
        Ok(wire)
    }
}

#[cfg(test)]
mod tests {
    use super::*;
    use crate::{NamedGroup, TlsExtensionType};
    use alloc::vec;

    /// What the archive answers where every content is lent.
    fn whole(m: &[TlsExtension]) -> (usize, u8) {
        let mut rows = Rows::default();
        m.iter().for_each(|extension| rows.put(extension, true));
        let wrote = ffi::write_extensions(&rows.values, &rows.bytes, &mut []);
        (wrote.count, wrote.number)
    }

    /// What is left out of a list that is too long changes no answer.
    #[test]
    fn as_if_every_content_were_lent() {
        let bytes = vec![0; 70_000];
        let groups = |len: usize| TlsExtension::EllipticCurves(List::<NamedGroup>::new(&bytes[..len]));
        let (names, small) = (TlsExtension::SNI(List::new(&bytes[..9])), TlsExtension::MaxFragmentLength(1));
        let raw = TlsExtension::Unknown(TlsExtensionType::Padding, &bytes);
        let mut lists =
            vec![vec![], vec![raw], vec![small; 13_107], vec![small; 13_108], vec![small; 40_000]];
        lists.extend([10_922, 10_923, 16_383, 16_384, 20_000].map(|count| vec![groups(0); count]));
        for len in [0, 1, 2, 65_512, 65_513, 65_514, 65_528, 65_530, 65_532, 65_534, 65_536, 70_000] {
            for with in [vec![groups(len)], vec![groups(len), names, small], vec![names, groups(len), small]]
            {
                for at in 0..=with.len() {
                    let mut raised = with.clone();
                    raised.insert(at, raw);
                    lists.push(raised);
                }
                lists.push(with);
            }
        }
        for list in lists {
            let wrote = write_extensions(&list, &mut []);
            assert_eq!((wrote.count, wrote.number), whole(&list), "{} extensions", list.len());
            let rows = Rows::of(&list);
            assert!(rows.bytes.len() <= MOST && rows.values.len() <= 10 * (MOST / HEAD_LEN + 2));
        }
    }
}
