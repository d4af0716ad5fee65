//! The extensions of a block that was read, one after the other.

use super::{TlsExtension, TlsExtensionType};
use crate::ffi::{self, part, ExtensionTold};
use crate::lists::List;
use crate::views::view;
#[cfg(feature = "alloc")]
use alloc::vec::Vec;
use core::iter::FusedIterator;

/// The extensions of a block; where tls-parser has a `Vec`.
///
/// Only [`parse_tls_extensions`](crate::parse_tls_extensions) makes it, of a block that is not
/// damaged. An extension is opened when it is handed out, and handed out by value.
#[derive(Clone, Copy)]
pub struct TlsExtensions<'a> {
    block: &'a [u8],
    /// The first extension, as the block's reader told it; none where there is none.
    first: Option<ExtensionTold>,
}

impl<'a> TlsExtensions<'a> {
    /// The extensions of a block of which the first was told.
    #[inline(always)]
    pub(super) fn opened(block: &'a [u8], first: Option<ExtensionTold>) -> Self {
        TlsExtensions { block, first }
    }

    /// The block, without its length.
    #[inline]
    pub const fn as_bytes(&self) -> &'a [u8] {
        self.block
    }

    /// How many extensions there are, by a walk over them.
    pub fn len(&self) -> usize {
        ffi::count_extensions(self.block).items
    }

    /// Whether there is no extension.
    #[inline]
    pub const fn is_empty(&self) -> bool {
        self.first.is_none()
    }

    /// The extensions in their order.
    #[inline]
    pub fn iter(&self) -> Extensions<'a> {
        Extensions { block: self.block, first: self.first, at: 0 }
    }

    /// The first extension.
    #[inline]
    pub fn first(&self) -> Option<TlsExtension<'a>> {
        self.iter().next()
    }

    /// The extension at that place, counted from 0. Those before it are walked over.
    #[inline]
    pub fn get(&self, place: usize) -> Option<TlsExtension<'a>> {
        self.iter().nth(place)
    }

    /// The last extension. All are walked over to find it.
    #[inline]
    pub fn last(&self) -> Option<TlsExtension<'a>> {
        self.iter().last()
    }

    /// The extensions in a `Vec`.
    #[cfg(feature = "alloc")]
    pub fn to_vec(&self) -> Vec<TlsExtension<'a>> {
        self.iter().collect()
    }
}

view!(TlsExtensions of TlsExtension by Extensions, "extensions");

/// Hands out extensions.
#[derive(Clone)]
pub struct Extensions<'a> {
    block: &'a [u8],
    first: Option<ExtensionTold>,
    /// Where the extensions behind the first go on.
    at: usize,
}

impl<'a> Iterator for Extensions<'a> {
    type Item = TlsExtension<'a>;

    #[inline]
    fn next(&mut self) -> Option<TlsExtension<'a>> {
        let told = match self.first.take() {
            Some(told) => told,
            None => ffi::extension_from(self.block, self.at),
        };
        if told.number != 0 {
            return None;
        }
        let content = part(self.block, told.start, told.len.into())?;
        self.at = told.start + content.len();
        extension(told.ext_type, content)
    }
}

impl FusedIterator for Extensions<'_> {}

/// The extension of a type with that content; none where a fragment length has no byte, which no
/// export tells.
#[inline(always)]
fn extension(ext_type: u16, content: &[u8]) -> Option<TlsExtension<'_>> {
    Some(match TlsExtensionType(ext_type) {
        TlsExtensionType::ServerName => TlsExtension::SNI(List::new(content)),
        TlsExtensionType::MaxFragmentLength => TlsExtension::MaxFragmentLength(*content.first()?),
        TlsExtensionType::SupportedGroups => TlsExtension::EllipticCurves(List::new(content)),
        other => TlsExtension::Unknown(other, content),
    })
}

#[cfg(test)]
mod tests {
    use crate::ffi::extension_at;
    use crate::parse_tls_extensions;
    use crate::Reason;

    /// The extensions that a walk hands out lie where the archive tells them by their places.
    #[test]
    fn as_the_archive_tells_them() {
        let block =
            [0, 0, 0, 2, 0, 0, 0, 1, 0, 1, 4, 0, 10, 0, 4, 0, 2, 0, 29, 0, 21, 0, 0, 0xfa, 0xfa, 0, 1, 9];
        let (_, extensions) = parse_tls_extensions(&block).expect("a block");
        let mut walk = extensions.iter();
        for place in 0..extensions.len() {
            let (told, extension) = (extension_at(&block, place), walk.next());
            assert_eq!((told.number, walk.at), (0, told.start + usize::from(told.len)), "{place}");
            let of = extension.as_ref().map(|extension| super::TlsExtensionType::from(extension).0);
            assert_eq!((of, extensions.get(place)), (Some(told.ext_type), extension), "{place}");
        }
        assert_eq!((extensions.len(), walk.next(), walk.at), (5, None, block.len()));
        for past in [5, 6, usize::MAX] {
            let told = extension_at(&block, past);
            assert_eq!((Reason::from(told.number), extensions.get(past)), (Reason::NoSuch, None));
        }
    }
}
