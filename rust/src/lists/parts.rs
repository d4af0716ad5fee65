//! Lists of parts, each behind its length: certificates, the names of a CertificateRequest, and
//! server names.

use super::{sealed::Sealed, Item};
use crate::extensions::SNIType;
use crate::ffi::{self, part, ItemTold};
use crate::handshake::RawCertificate;
use core::iter::FusedIterator;
use core::marker::PhantomData;

/// An item that is a part of the list's bytes.
pub trait Part<'a>: Sized {
    /// The item that begins at that byte, and the byte at which the next one does; none where none
    /// fits.
    fn at(list: &'a [u8], at: usize) -> Option<(Self, usize)>;
}

/// The bytes of an item behind its length, and where they end.
#[inline(always)]
fn item(list: &[u8], told: ItemTold) -> Option<(&[u8], usize)> {
    if told.number != 0 {
        return None;
    }
    let data = part(list, told.start, told.len as usize)?;
    Some((data, told.start + data.len()))
}

impl<'a> Part<'a> for RawCertificate<'a> {
    #[inline(always)]
    fn at(list: &'a [u8], at: usize) -> Option<(Self, usize)> {
        let (data, next) = item(list, ffi::certificate_at(list, at))?;
        Some((RawCertificate { data }, next))
    }
}

impl<'a> Part<'a> for &'a [u8] {
    #[inline(always)]
    fn at(list: &'a [u8], at: usize) -> Option<(Self, usize)> {
        item(list, ffi::name_at(list, at))
    }
}

impl<'a> Part<'a> for (SNIType, &'a [u8]) {
    #[inline(always)]
    fn at(list: &'a [u8], at: usize) -> Option<(Self, usize)> {
        let told = ffi::server_name_from(list, at);
        if told.number != 0 {
            return None;
        }
        let name = part(list, told.start, told.len.into())?;
        Some(((SNIType(told.name_type), name), told.start + name.len()))
    }
}

/// Hands out parts.
#[derive(Clone)]
pub struct Parts<'a, T> {
    list: &'a [u8],
    at: usize,
    items: PhantomData<T>,
}

impl<'a, T: Part<'a>> Iterator for Parts<'a, T> {
    type Item = T;

    #[inline]
    fn next(&mut self) -> Option<T> {
        let (item, next) = T::at(self.list, self.at)?;
        self.at = next;
        Some(item)
    }
}

impl<'a, T: Part<'a>> FusedIterator for Parts<'a, T> {}

macro_rules! parts {
    ($($t:ty),*) => {$(
        impl<'a> Sealed for $t {}

        impl<'a> Item<'a> for $t {
            type Ref = $t;
            type Iter = Parts<'a, $t>;
            type Values = Parts<'a, $t>;

            #[inline]
            fn iter(list: &'a [u8]) -> Parts<'a, $t> {
                Parts { list, at: 0, items: PhantomData }
            }

            #[inline]
            fn values(list: &'a [u8]) -> Parts<'a, $t> {
                Self::iter(list)
            }
        }
    )*};
}

parts!(RawCertificate<'a>, &'a [u8], (SNIType, &'a [u8]));
