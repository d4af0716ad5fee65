//! The items of one width: compression methods, ciphers, groups, and what a CertificateRequest has.

use super::fixed::{Fixed, Refs, Values};
use super::{sealed::Sealed, Item};
use crate::extensions::NamedGroup;
use crate::table::{TlsCipherSuiteID, TlsCompressionID};
#[cfg(feature = "alloc")]
use alloc::vec::Vec;
use core::slice::{ChunksExact, Iter};

/// Every value of a number in its order, so that each has a place.
macro_rules! all {
    ($n:ident: $number:ty => $t:ty, $value:expr) => {{
        static ALL: [$t; <$number>::MAX as usize + 1] = {
            let mut $n: $number = 0;
            let mut all = [$value; <$number>::MAX as usize + 1];
            while $n < <$number>::MAX {
                $n += 1;
                all[$n as usize] = $value;
            }
            all
        };
        &ALL
    }};
}

/// The number of a piece of two bytes. It is decoded here and not by the proved reader
/// (`norrabist_number_at`), since that is a call for each number, which no inlining reaches; that
/// the two are one is `ListsBack`, and the comparison runs it.
#[inline(always)]
fn big_endian(piece: &[u8]) -> u16 {
    match *piece {
        [high, low] => u16::from_be_bytes([high, low]),
        // no piece has another length
        _ => 0,
    }
}

/// Makes an item of one width: its pieces, its value of `$n`, and its bytes.
macro_rules! fixed {
    ($(
        $t:ty: $width:literal, $piece:ty, $pieces:ident, $cut:ident($($size:literal)?),
        $n:ident = $number:expr => $value:expr, lent $lent:expr, $item:ident => $bytes:expr;
    )*) => {$(
        impl Sealed for $t {}

        impl Fixed for $t {
            const WIDTH: usize = $width;
            type Piece = $piece;
            type Pieces<'s> = $pieces<'s, u8>;

            #[inline]
            fn pieces(list: &[u8]) -> $pieces<'_, u8> {
                list.$cut($($size)?)
            }

            #[inline]
            fn value($n: &$piece) -> Self {
                let $n = $number;
                $value
            }

            #[inline]
            fn lent($n: &$piece) -> &Self {
                $lent
            }

            #[cfg(feature = "alloc")]
            fn put(self, wire: &mut Vec<u8>) {
                let $item = self;
                wire.extend_from_slice(&$bytes);
            }
        }

        impl<'a> Item<'a> for $t {
            type Ref = &'a $t;
            type Iter = Refs<'a, $t>;
            type Values = Values<'a, $t>;

            #[inline]
            fn iter(bytes: &'a [u8]) -> Refs<'a, $t> {
                Refs::new(bytes)
            }

            #[inline]
            fn values(bytes: &'a [u8]) -> Values<'a, $t> {
                Values::new(bytes)
            }
        }
    )*};
}

fixed! {
    u8: 1, u8, Iter, iter(),
        n = *n => n, lent n, byte => [byte];
    TlsCompressionID: 1, u8, Iter, iter(),
        n = *n => TlsCompressionID(n),
        lent &all!(n: u8 => TlsCompressionID, TlsCompressionID(n))[usize::from(*n)],
        method => [method.0];
    u16: 2, [u8], ChunksExact, chunks_exact(2),
        n = big_endian(n) => n,
        lent &all!(n: u16 => u16, n)[usize::from(big_endian(n))],
        number => number.to_be_bytes();
    TlsCipherSuiteID: 2, [u8], ChunksExact, chunks_exact(2),
        n = big_endian(n) => TlsCipherSuiteID(n),
        lent &all!(n: u16 => TlsCipherSuiteID, TlsCipherSuiteID(n))[usize::from(big_endian(n))],
        cipher => cipher.0.to_be_bytes();
    NamedGroup: 2, [u8], ChunksExact, chunks_exact(2),
        n = big_endian(n) => NamedGroup(n),
        lent &all!(n: u16 => NamedGroup, NamedGroup(n))[usize::from(big_endian(n))],
        group => group.0.to_be_bytes();
}

#[cfg(test)]
mod tests {
    use crate::ffi::number_at;
    use crate::lists::List;
    use crate::Reason;

    /// The numbers of a list are those that the archive tells by their places.
    #[test]
    fn as_the_archive_tells_them() {
        let bytes: [u8; 515] = core::array::from_fn(|k| (k * 7 % 256) as u8);
        for len in 0..bytes.len() {
            let list: List<u16> = List::new(&bytes[..len]);
            for (place, number) in list.values().enumerate() {
                let told = number_at(list.as_bytes(), place);
                assert_eq!((told.number, told.value), (0, number), "{place} of {len} bytes");
            }
            for past in [list.len(), list.len() + 1, usize::MAX] {
                let told = number_at(list.as_bytes(), past);
                assert_eq!((Reason::from(told.number), told.value), (Reason::NoSuch, 0));
            }
        }
    }
}
