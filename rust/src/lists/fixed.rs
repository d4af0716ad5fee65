//! Lists of items of one width: bytes, and numbers of two bytes.

use super::{sealed::Sealed, List};
#[cfg(feature = "alloc")]
use alloc::vec::Vec;
use core::iter::FusedIterator;
use core::ops::Index;

/// An item of one width: a byte, or a number of two bytes. Each of its values lies in memory
/// somewhere, so that a reference to it can be handed out.
pub trait Fixed: Sealed + Copy + 'static {
    #[doc(hidden)]
    const WIDTH: usize;

    /// The bytes of one item.
    #[doc(hidden)]
    type Piece: ?Sized + 'static;

    #[doc(hidden)]
    type Pieces<'s>: DoubleEndedIterator<Item = &'s Self::Piece> + ExactSizeIterator + FusedIterator + Clone;

    /// Cuts a list into its items. What is left over at its end is in none.
    #[doc(hidden)]
    fn pieces(list: &[u8]) -> Self::Pieces<'_>;

    /// The item of these bytes.
    #[doc(hidden)]
    fn value(piece: &Self::Piece) -> Self;

    /// Where that item lies.
    #[doc(hidden)]
    fn lent(piece: &Self::Piece) -> &Self;

    /// Puts the bytes of the item behind those that are there.
    #[doc(hidden)]
    #[cfg(feature = "alloc")]
    fn put(self, wire: &mut Vec<u8>);
}

#[cfg(feature = "alloc")]
impl<T: Fixed> List<'_, T> {
    /// The bytes of a list of these items, for [`List::new`].
    ///
    /// ```
    /// use norrabist::{List, TlsCipherSuiteID};
    ///
    /// let bytes = List::encode(&[TlsCipherSuiteID(0x1301), TlsCipherSuiteID(0xc02f)]);
    /// assert_eq!(bytes, [0x13, 0x01, 0xc0, 0x2f]);
    /// ```
    pub fn encode(items: &[T]) -> Vec<u8> {
        let mut wire = Vec::with_capacity(items.len().saturating_mul(T::WIDTH));
        items.iter().for_each(|item| item.put(&mut wire));
        wire
    }
}

/// Makes an iterator over pieces: what it hands out, and how that is made of a piece.
macro_rules! over_pieces {
    ($(#[$doc:meta])* $name:ident, $item:ty, $of:ident) => {
        $(#[$doc])*
        #[derive(Clone)]
        pub struct $name<'a, T: Fixed> {
            pieces: T::Pieces<'a>,
        }

        impl<'a, T: Fixed> $name<'a, T> {
            #[inline]
            pub(super) fn new(list: &'a [u8]) -> Self {
                $name { pieces: T::pieces(list) }
            }
        }

        impl<'a, T: Fixed> Iterator for $name<'a, T> {
            type Item = $item;

            #[inline]
            fn next(&mut self) -> Option<$item> {
                self.pieces.next().map(T::$of)
            }

            #[inline]
            fn size_hint(&self) -> (usize, Option<usize>) {
                self.pieces.size_hint()
            }

            #[inline]
            fn count(self) -> usize {
                self.pieces.len()
            }

            #[inline]
            fn nth(&mut self, n: usize) -> Option<$item> {
                self.pieces.nth(n).map(T::$of)
            }

            #[inline]
            fn last(mut self) -> Option<$item> {
                self.next_back()
            }

            #[inline]
            fn fold<B, F: FnMut(B, $item) -> B>(self, first: B, mut f: F) -> B {
                self.pieces.fold(first, |folded, piece| f(folded, T::$of(piece)))
            }
        }

        impl<'a, T: Fixed> DoubleEndedIterator for $name<'a, T> {
            #[inline]
            fn next_back(&mut self) -> Option<$item> {
                self.pieces.next_back().map(T::$of)
            }

            #[inline]
            fn nth_back(&mut self, n: usize) -> Option<$item> {
                self.pieces.nth_back(n).map(T::$of)
            }
        }

        impl<T: Fixed> ExactSizeIterator for $name<'_, T> {}
        impl<T: Fixed> FusedIterator for $name<'_, T> {}
    };
}

over_pieces! {
    /// Hands out numbers or bytes by reference.
    Refs, &'a T, lent
}
over_pieces! {
    /// Hands out numbers or bytes by value.
    Values, T, value
}

/// The item at that place, counted from 0, as a `Vec` has it.
///
/// # Panics
///
/// Panics where the list has no such item, as a `Vec` does: the one call of the binding that does
/// so. [`List::get`] answers `None` there.
impl<T: Fixed> Index<usize> for List<'_, T> {
    type Output = T;

    #[inline]
    #[track_caller]
    fn index(&self, place: usize) -> &T {
        let mut pieces = T::pieces(self.as_bytes());
        let len = pieces.len();
        match pieces.nth(place) {
            Some(piece) => T::lent(piece),
            None => panic!("index out of bounds: the len is {len} but the index is {place}"),
        }
    }
}
