//! Lists are equal to what has the same items, both ways round.

use super::{Item, List};
#[cfg(feature = "alloc")]
use alloc::vec::Vec;

/// Lists are equal where their items are.
impl<'a, T: Item<'a> + PartialEq> PartialEq for List<'a, T> {
    fn eq(&self, other: &Self) -> bool {
        self.values().eq(other.values())
    }
}

impl<'a, T: Item<'a> + Eq> Eq for List<'a, T> {}

fn same<'a, T: Item<'a> + PartialEq>(list: &List<'a, T>, items: &[T]) -> bool {
    list.values().eq(items.iter().cloned())
}

/// Equality with what is a slice of items.
macro_rules! equal {
    ($($(#[$when:meta])* [$($n:tt)*] $of:ty;)*) => {$(
        $(#[$when])*
        impl<'a, T: Item<'a> + PartialEq $($n)*> PartialEq<$of> for List<'a, T> {
            fn eq(&self, other: &$of) -> bool {
                same(self, &other[..])
            }
        }

        $(#[$when])*
        impl<'a, T: Item<'a> + PartialEq $($n)*> PartialEq<List<'a, T>> for $of {
            fn eq(&self, other: &List<'a, T>) -> bool {
                same(other, &self[..])
            }
        }
    )*};
}

equal! {
    [] [T];
    [] &[T];
    [, const N: usize] [T; N];
    [, const N: usize] &[T; N];
    #[cfg(feature = "alloc")]
    [] Vec<T>;
}

#[cfg(feature = "alloc")]
impl<'a, T: Item<'a>> From<List<'a, T>> for Vec<T> {
    fn from(list: List<'a, T>) -> Self {
        list.to_vec()
    }
}
