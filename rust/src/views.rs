//! What the messages of a record and joined records have of a `Vec`.

/// Makes of a view whose `iter` hands out values what is used as a `Vec` of them.
macro_rules! view {
    ($view:ident of $item:ident by $iter:ident, $what:literal) => {
        #[doc = concat!("The ", $what, " in a `Vec`.")]
        #[cfg(feature = "alloc")]
        impl<'a> From<$view<'a>> for alloc::vec::Vec<$item<'a>> {
            fn from(view: $view<'a>) -> Self {
                view.to_vec()
            }
        }

        impl<'a> IntoIterator for &$view<'a> {
            type Item = $item<'a>;
            type IntoIter = $iter<'a>;

            #[inline]
            fn into_iter(self) -> $iter<'a> {
                self.iter()
            }
        }

        impl<'a> IntoIterator for $view<'a> {
            type Item = $item<'a>;
            type IntoIter = $iter<'a>;

            #[inline]
            fn into_iter(self) -> $iter<'a> {
                self.iter()
            }
        }

        impl core::fmt::Debug for $view<'_> {
            fn fmt(&self, f: &mut core::fmt::Formatter) -> core::fmt::Result {
                f.debug_list().entries(self).finish()
            }
        }

        #[doc = concat!("Equal where the ", $what, " are.")]
        impl PartialEq for $view<'_> {
            fn eq(&self, other: &Self) -> bool {
                self.iter().eq(other.iter())
            }
        }

        view! {
            equal $view of $item, $what;
            [] [$item<'a>];
            [] &[$item<'a>];
            [const N: usize] [$item<'a>; N];
            #[cfg(feature = "alloc")]
            [] alloc::vec::Vec<$item<'a>>;
        }
    };
    // equality with what is a slice of values
    (equal $view:ident of $item:ident, $what:literal; $($(#[$when:meta])* [$($n:tt)*] $of:ty;)*) => {$(
        #[doc = concat!("Equal where the ", $what, " are.")]
        $(#[$when])*
        impl<'a, $($n)*> PartialEq<$of> for $view<'a> {
            fn eq(&self, other: &$of) -> bool {
                self.iter().eq(other.iter().copied())
            }
        }

        #[doc = concat!("Equal where the ", $what, " are.")]
        $(#[$when])*
        impl<'a, $($n)*> PartialEq<$view<'a>> for $of {
            fn eq(&self, other: &$view<'a>) -> bool {
                other == self
            }
        }
    )*};
}

pub(crate) use view;
