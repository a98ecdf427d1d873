// SPDX-License-Identifier: Apache-2.0 OR BSD-3-Clause
//! Implements the traits of the allocators, and of the iterators over their items.

use core::fmt;

/// The `Debug` of the first items that a function returns, at most 64. It ends in `..` if there are more.
pub(crate) struct DebugList<F>(pub(crate) F);

impl<I: Iterator<Item: fmt::Debug>, F: Fn() -> I> fmt::Debug for DebugList<F> {
    fn fmt(&self, f: &mut fmt::Formatter<'_>) -> fmt::Result {
        let (mut items, mut list) = (self.0(), f.debug_list());
        list.entries(items.by_ref().take(64));
        match items.next() {
            None => list.finish(),
            Some(_) => list.finish_non_exhaustive(),
        }
    }
}

/// Implements `Clone` by `try_clone`, and `IntoIterator` by `iter`, of an object that can have a type of values.
macro_rules! allocator {
    ($allocator:ident $(<$value:ident>)?, $items:ident of $item:ty, $what:literal) => {
        impl$(<$value: Clone>)? Clone for $allocator$(<$value>)? {
            fn clone(&self) -> Self {
                let copy = self.try_clone();
                copy.unwrap_or_else(|_| $crate::convert::out_of_memory())
            }
        }

        impl<'a $(, $value)?> IntoIterator for &'a $allocator$(<$value>)? {
            type Item = $item;
            type IntoIter = $items<'a $(, $value)?>;

            #[doc = concat!("Returns an iterator over ", $what, ".")]
            fn into_iter(self) -> Self::IntoIter {
                self.iter()
            }
        }
    };
}

/// Implements iterators, which can have a type of values, by those of the proved code. An expression converts an
/// item that the iterator has found.
macro_rules! iterate {
    ($($name:ident $(<$value:ident>)?),+: $item:ty, |$iterator:ident, $found:ident| $converted:expr) => {$(
        impl<'a $(, $value)?> Iterator for $name<'a $(, $value)?> {
            type Item = $item;

            fn next(&mut self) -> Option<$item> {
                let ($found, $iterator) = (self.0.next()?, self);
                Some($converted)
            }

            fn size_hint(&self) -> (usize, Option<usize>) {
                self.0.size_hint()
            }

            // An exact length is known.
            fn count(self) -> usize {
                match self.0.size_hint() {
                    (least, most) if most == Some(least) => least,
                    _ => self.0.count(),
                }
            }

            fn last(mut self) -> Option<$item> {
                self.next_back()
            }
        }

        impl<'a $(, $value)?> DoubleEndedIterator for $name<'a $(, $value)?> {
            fn next_back(&mut self) -> Option<$item> {
                let ($found, $iterator) = (self.0.next_back()?, self);
                Some($converted)
            }
        }

        $crate::traits::fused!($name $(<$value>)?);
    )+};
}

/// Implements `FusedIterator` and `Debug` of an iterator, which can have a type of values.
macro_rules! fused {
    ($name:ident $(<$value:ident>)?) => {
        impl$(<$value>)? core::iter::FusedIterator for $name<'_ $(, $value)?> {}

        impl$(<$value>)? core::fmt::Debug for $name<'_ $(, $value)?> {
            fn fmt(&self, f: &mut core::fmt::Formatter<'_>) -> core::fmt::Result {
                f.debug_struct(stringify!($name)).finish_non_exhaustive()
            }
        }
    };
}

/// Defines calls in pairs with the same body. If memory runs out, the first call of a pair ends the process, and
/// the second one returns `OutOfMemory`: its type of result decides how an error of the proved code is converted.
/// Its documentation refers to the first call, and ends with what only the second one has.
macro_rules! twins {
    ($(
        $(#[$attribute:meta])*
        pub fn $name:ident($($parameter:tt)*) -> $result:ident<$value:ty> $body:block
        $(#[$try_attribute:meta])*
        pub fn $try_name:ident -> $try_result:ident;
    )+) => {$(
        $(#[$attribute])*
        pub fn $name($($parameter)*) -> $result<$value> $body
        #[doc = concat!("Does the same as [`", stringify!($name), "`](Self::", stringify!($name),
            "), but returns an error if memory runs out.")]
        ///
        /// # Errors
        ///
        #[doc = concat!("- `Refused` with the error that `", stringify!($name), "` returns.")]
        /// - `OutOfMemory` if memory runs out.
        ///
        $(#[$try_attribute])*
        pub fn $try_name($($parameter)*) -> $try_result<$value> $body
    )+};
}

pub(crate) use {allocator, fused, iterate, twins};
