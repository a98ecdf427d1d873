// SPDX-License-Identifier: Apache-2.0 OR BSD-3-Clause
use super::{AllocFailed, Global};
use core::ops::{Deref, DerefMut};

/// A box that reports a failed allocation.
///
/// It is created as a vector of one element, because a vector can report a failed allocation
/// without unsafe code. Converting the vector to a boxed array moves nothing.
#[derive(Debug)]
pub struct Box<T>(alloc::boxed::Box<[T; 1]>);

impl<T> Box<T> {
    /// Allocates a box with the value in it, or returns the value if the allocation fails.
    pub fn new(_alloc: Global, value: T) -> Result<Self, AllocFailed<T>> {
        let mut one = alloc::vec::Vec::new();
        if one.try_reserve_exact(1).is_err() {
            return Err(AllocFailed { value });
        }
        one.push(value);
        match one.into_boxed_slice().try_into() {
            Ok(one) => Ok(Box(one)),
            Err(_) => unreachable!(),
        }
    }

    /// Returns the value, and frees the box.
    #[must_use]
    pub fn into_inner(one: Self) -> T {
        let [value] = *one.0;
        value
    }
}

impl<T> Deref for Box<T> {
    type Target = T;

    #[inline(always)]
    fn deref(&self) -> &T {
        &self.0[0]
    }
}

impl<T> DerefMut for Box<T> {
    #[inline(always)]
    fn deref_mut(&mut self) -> &mut T {
        &mut self.0[0]
    }
}
