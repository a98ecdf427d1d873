// SPDX-License-Identifier: Apache-2.0 OR BSD-3-Clause
use super::{AllocError, AllocFailed, Global};
use core::ops::{Deref, DerefMut};

/// A vector that reports a failed allocation.
#[derive(Debug, PartialEq, Eq)]
pub struct Vec<T>(alloc::vec::Vec<T>);

impl<T> Vec<T> {
    /// Creates an empty vector. It does not allocate.
    #[must_use]
    pub fn new(_alloc: Global) -> Self {
        Vec(alloc::vec::Vec::new())
    }

    /// Creates an empty vector with this capacity. Tests mark a point by this allocation, so a
    /// compiler must not remove it.
    pub fn with_capacity(_alloc: Global, capacity: usize) -> Result<Self, AllocError> {
        let mut list = alloc::vec::Vec::new();
        list.try_reserve_exact(capacity).map_err(|_| AllocError)?;
        Ok(Vec(core::hint::black_box(list)))
    }

    /// Appends a value, or returns it if the allocation fails.
    pub fn push(&mut self, value: T) -> Result<(), AllocFailed<T>> {
        if self.0.try_reserve(1).is_err() {
            return Err(AllocFailed { value });
        }
        self.0.push(value);
        Ok(())
    }

    /// Inserts a value before the value at `place`, or returns it if the allocation fails. The
    /// vector grows by an eighth, so it has little unused capacity.
    ///
    /// # Panics
    ///
    /// If `place` is past the end.
    pub fn insert(&mut self, place: usize, value: T) -> Result<(), AllocFailed<T>> {
        if self.0.len() == self.0.capacity() {
            let more = self.0.len() / 8 + 4;
            if self.0.try_reserve_exact(more).is_err() {
                return Err(AllocFailed { value });
            }
        }
        self.0.insert(place, value);
        Ok(())
    }

    /// Allocates capacity for this number of further values.
    pub fn reserve(&mut self, more: usize) -> Result<(), AllocError> {
        self.0.try_reserve(more).map_err(|_| AllocError)
    }

    /// Moves all values of another vector to the end of this one, or none if the allocation fails.
    pub fn append(&mut self, other: &mut Self) -> Result<(), AllocError> {
        self.reserve(other.len())?;
        self.0.append(&mut other.0);
        Ok(())
    }

    /// Moves the values starting at `place` to a vector of their own, or none if the allocation fails.
    ///
    /// # Panics
    ///
    /// If `place` is past the end.
    pub fn split_off(&mut self, place: usize) -> Result<Self, AllocError> {
        let mut upper = Vec::with_capacity(Global, self.len() - place)?;
        upper.0.extend(self.0.drain(place..));
        Ok(upper)
    }

    /// Appends copies of the values, or none if the allocation fails.
    pub fn extend_from_slice(&mut self, values: &[T]) -> Result<(), AllocError>
    where
        T: Copy,
    {
        self.reserve(values.len())?;
        self.0.extend_from_slice(values);
        Ok(())
    }

    /// Returns a copy, or an error if an allocation fails.
    #[allow(clippy::should_implement_trait)]
    pub fn clone(&self) -> Result<Self, AllocError>
    where
        T: Clone,
    {
        let mut list = Vec::with_capacity(Global, self.len())?;
        list.0.extend_from_slice(self);
        Ok(list)
    }
}

impl<T> From<Vec<T>> for alloc::vec::Vec<T> {
    fn from(list: Vec<T>) -> Self {
        list.0
    }
}

/// The methods that do not allocate are those of `alloc::vec::Vec`.
impl<T> Deref for Vec<T> {
    type Target = alloc::vec::Vec<T>;

    fn deref(&self) -> &Self::Target {
        &self.0
    }
}

impl<T> DerefMut for Vec<T> {
    fn deref_mut(&mut self) -> &mut Self::Target {
        &mut self.0
    }
}
