// Written by bindings/erase from crates/vm_range_map/src/range_map.rt: do not edit.

//! A map from allocated ranges to values.
//!
//! Ranges and values change together or not at all. Calls that can fail are first. The calls after them, and the
//! call that undoes an allocation, always succeed.

use crate::proved::vm_addresses::{AddressAllocator, RangeInclusive, Result};
use crate::rattle::Global;
use core::mem;

mod allocating;
mod comparing;
mod iter;
mod moving;
mod several;
mod value_table;
mod windows;

pub use self::iter::ValuedRanges;
use self::value_table::ValueTable;
pub use self::windows::ValuedRangesIn;

/// Allocates ranges of addresses from one space, and keeps a value with each allocated range.
///
/// Ranges are allocated as by [`AddressAllocator`]. A value is any value of the caller, such as the number of the
/// owner of the range.
pub struct RangeMap<T> {
    addresses: AddressAllocator,
    // The value of each allocated range, by its start.
    values: ValueTable<T>,
}

impl<T> RangeMap<T> {
    /// Creates a map of the `size` addresses starting at `base`. All of them are free.
    ///
    /// # Errors
    ///
    /// In this order:
    /// - `Underflow` if `size` is 0.
    /// - `Overflow` if the last address would be past `u64::MAX`.
    /// - `OutOfMemory` if an allocation fails.
    pub fn new(alloc: Global, base: u64, size: u64) -> Result<Self> {
        let addresses = AddressAllocator::new(alloc, base, size)?;
        Ok(RangeMap {
            addresses,
            values: ValueTable::new(alloc),
        })
    }

    /// Frees an allocated range, and returns its value.
    ///
    /// It does not allocate, and always succeeds for an allocated range.
    ///
    /// # Errors
    ///
    /// An error changes nothing.
    /// - `ResourceNotAvailable` if exactly this range is not allocated. A part of an allocated range cannot be
    ///   freed.
    pub fn free(&mut self, range: &RangeInclusive) -> Result<T> {
        self.addresses.free(range)?;
        let Some(value) = self.values.remove(range.start()) else {
            // Each allocated range has a value.
            unreachable!()
        };
        Ok(value)
    }

    /// Returns the allocated range that contains an address, and its value, or `None` if the address is free or
    /// outside the space.
    ///
    /// It descends one path of the tree, looks the value up by the start of the range, and does not allocate.
    pub fn get(&self, address: u64) -> Option<(RangeInclusive, &T)> {
        let range = self.addresses.held_at(address)?;
        let value = self.values.get(range.start())?;
        Some((range, value))
    }

    /// Returns the value of the allocated range that contains an address, to change it, or `None` if the address is
    /// free or outside the space.
    ///
    /// It takes as long as [`get`](Self::get), and does not allocate.
    pub fn get_mut(&mut self, address: u64) -> Option<&mut T> {
        let range = self.addresses.held_at(address)?;
        Some(self.values.value_mut(range.start()))
    }

    /// Replaces the value of the allocated range that contains an address, and returns the value before.
    ///
    /// It does not allocate.
    ///
    /// # Errors
    ///
    /// If the address is free or outside the space, it returns the given value and changes nothing.
    #[allow(dead_code)]
    pub fn set(&mut self, address: u64, value: T) -> core::result::Result<T, T> {
        match self.get_mut(address) {
            Some(place) => Ok(mem::replace(place, value)),
            None => Err(value),
        }
    }

    /// Returns the range of all addresses of the space.
    pub fn space(&self) -> RangeInclusive {
        self.addresses.space()
    }

    /// Returns the allocator of the addresses, to read.
    pub fn addresses(&self) -> &AddressAllocator {
        &self.addresses
    }
}

impl<T: Clone> RangeMap<T> {
    /// Returns a copy. It has the same tree of addresses, and a clone of each value.
    ///
    /// # Errors
    ///
    /// - `OutOfMemory` if an allocation fails.
    pub fn try_clone(&self, alloc: Global) -> Result<Self> {
        let addresses = self.addresses.try_clone(alloc)?;
        let values = self.values.try_clone(alloc)?;
        Ok(RangeMap { addresses, values })
    }
}
