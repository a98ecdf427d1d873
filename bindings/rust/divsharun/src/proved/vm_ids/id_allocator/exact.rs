// Written by bindings/erase from crates/vm_ids/src/id_allocator/exact.rt: do not edit.

//! The allocation of a given id, or of an id between two others.

use super::{bound_of, IdAllocator};
use crate::proved::vm_list::IdSet;
use crate::proved::vm_ranges::{Error, Result};
use crate::rattle::AllocError;

impl IdAllocator {
    /// Allocates this id, and returns it.
    ///
    /// All ids of the range below it count as allocated at some time. Those that never were are freed
    /// ids afterwards, and take one entry, however many they are. The call allocates memory only if
    /// the id is past the next id, or the ids right below and right above it are both freed ids.
    ///
    /// # Errors
    ///
    /// An error changes nothing. In this order:
    /// - `OutOfRange(id)` if the id is outside the range.
    /// - `ResourceNotAvailable` if the id is already allocated.
    /// - `OutOfMemory` if an allocation of memory fails.
    pub fn allocate_exact(&mut self, id: u32) -> Result<u32> {
        if !self.id_in_range(id) {
            return Err(Error::OutOfRange(id));
        }
        if !self.was_allocated(id) {
            return self.allocate_new(id);
        }
        if !self.freed_ids.remove(id)? {
            return Err(Error::ResourceNotAvailable);
        }
        Ok(id)
    }

    /// Allocates an id of the range that was never allocated. The ids below it that were never allocated
    /// are freed ids afterwards.
    pub(super) fn allocate_new(&mut self, id: u32) -> Result<u32> {
        let next = bound_of(self.next_id, self.range_end) as u32;
        add_between(&mut self.freed_ids, next, id)?;
        self.next_id = id.checked_add(1);
        Ok(id)
    }

    /// Allocates the lowest free id from `first` to `last`, both included, and returns it.
    ///
    /// The id is found in logarithmic time. It is allocated as by
    /// [`allocate_exact`](Self::allocate_exact).
    ///
    /// # Errors
    ///
    /// An error changes nothing. In this order:
    /// - `InvalidRange(first, last)` if `last` is below `first`.
    /// - `ResourceNotAvailable` if no id from `first` to `last` is in the range and free.
    /// - `OutOfMemory` if an allocation of memory fails.
    pub fn allocate_in(&mut self, first: u32, last: u32) -> Result<u32> {
        let id = self.peek_in(first, last)?;
        self.allocate_exact(id)
    }

    /// Returns the lowest id from `first` to `last` that is in the range and free.
    pub(super) fn lowest_in(&self, first: u32, last: u32) -> Option<u32> {
        // A freed id is below all ids that were never allocated.
        if let Some(freed) = self.freed_ids.first_from(first) {
            if freed <= last {
                return Some(freed);
            }
        }
        let Some(next) = self.next_id else {
            return None;
        };
        let id = next.max(first);
        if id > last || id > self.range_end {
            return None;
        }
        Some(id)
    }
}

/// Adds the ids from `from` up to below `to` to a set whose ids are below them. An error changes nothing.
fn add_between(ids: &mut IdSet, from: u32, to: u32) -> core::result::Result<(), AllocError> {
    if from == to {
        return Ok(());
    }
    ids.add_above(from, to - 1)
}
