// Written by bindings/erase from crates/vm_ids/src/id_allocator/several.rt: do not edit.

//! Several ids in one call, and the number of free ids.

use super::IdAllocator;
use crate::proved::vm_ranges::{Error, Result};
use crate::rattle::Global;
use crate::rattle::Vec;

impl IdAllocator {
    /// Returns the number of free ids of the range.
    ///
    /// It does not visit the ids, and does not allocate memory.
    pub fn free_count(&self) -> u64 {
        let ids = u64::from(self.range_end) + 1 - u64::from(self.range_base);
        ids - self.held_count()
    }

    /// Allocates the `count` lowest free ids, and returns them in ascending order.
    ///
    /// They are the ids that `count` calls of [`allocate_id`](Self::allocate_id) would allocate. Memory is
    /// allocated only for the list.
    ///
    /// # Errors
    ///
    /// An error changes nothing. In this order:
    /// - `Overflow` if fewer than `count` ids are free and the range ends at `u32::MAX`.
    /// - `ResourceNotAvailable` if fewer than `count` ids are free and the range ends below `u32::MAX`.
    /// - `OutOfMemory` if an allocation of memory fails.
    pub fn allocate_ids(&mut self, alloc: Global, count: usize) -> Result<Vec<u32>> {
        if self.free_count() < count as u64 {
            return Err(self.none_free());
        }
        let mut ids = Vec::with_capacity(alloc, count)?;
        for _ in 0..count {
            let Ok(id) = self.allocate_id() else {
                // At least `count` ids are free.
                unreachable!()
            };
            let Ok(()) = ids.push(id) else {
                // The list has the capacity for each id.
                unreachable!()
            };
        }
        Ok(ids)
    }

    /// Returns the error of [`allocate_id`](Self::allocate_id) if all ids are allocated.
    fn none_free(&self) -> Error {
        if self.range_end == u32::MAX {
            Error::Overflow
        } else {
            Error::ResourceNotAvailable
        }
    }
}
