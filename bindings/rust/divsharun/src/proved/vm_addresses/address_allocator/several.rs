// Written by bindings/erase from crates/vm_addresses/src/address_allocator/several.rt: do not edit.

//! Several allocations in one call: all or none.

use super::conflicts::Conflict;
use super::AddressAllocator;
use crate::proved::vm_ranges::{Constraint, ListError, RangeInclusive};
use crate::rattle::Global;
use crate::rattle::Vec;

impl AddressAllocator {
    /// Allocates a range for each request, in their order, and returns the ranges. Each range is where
    /// [`allocate`](Self::allocate) places it after the requests before it.
    ///
    /// # Errors
    ///
    /// An error leaves the same ranges allocated, because the ranges allocated so far are freed again.
    /// All later calls have the same results. The shape of the tree can differ, and so the height and the
    /// counts of later calls.
    /// - `OutOfMemory` without an index if the allocation of the list fails. This is first, and leaves the
    ///   same tree.
    /// - The error of the first request that fails, with its index.
    pub fn allocate_all(
        &mut self,
        alloc: Global,
        requests: &[Constraint],
    ) -> core::result::Result<Vec<RangeInclusive>, ListError> {
        let mut ranges = Vec::with_capacity(alloc, requests.len())?;
        for (index, request) in requests.iter().enumerate() {
            match self.allocate_constraint(alloc, *request) {
                Ok(range) => {
                    let Ok(()) = ranges.push(range) else {
                        // The list has the capacity for each range.
                        unreachable!()
                    };
                }
                Err(error) => {
                    self.free_all(&mut ranges);
                    let index = Some(index);
                    return Err(ListError { index, error });
                }
            }
        }
        Ok(ranges)
    }

    /// Returns the [`conflict`](Self::conflict) that a request has after earlier requests of a list got their
    /// ranges.
    ///
    /// It allocates these ranges and frees them again, so the same ranges are allocated as before. The shape of
    /// the tree can differ.
    ///
    /// # Errors
    ///
    /// Those of [`allocate_all`](Self::allocate_all) for the earlier requests.
    pub fn conflict_after(
        &mut self,
        alloc: Global,
        earlier: &[Constraint],
        request: Constraint,
    ) -> core::result::Result<Option<Conflict>, ListError> {
        let mut ranges = self.allocate_all(alloc, earlier)?;
        let conflict = self.conflict(request);
        self.free_all(&mut ranges);
        Ok(conflict)
    }

    /// Returns the [`longest_gap_in`](Self::longest_gap_in) a window after earlier requests of a list got their
    /// ranges, like [`conflict_after`](Self::conflict_after).
    ///
    /// # Errors
    ///
    /// Those of [`conflict_after`](Self::conflict_after).
    #[allow(dead_code)]
    pub fn longest_gap_after(
        &mut self,
        alloc: Global,
        earlier: &[Constraint],
        window: &RangeInclusive,
    ) -> core::result::Result<Option<RangeInclusive>, ListError> {
        let mut ranges = self.allocate_all(alloc, earlier)?;
        let longest = self.longest_gap_in(window);
        self.free_all(&mut ranges);
        Ok(longest)
    }

    /// Frees ranges that were allocated one after the other, the last one first. This leads back to the
    /// state before their allocation.
    pub fn free_all(&mut self, ranges: &mut Vec<RangeInclusive>) {
        while let Some(range) = ranges.pop() {
            let _ = self.free(&range);
        }
    }
}
