// Written by bindings/erase from crates/vm_addresses/src/address_allocator/peeking.rt: do not edit.

//! The result of a request without a change.

use super::allocation::search_of;
use super::moving::ends_in;
use super::AddressAllocator;
use crate::proved::vm_ranges::{
    AllocPolicy, Constraint, Error, NodeState, RangeInclusive, Result, SPLIT_LIMIT,
};
use crate::proved::vm_space::End;

impl AddressAllocator {
    /// Returns `true` if a range of free addresses fills its gap.
    fn fills_gap(&self, range: &RangeInclusive) -> bool {
        match self.gap_at(range.start()) {
            None => false,
            Some(gap) => gap == *range,
        }
    }

    /// Returns the range that [`allocate_constraint`](Self::allocate_constraint) would allocate now, and
    /// changes nothing. So a monitor can check a configuration before it begins.
    ///
    /// For `ExactMatch` it descends one path of the tree for each end of the range. For the other policies it
    /// searches as [`allocate_constraint`](Self::allocate_constraint) does. It does not allocate.
    ///
    /// # Errors
    ///
    /// Those of [`allocate_constraint`](Self::allocate_constraint) except `OutOfMemory`, in the same order.
    pub fn peek(&self, request: Constraint) -> Result<RangeInclusive> {
        match request.policy() {
            AllocPolicy::FirstMatch => self.settle(End::First, request),
            AllocPolicy::LastMatch => self.settle(End::Last, request),
            AllocPolicy::ExactMatch(start) => self.peek_exact(start, request),
        }
    }

    /// Returns the result of a request with another policy than `ExactMatch`.
    fn settle(&self, end: End, request: Constraint) -> Result<RangeInclusive> {
        let Some(range) = self.chosen_place(end, request) else {
            return Err(Error::ResourceNotAvailable);
        };
        self.settle_at(range)
    }

    /// Returns the range at the place that the policy of a request chooses, or `None` if there is no place.
    fn chosen_place(&self, end: End, request: Constraint) -> Option<RangeInclusive> {
        let search = search_of(&request, &self.space, true);
        self.tree.look_fit(end, &search)
    }

    /// Returns the result of a request with the policy `ExactMatch(start)`.
    fn peek_exact(&self, start: u64, request: Constraint) -> Result<RangeInclusive> {
        let size = request.size();
        if start == u64::MAX {
            return Err(Error::Overflow);
        }
        let (low, high) = ends_in(&self.space(), request.window());
        if start < low {
            return Err(Error::ResourceNotAvailable);
        }
        if high < start {
            return Err(Error::ResourceNotAvailable);
        }
        let Ok(range) = RangeInclusive::from_start_len(start, size) else {
            return Err(Error::Overflow);
        };
        if self.holds(&range) {
            return Err(Error::InvalidStateTransition(range, NodeState::Allocated));
        }
        if self.conflict(request).is_some() {
            return Err(Error::ResourceNotAvailable);
        }
        self.settle_at(range)
    }

    /// Returns the range at the place that a request gets, or the error of the range.
    ///
    /// The errors are:
    /// - `Overflow` if the range ends at `u64::MAX`.
    /// - `Overflow` if it splits its gap and too many ranges are allocated.
    fn settle_at(&self, range: RangeInclusive) -> Result<RangeInclusive> {
        if range.end() == u64::MAX {
            return Err(Error::Overflow);
        }
        if self.fills_gap(&range) {
            return Ok(range);
        }
        if self.held_count < SPLIT_LIMIT {
            return Ok(range);
        }
        Err(Error::Overflow)
    }
}
