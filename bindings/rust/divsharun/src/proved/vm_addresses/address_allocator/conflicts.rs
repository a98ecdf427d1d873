// Written by bindings/erase from crates/vm_addresses/src/address_allocator/conflicts.rt: do not edit.

//! The reason why the range of a request is not free.

use super::AddressAllocator;
use crate::proved::vm_ranges::{AllocPolicy, Constraint, RangeInclusive};

/// The reason why the range of a request is not free.
#[derive(Clone, Copy, Debug, PartialEq, Eq)]
pub enum Conflict {
    /// The range is not in the space, or no range in the window is. This is the space.
    OutsideSpace(RangeInclusive),
    /// The range is in the space and not in the window of the request. This is the window.
    OutsideWindow(RangeInclusive),
    /// This allocated range has an address in common with the range. It is the lowest of them.
    Allocated(RangeInclusive),
}

impl AddressAllocator {
    /// Returns the reason why the range of an `ExactMatch` request is not free, or `None` if it is free.
    ///
    /// It returns the first of these reasons:
    /// - `OutsideSpace` if the range is not in the space.
    /// - `OutsideWindow` if it is not in the window of the request.
    /// - `Allocated` if an allocated range has an address in common with it.
    ///
    /// For the other policies it returns `OutsideSpace` if the window and the space have no address in common,
    /// and otherwise `None`.
    ///
    /// It descends one path of the tree for each end of the range and does not allocate.
    pub fn conflict(&self, request: Constraint) -> Option<Conflict> {
        match range_of(&self.space, request) {
            Err(conflict) => conflict,
            Ok(range) => Some(Conflict::Allocated(self.held_ranges_in(&range).next()?)),
        }
    }

    /// Returns the reason why the range of an `ExactMatch` request is not free if `key` is free, like
    /// [`conflict`](Self::conflict). So `key` is never the reason. Returns `None` if exactly the range `key` is
    /// not allocated.
    ///
    /// It descends one path of the tree for `key` and one for each end of the range, and does not allocate.
    pub fn move_conflict(&self, key: &RangeInclusive, request: Constraint) -> Option<Conflict> {
        if !self.holds(key) {
            return None;
        }
        match range_of(&self.space, request) {
            Err(conflict) => conflict,
            Ok(range) => self.conflict_beside(key, &range),
        }
    }

    /// Returns the lowest allocated range other than `key` that has an address in common with `range`.
    fn conflict_beside(&self, key: &RangeInclusive, range: &RangeInclusive) -> Option<Conflict> {
        let mut ranges = self.held_ranges_in(range);
        let first = ranges.next()?;
        if first.start() == key.start() {
            return Some(Conflict::Allocated(ranges.next()?));
        }
        Some(Conflict::Allocated(first))
    }
}

/// Returns the range of an `ExactMatch` request, or the conflict if it does not depend on allocated ranges.
fn range_of(
    space: &RangeInclusive,
    request: Constraint,
) -> Result<RangeInclusive, Option<Conflict>> {
    let AllocPolicy::ExactMatch(start) = request.policy() else {
        return Err(window_conflict(space, request));
    };
    let Ok(range) = RangeInclusive::from_start_len(start, request.size()) else {
        // The range would end past `u64::MAX`, which no space does.
        return Err(Some(Conflict::OutsideSpace(*space)));
    };
    match request.window() {
        _ if !space.contains(&range) => Err(Some(Conflict::OutsideSpace(*space))),
        Some(window) if !window.contains(&range) => Err(Some(Conflict::OutsideWindow(window))),
        _ => Ok(range),
    }
}

/// Returns `OutsideSpace` if the window of a request and the space have no address in common.
fn window_conflict(space: &RangeInclusive, request: Constraint) -> Option<Conflict> {
    if request.window()?.overlaps(space) {
        return None;
    }
    Some(Conflict::OutsideSpace(*space))
}
