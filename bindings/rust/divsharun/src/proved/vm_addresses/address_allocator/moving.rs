// Written by bindings/erase from crates/vm_addresses/src/address_allocator/moving.rt: do not edit.

//! The move of an allocated range to the place of a request.
//!
//! A move is a free and an allocation, or nothing. So that an error needs no undo, it is begun before the range is
//! freed:
//! - A range beside the gap that the moved range leaves is allocated first.
//! - For a range in this gap only memory is allocated first.

use super::AddressAllocator;
use crate::proved::vm_leaf::{highest_fit, lowest_fit};
use crate::proved::vm_ranges::{
    AllocPolicy, Constraint, Error, RangeInclusive, Result, SPLIT_LIMIT,
};
use crate::proved::vm_space::Spare;
use crate::rattle::Global;

/// A move that was begun. Nothing that is left to do can fail.
#[derive(Debug)]
pub struct BegunMove {
    range: RangeInclusive,
    /// `true` if the range is allocated. Otherwise it lies in the gap that the moved range leaves.
    is_allocated: bool,
    /// The memory for a split of this gap.
    spare: Option<Spare>,
}

impl BegunMove {
    /// Returns the move to a range that is allocated.
    fn beside(range: RangeInclusive) -> BegunMove {
        BegunMove {
            range,
            is_allocated: true,
            spare: None,
        }
    }

    /// Returns the range to come.
    pub fn range(&self) -> RangeInclusive {
        self.range
    }
}

impl AddressAllocator {
    /// Moves an allocated range to the place of a request, and returns the range there. A guest does
    /// this when it programs a BAR, and a monitor when it makes a window longer or shorter.
    ///
    /// It frees `key` and allocates a range for the request like
    /// [`allocate_constraint`](Self::allocate_constraint), or changes nothing. So the range can overlap
    /// `key`.
    ///
    /// # Errors
    ///
    /// An error changes nothing, and leaves the same tree. In this order:
    /// - `ResourceNotAvailable` if exactly the range `key` is not allocated.
    /// - The errors of [`allocate_constraint`](Self::allocate_constraint) if `key` is free, in the same
    ///   order.
    pub fn move_constraint(
        &mut self,
        alloc: Global,
        key: &RangeInclusive,
        request: Constraint,
    ) -> Result<RangeInclusive> {
        let begun = self.begin_move(alloc, key, request)?;
        let range = begun.range;
        self.finish_move(alloc, key, begun);
        Ok(range)
    }

    /// Moves an allocated range to another start, and returns the range there.
    ///
    /// This is [`move_constraint`](Self::move_constraint) for as many addresses at `start`, at alignment
    /// 1 and without a window. So it does not check the alignment and the window that the first request
    /// for the range had.
    ///
    /// # Errors
    ///
    /// An error changes nothing, and leaves the same tree. In this order:
    /// - `ResourceNotAvailable` if exactly the range `key` is not allocated.
    /// - `Overflow` if `start` is `u64::MAX`.
    /// - `ResourceNotAvailable` if `start` is outside the space.
    /// - `Overflow` if the new range would end past `u64::MAX`.
    /// - `InvalidStateTransition` if exactly the new range is already allocated, and is not `key`.
    /// - `ResourceNotAvailable` if an address of the new range is allocated to another range than `key`.
    /// - `Overflow` if the new range ends at `u64::MAX`.
    /// - Only if the new range splits its gap:
    ///   - `Overflow` if more than 6,293,134,512 ranges are allocated.
    ///   - `OutOfMemory` if an allocation fails.
    pub fn move_range(
        &mut self,
        alloc: Global,
        key: &RangeInclusive,
        start: u64,
    ) -> Result<RangeInclusive> {
        let Ok(request) = Constraint::new(key.len(), 1, AllocPolicy::ExactMatch(start)) else {
            // A range has a valid length, and 1 divides its start.
            unreachable!()
        };
        self.move_constraint(alloc, key, request)
    }

    /// Begins the move of an allocated range, for a caller who keeps a table beside the allocator. It must be
    /// finished or cancelled before any other change.
    ///
    /// # Errors
    ///
    /// Those of [`move_constraint`](Self::move_constraint), in the same order. An error changes nothing, and
    /// leaves the same tree.
    pub fn begin_move(
        &mut self,
        alloc: Global,
        key: &RangeInclusive,
        request: Constraint,
    ) -> Result<BegunMove> {
        if !self.holds(key) {
            return Err(Error::ResourceNotAvailable);
        }
        let gap = self.gap_left_by(key);
        match place_in(&gap, request) {
            None => self.begin_away(alloc, key, request),
            Some(range) => self.begin_near(alloc, key, &gap, range, request),
        }
    }

    /// Finishes a move of `key` that was begun.
    pub(in crate::proved) fn finish_move(
        &mut self,
        alloc: Global,
        key: &RangeInclusive,
        mut begun: BegunMove,
    ) {
        if begun.is_allocated {
            // An allocated range is always freed.
            let _ = self.free(key);
            return;
        }
        if begun.range != *key {
            self.replace(alloc, key, begun.range, &mut begun.spare);
        }
    }

    /// Cancels a move that was begun. The tree can have another shape than before it.
    pub(in crate::proved) fn cancel_move(&mut self, begun: BegunMove) {
        if begun.is_allocated {
            // An allocated range is always freed.
            let _ = self.free(&begun.range);
        }
    }

    /// Begins a move by a request for which the gap that `key` leaves has no place.
    fn begin_away(
        &mut self,
        alloc: Global,
        key: &RangeInclusive,
        request: Constraint,
    ) -> Result<BegunMove> {
        if asks_for(key, request) {
            // The range lies outside the window.
            return Err(Error::ResourceNotAvailable);
        }
        let range = self.allocate_beside(alloc, request)?;
        Ok(BegunMove::beside(range))
    }

    /// Begins a move by a request whose place in the gap that `key` leaves is that of `range`.
    fn begin_near(
        &mut self,
        alloc: Global,
        key: &RangeInclusive,
        gap: &RangeInclusive,
        range: RangeInclusive,
        request: Constraint,
    ) -> Result<BegunMove> {
        let Some(closer) = closer_than(&range, &self.space, request) else {
            return self.begin_inside(alloc, key, gap, range);
        };
        match self.allocate_beside(alloc, closer) {
            Ok(beside) => Ok(BegunMove::beside(beside)),
            Err(Error::ResourceNotAvailable) => self.begin_inside(alloc, key, gap, range),
            Err(error) => Err(error),
        }
    }

    /// Begins a move to a range in the gap that `key` leaves. It allocates the memory for a split of this gap.
    ///
    /// The errors are, in this order:
    /// - `Overflow` if the range ends at `u64::MAX`.
    /// - Only if the range splits the gap:
    ///   - `Overflow` if more than 6,293,134,512 ranges are allocated.
    ///   - `OutOfMemory` if an allocation fails. This is not possible if the range is `key`.
    fn begin_inside(
        &self,
        alloc: Global,
        key: &RangeInclusive,
        gap: &RangeInclusive,
        range: RangeInclusive,
    ) -> Result<BegunMove> {
        let splits = range != *gap;
        if range.end() == u64::MAX || splits && self.held_count > SPLIT_LIMIT {
            return Err(Error::Overflow);
        }
        let spare = if splits && range != *key {
            Some(Spare::new(alloc, self.held_count, range)?)
        } else {
            None
        };
        Ok(BegunMove {
            range,
            is_allocated: false,
            spare,
        })
    }

    /// Allocates the range of a request, beside a range that will be freed. So this range does not count for
    /// the limit of splits.
    fn allocate_beside(&mut self, alloc: Global, request: Constraint) -> Result<RangeInclusive> {
        let can_split = self.held_count <= SPLIT_LIMIT;
        self.allocate_with(&mut None, alloc, request, can_split).0
    }

    /// Frees `key`, and allocates `range` in the gap that it leaves.
    fn replace(
        &mut self,
        alloc: Global,
        key: &RangeInclusive,
        range: RangeInclusive,
        spare: &mut Option<Spare>,
    ) {
        // An allocated range is always freed.
        let _ = self.free(key);
        let policy = AllocPolicy::ExactMatch(range.start());
        let Ok(request) = Constraint::new(range.len(), 1, policy) else {
            // A range has a valid length, and 1 divides its start.
            unreachable!()
        };
        let can_split = self.held_count < SPLIT_LIMIT;
        // The memory for it is there.
        let _ = self.allocate_with(spare, alloc, request, can_split);
    }

    /// Returns the gap that an allocated range leaves when it is freed.
    fn gap_left_by(&self, key: &RangeInclusive) -> RangeInclusive {
        RangeInclusive::between(self.left_start(key), self.left_end(key))
    }

    /// Returns the first address of the gap that an allocated range leaves.
    fn left_start(&self, key: &RangeInclusive) -> u64 {
        let start = key.start();
        if start == 0 {
            return 0;
        }
        match self.gap_at(start - 1) {
            Some(gap) => gap.start(),
            None => start,
        }
    }

    /// Returns the last address of the gap that an allocated range leaves.
    fn left_end(&self, key: &RangeInclusive) -> u64 {
        let end = key.end();
        match self.gap_at(end + 1) {
            Some(gap) => gap.end(),
            None => end,
        }
    }
}

/// Returns the range of a request at the place in the gap that its policy chooses, or `None` if the gap has
/// no place for it.
pub(super) fn place_in(gap: &RangeInclusive, request: Constraint) -> Option<RangeInclusive> {
    let (low, high) = ends_in(gap, request.window());
    let start = start_between(low, high, request)?;
    Some(RangeInclusive::between(start, start + (request.size() - 1)))
}

/// Returns the ends of the part of a gap that lies in the window. If there is none, the first is above the
/// second.
pub(super) fn ends_in(gap: &RangeInclusive, window: Option<RangeInclusive>) -> (u64, u64) {
    match window {
        None => (gap.start(), gap.end()),
        Some(window) => (window.start().max(gap.start()), window.end().min(gap.end())),
    }
}

/// Returns the start that the policy of a request chooses between two addresses, or `None` if its range does
/// not fit there.
fn start_between(low: u64, high: u64, request: Constraint) -> Option<u64> {
    let size = request.size();
    match request.policy() {
        AllocPolicy::FirstMatch => lowest_fit(low, high, size, request.align()),
        AllocPolicy::LastMatch => highest_fit(low, high, size, request.align()),
        AllocPolicy::ExactMatch(start) => {
            if start < low || high < start || high - start < size - 1 {
                return None;
            }
            Some(start)
        }
    }
}

/// Returns the request for the ranges that the policy chooses before `range`, or `None` if the window ends
/// there.
fn closer_than(
    range: &RangeInclusive,
    space: &RangeInclusive,
    request: Constraint,
) -> Option<Constraint> {
    let window = match request.window() {
        None => *space,
        Some(window) => window,
    };
    let closer = match request.policy() {
        AllocPolicy::FirstMatch if window.start() < range.end() => {
            RangeInclusive::between(window.start(), range.end() - 1)
        }
        AllocPolicy::LastMatch if range.start() < window.end() => {
            RangeInclusive::between(range.start() + 1, window.end())
        }
        _ => return None,
    };
    Some(request.within(closer))
}

/// Returns `true` if a request is for exactly this range: at its start, and as long.
fn asks_for(range: &RangeInclusive, request: Constraint) -> bool {
    request.size() == range.len() && request.policy() == AllocPolicy::ExactMatch(range.start())
}
