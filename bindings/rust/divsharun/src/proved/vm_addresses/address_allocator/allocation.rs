// Written by bindings/erase from crates/vm_addresses/src/address_allocator/allocation.rt: do not edit.

//! Allocates the range of a request.

use super::AddressAllocator;
use crate::proved::vm_ranges::{
    AllocPolicy, Constraint, Error, NodeState, RangeInclusive, Result, SPLIT_LIMIT,
};
use crate::proved::vm_space::{End, Refusal, Search, Space, Spare, Taken};
use crate::rattle::Global;

impl AddressAllocator {
    /// Allocates like [`allocate_constraint`](Self::allocate_constraint), and also returns the number
    /// of tree nodes that the call entered.
    ///
    /// A request without a window has the bounds of [`allocate_counted`](Self::allocate_counted). Let
    /// h be the [`height`](Self::height) and k the number of allocated ranges before the call. With a
    /// window, the count is
    /// - at most h for `ExactMatch`.
    /// - at most 2k + 1 for `FirstMatch` and `LastMatch`.
    /// - at most h(v + 2) for these two. Here v is the number of parts of gaps in the window that are long
    ///   enough but misaligned.
    ///
    /// # Errors
    ///
    /// Those of [`allocate_constraint`](Self::allocate_constraint), in the same order.
    #[inline(always)]
    pub fn allocate_constraint_counted(
        &mut self,
        alloc: Global,
        request: Constraint,
    ) -> (Result<RangeInclusive>, u64) {
        let can_split = self.held_count < SPLIT_LIMIT;
        self.allocate_with(&mut None, alloc, request, can_split)
    }

    /// Allocates like [`allocate_constraint_counted`](Self::allocate_constraint_counted). It splits gaps only
    /// if `can_split`. For `ExactMatch` it allocates no memory if there is a `spare`.
    #[inline(always)]
    pub(super) fn allocate_with(
        &mut self,
        spare: &mut Option<Spare>,
        alloc: Global,
        request: Constraint,
        can_split: bool,
    ) -> (Result<RangeInclusive>, u64) {
        let mut count = 0;
        let (tree, space) = (&mut self.tree, &self.space);
        let taken = match allocate_in(tree, space, &request, can_split, spare, alloc, &mut count) {
            Ok(taken) => taken,
            Err(error) => return (Err(error), count),
        };
        self.held_count += 1;
        self.gap_count += u64::from(taken.added);
        self.gap_count -= 1;
        self.free_len -= request.size();
        (Ok(taken.range), count)
    }
}

/// Allocates the range of a request in the tree of a space.
#[inline(always)]
fn allocate_in(
    tree: &mut Space,
    space: &RangeInclusive,
    constraint: &Constraint,
    can_split: bool,
    spare: &mut Option<Spare>,
    alloc: Global,
    count: &mut u64,
) -> Result<Taken> {
    // Proof: the tree is valid.
    tree.facts();
    let search = search_of(constraint, space, can_split);
    let end = match constraint.policy() {
        AllocPolicy::FirstMatch => End::First,
        AllocPolicy::LastMatch => End::Last,
        AllocPolicy::ExactMatch(start) => {
            return allocate_exact(tree, space, start, &search, spare, alloc, count);
        }
    };
    with_error(tree.allocate_fit(end, &search, alloc, count), space)
}

/// Allocates the range of a search that starts at `start`.
///
/// The errors are, in this order:
/// - `Overflow` if `start` is `u64::MAX`.
/// - `ResourceNotAvailable` if `start` is outside the space or outside the window.
/// - `Overflow` if the range would end past `u64::MAX`.
/// - The error of the tree.
#[inline(always)]
fn allocate_exact(
    tree: &mut Space,
    space: &RangeInclusive,
    start: u64,
    search: &Search,
    spare: &mut Option<Spare>,
    alloc: Global,
    count: &mut u64,
) -> Result<Taken> {
    if start == u64::MAX {
        return Err(Error::Overflow);
    }
    let (from, to) = (search.low.max(space.start()), search.high.min(space.end()));
    if start < from || to < start {
        return Err(Error::ResourceNotAvailable);
    }
    let Some(last) = start.checked_add(search.size - 1) else {
        return Err(Error::Overflow);
    };
    let range = RangeInclusive::between(start, last);
    with_error(
        tree.allocate_exact(start, search, spare, alloc, count),
        &range,
    )
}

/// Returns the search of a request in a space.
#[inline(always)]
pub(super) fn search_of(
    constraint: &Constraint,
    space: &RangeInclusive,
    can_split: bool,
) -> Search {
    let window = match constraint.window() {
        None => *space,
        Some(window) => window,
    };
    Search {
        size: constraint.size(),
        alignment: constraint.align(),
        low: window.start(),
        high: window.end(),
        can_split,
    }
}

/// Returns what a search found, with the error of its refusal. A search for `range` alone can find that
/// it is allocated.
#[inline(always)]
fn with_error(
    found: core::result::Result<Taken, Refusal>,
    range: &RangeInclusive,
) -> Result<Taken> {
    let refusal = match found {
        Ok(taken) => return Ok(taken),
        Err(refusal) => refusal,
    };
    Err(match refusal {
        Refusal::NoPlace => Error::ResourceNotAvailable,
        Refusal::Held => Error::InvalidStateTransition(*range, NodeState::Allocated),
        Refusal::PastMax | Refusal::CannotSplit => Error::Overflow,
        Refusal::OutOfMemory(failed) => Error::from(failed),
    })
}
