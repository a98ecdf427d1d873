// Written by bindings/erase from crates/vm_ids/src/saved/read_ids.rt: do not edit.

//! The freed ids of a saved id allocator that were read so far.
//!
//! A reader adds the ids one by one to the set that becomes that of the allocator. It has no other
//! list of them. The first and the last id show whether all of them are in the range.

use crate::proved::vm_ids::id_allocator::{bound_of, IdAllocator};
use crate::proved::vm_list::IdSet;
use crate::proved::vm_ranges::{Condition, SavedError};
use crate::rattle::Global;

/// The freed ids of a saved id allocator that were read so far, in ascending order.
///
/// Its model is the list of these ids.
pub struct ReadIds {
    ids: IdSet,
    // The first and the last of the ids.
    ends: Option<Ends>,
}

/// The first and the last of several ids in ascending order.
#[derive(Clone, Copy)]
pub(super) struct Ends {
    first: u32,
    last: u32,
}

impl ReadIds {
    /// Returns an empty list of ids. It does not allocate.
    pub fn new(alloc: Global) -> Self {
        ReadIds {
            ids: IdSet::new(alloc),
            ends: None,
        }
    }

    /// Adds an id at the end. An error changes nothing.
    ///
    /// # Errors
    ///
    /// In this order:
    /// - `Violated(Order)` if the id is not above the last one.
    /// - `OutOfMemory` if an allocation fails.
    pub fn push(&mut self, id: u32) -> core::result::Result<(), SavedError> {
        let Some(ends) = ends_with(self.ends, id) else {
            return Err(SavedError::Violated(Condition::Order));
        };
        self.ids.add_above(id, id)?;
        self.ends = Some(ends);
        Ok(())
    }
}

impl IdAllocator {
    /// Creates an allocator with this range, this next id and these freed ids.
    ///
    /// The next id is the lowest that was never allocated, or `None` if it would be past
    /// `u32::MAX`. All ids of the range below it are allocated, except the freed ones. The parts can
    /// be untrusted input. It does not allocate memory, and does not visit the ids.
    ///
    /// # Errors
    ///
    /// In this order:
    /// - `Violated(IdRange)` if `range_base` is past `range_end`.
    /// - `Violated(NextId)` if the next id is neither in the range nor right after it, or is `None`
    ///   although `range_end` is below `u32::MAX`.
    /// - `Violated(FreedIds)` if a freed id is outside the range or not below the next id.
    pub fn from_ids(
        range_base: u32,
        next_id: Option<u32>,
        range_end: u32,
        freed_ids: ReadIds,
    ) -> core::result::Result<Self, SavedError> {
        check_parts(range_base, next_id, range_end, freed_ids.ends)?;
        Ok(IdAllocator {
            range_base,
            next_id,
            range_end,
            freed_ids: freed_ids.ids,
        })
    }
}

/// Returns the ends of several ids after an id is added at their end. Returns `None` if it is not
/// above the last one.
pub(super) fn ends_with(ends: Option<Ends>, id: u32) -> Option<Ends> {
    match ends {
        None => Some(Ends {
            first: id,
            last: id,
        }),
        Some(ends) if ends.last < id => Some(Ends { last: id, ..ends }),
        Some(_) => None,
    }
}

/// Checks the range, the next id and the freed ids of an id allocator, in this order. Returns the first
/// condition that they violate as an error. The first and the last of the freed ids decide.
pub(super) fn check_parts(
    base: u32,
    next: Option<u32>,
    end: u32,
    ends: Option<Ends>,
) -> core::result::Result<(), SavedError> {
    if base > end {
        return Err(SavedError::Violated(Condition::IdRange));
    }
    if !is_next(next, base, end) {
        return Err(SavedError::Violated(Condition::NextId));
    }
    if !are_within(ends, base.into(), bound_of(next, end)) {
        return Err(SavedError::Violated(Condition::FreedIds));
    }
    Ok(())
}

/// Returns `true` if `next` can be the next id of the range from `base` to `end`.
fn is_next(next: Option<u32>, base: u32, end: u32) -> bool {
    match next {
        None => end == u32::MAX,
        Some(next) => base <= next && u64::from(next) <= u64::from(end) + 1,
    }
}

/// Returns `true` if all ids between these ends are at least `lowest` and below `bound`.
fn are_within(ends: Option<Ends>, lowest: u64, bound: u64) -> bool {
    match ends {
        None => true,
        Some(ends) => u64::from(ends.first) >= lowest && u64::from(ends.last) < bound,
    }
}
