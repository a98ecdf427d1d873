// SPDX-License-Identifier: Apache-2.0 OR BSD-3-Clause
//! The address allocator.

use crate::handle::{found, Handle};
use crate::lists::fill;
use crate::objects::{calls, object_calls, visits};
use crate::proved::vm_addresses::{
    AddressAllocator, AllocPolicy, Constraint, RangeInclusive, Result as Answer,
};
use crate::rattle::Global;
use crate::requests::{answered, in_the_way, no_range, not_freed};
use crate::texts::{read_space, save_space};
use crate::{dvs_range, dvs_refusal, CallError, In};

/// An address allocator behind a C pointer.
pub type dvs_address_allocator = Handle<AddressAllocator>;

#[inline(always)]
fn allocate(
    space: &mut AddressAllocator,
    request: Constraint,
    wants_details: bool,
) -> Result<dvs_range, CallError> {
    let allocated = space.allocate_constraint(Global, request);
    let details = || no_range(request, space);
    answered(allocated, wants_details, details)
}

fn move_by(
    space: &mut AddressAllocator,
    range: &RangeInclusive,
    request: Constraint,
    wants_details: bool,
) -> Result<dvs_range, CallError> {
    let moved = space.move_constraint(Global, range, request);
    let details = || in_the_way(request, space.move_conflict(range, request));
    answered(moved, wants_details, details)
}

/// Returns the part of the space that begins at `address`, or one address outside the space if there is
/// none.
pub(crate) fn at_or_above(space: &AddressAllocator, address: u64) -> Answer<RangeInclusive> {
    RangeInclusive::new(space.base().max(address), space.end().max(address))
}

/// Returns the part of the space that ends at `address`, like [`at_or_above`].
pub(crate) fn at_or_below(space: &AddressAllocator, address: u64) -> Answer<RangeInclusive> {
    RangeInclusive::new(space.base().min(address), space.end().min(address))
}

visits! {
    dvs_range_visit(space: dvs_address_allocator) of dvs_range { space.held_ranges() }
    dvs_range_visit_in(space: dvs_address_allocator, within: dvs_range) of dvs_range [refusal] {
        space.held_ranges_in(&within.try_into()?)
    }
    dvs_range_visit_from(space: dvs_address_allocator, address: u64) of dvs_range {
        space.held_ranges_in(&at_or_above(space, address)?)
    }
    dvs_range_visit_back(space: dvs_address_allocator, address: u64) of dvs_range {
        space.held_ranges_in(&at_or_below(space, address)?).rev()
    }
    dvs_gap_visit(space: dvs_address_allocator) of dvs_range { space.gaps() }
    dvs_gap_visit_in(space: dvs_address_allocator, within: dvs_range) of dvs_range [refusal] {
        space.gaps_in(&within.try_into()?)
    }
    dvs_gap_visit_from(space: dvs_address_allocator, address: u64) of dvs_range {
        space.gaps_in(&at_or_above(space, address)?)
    }
    dvs_gap_visit_back(space: dvs_address_allocator, address: u64) of dvs_range {
        space.gaps_in(&at_or_below(space, address)?).rev()
    }
}

object_calls! {
    dvs_address_allocator: dvs_address_allocator_destroy, dvs_address_allocator_copy,
        dvs_address_allocator_equal, dvs_address_allocator_save by save_space,
        dvs_address_allocator_read, dvs_address_allocator_read_within
            by |from| read_space(from, AddressAllocator::from_nodes);
        dvs_address_allocator_read_repaired, dvs_address_allocator_read_repaired_within
            by |from| read_space(from, AddressAllocator::from_nodes_repaired)
}

calls! {
    takes dvs_address_allocator_new(base: u64, size: u64) -> made: *mut dvs_address_allocator {
        Handle::new(AddressAllocator::new(Global, base, size)?)?
    }
    takes dvs_range_from_start_length(start: u64, length: u64) -> range: dvs_range {
        RangeInclusive::from_start_len(start, length)?.into()
    }
    takes dvs_range_offset_of(range: dvs_range, address: u64) -> offset: u64 {
        found(RangeInclusive::try_from(range)?.offset_of(address))?
    }
    changes dvs_range_allocate_first(space: In<dvs_address_allocator>, size: u64, alignment: u64)
        -> range: dvs_range [refusal] {
        let request = Constraint::new(size, alignment, AllocPolicy::FirstMatch)?;
        allocate(space, request, refusal.is_some())?
    }
    changes dvs_range_allocate_last(space: In<dvs_address_allocator>, size: u64, alignment: u64)
        -> range: dvs_range [refusal] {
        let request = Constraint::new(size, alignment, AllocPolicy::LastMatch)?;
        allocate(space, request, refusal.is_some())?
    }
    changes dvs_range_allocate_exact(
        space: In<dvs_address_allocator>, size: u64, alignment: u64, start: u64
    ) -> range: dvs_range [refusal] {
        let request = Constraint::new(size, alignment, AllocPolicy::ExactMatch(start))?;
        allocate(space, request, refusal.is_some())?
    }
    changes dvs_range_move(space: In<dvs_address_allocator>, range: dvs_range, start: u64)
        -> moved: dvs_range [refusal] {
        let range = RangeInclusive::try_from(range)?;
        let request = Constraint::new(range.len(), 1, AllocPolicy::ExactMatch(start))?;
        move_by(space, &range, request, refusal.is_some())?
    }
    reads dvs_range_is_allocated(space: In<dvs_address_allocator>, range: dvs_range)
        -> is_allocated: bool [refusal] {
        space.holds(&range.try_into()?)
    }
    reads dvs_range_at(space: In<dvs_address_allocator>, address: u64) -> range: dvs_range {
        found(space.held_at(address))?
    }
    reads dvs_gap_at(space: In<dvs_address_allocator>, address: u64) -> gap: dvs_range {
        found(space.gap_at(address))?
    }
    reads dvs_range_list(
        space: In<dvs_address_allocator>, from: u64, ranges: *mut dvs_range, capacity: usize
    ) -> count: usize {
        // SAFETY: the array is as the header requires.
        unsafe { fill(space.held_ranges_in(&at_or_above(space, from)?), ranges, capacity) }?
    }
    reads dvs_gap_list(
        space: In<dvs_address_allocator>, from: u64, gaps: *mut dvs_range, capacity: usize
    ) -> count: usize {
        // SAFETY: the array is as the header requires.
        unsafe { fill(space.gaps_in(&at_or_above(space, from)?), gaps, capacity) }?
    }
    reads dvs_address_allocator_space(space: In<dvs_address_allocator>) -> ends: dvs_range {
        space.space().into()
    }
    reads dvs_range_count(space: In<dvs_address_allocator>) -> count: u64 { space.held_count() }
    reads dvs_gap_count(space: In<dvs_address_allocator>) -> count: u64 { space.gap_count() }
    reads dvs_longest_gap(space: In<dvs_address_allocator>) -> length: u64 { space.longest_gap() }
    reads dvs_free_length(space: In<dvs_address_allocator>) -> length: u64 { space.free_len() }
    changes dvs_range_free(space: In<dvs_address_allocator>, range: dvs_range) [refusal] {
        let range = range.try_into()?;
        let freed = space.free(&range);
        answered::<(), ()>(freed, refusal.is_some(), || not_freed(space, &range))?
    }
    reads dvs_range_peek(space: In<dvs_address_allocator>; request) -> range: dvs_range [refusal] {
        answered(space.peek(request), refusal.is_some(), || no_range(request, space))?
    }
    changes dvs_range_allocate(space: In<dvs_address_allocator>; request)
        -> range: dvs_range [refusal] {
        allocate(space, request, refusal.is_some())?
    }
    changes dvs_range_move_request(space: In<dvs_address_allocator>, range: dvs_range; request)
        -> moved: dvs_range [refusal] {
        move_by(space, &range.try_into()?, request, refusal.is_some())?
    }
    reads dvs_range_conflict(space: In<dvs_address_allocator>; request) -> conflict: dvs_refusal {
        in_the_way(request, space.conflict(request)).unwrap_or_default()
    }
}
