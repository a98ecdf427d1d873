// SPDX-License-Identifier: Apache-2.0 OR BSD-3-Clause
//! Calls with arrays of ranges and of requests.

use crate::handle::{non_null, Handle};
use crate::objects::calls;
use crate::proved::vm_addresses::{
    AddressAllocator, Conflict, Constraint, ListConflict, ListError, RangeInclusive,
};
use crate::proved::vm_range_map::ValuedList;
use crate::ranges::dvs_address_allocator;
use crate::rattle::{self, Global};
use crate::requests::{dvs_request, in_the_way, no_fit, refused, window_of};
use crate::status::{
    DVS_CAUSE_EARLIER_REQUEST, DVS_CAUSE_ENDS_AT_MAX, DVS_CAUSE_NOT_AFTER, DVS_CAUSE_OUTSIDE_SPACE,
    DVS_NULL, DVS_OUT_OF_MEMORY,
};
use crate::{dvs_range, dvs_refusal, CallError, In, Out};
use alloc::vec::Vec;
use core::slice;

/// Returns the array of a caller.
///
/// # Errors
///
/// - `Null` if the pointer is null and the array is not empty.
/// - `OutOfMemory` if an array cannot have this length.
///
/// # Safety
///
/// The pointer is null or points to `count` readable members.
pub(crate) unsafe fn array<'a, T>(first: *const T, count: usize) -> Result<&'a [T], CallError> {
    match count {
        0 => Ok(&[]),
        _ if first.is_null() => Err(DVS_NULL.into()),
        _ if count > isize::MAX as usize / size_of::<T>() => Err(DVS_OUT_OF_MEMORY.into()),
        // SAFETY: the members are readable, and their size is at most `isize::MAX`.
        _ => Ok(unsafe { slice::from_raw_parts(first, count) }),
    }
}

/// Writes items to the array of a caller until it is full, and returns their number.
///
/// # Errors
///
/// - `Null` if the pointer is null and the array is not empty.
///
/// # Safety
///
/// The pointer is null or points to `capacity` writable members.
pub(crate) unsafe fn fill<T>(
    items: impl Iterator<Item = impl Into<T>>,
    first: *mut T,
    capacity: usize,
) -> Result<usize, CallError> {
    if first.is_null() && capacity > 0 {
        return Err(DVS_NULL.into());
    }
    let mut count = 0;
    for item in items.take(capacity) {
        // SAFETY: the array has this member.
        unsafe { first.add(count).write(item.into()) };
        count += 1;
    }
    Ok(count)
}

/// Converts each member of the array of a caller.
///
/// # Errors
///
/// In this order:
/// - Those of [`array`].
/// - The error of the first member that fails, with its index.
/// - `OutOfMemory` if the allocation of the list fails.
///
/// # Safety
///
/// The pointer is null or points to `count` readable members.
pub(crate) unsafe fn converted<T, P>(
    first: *const T,
    count: usize,
    convert: impl Fn(&T) -> Result<P, CallError>,
) -> Result<Vec<P>, CallError> {
    // SAFETY: the caller's contract.
    let members = unsafe { array(first, count) }?;
    for (index, member) in members.iter().enumerate() {
        let index = Some(index);
        convert(member).map_err(|failure| CallError { index, ..failure })?;
    }
    let mut list = Vec::from(rattle::Vec::with_capacity(Global, members.len())?);
    list.extend(members.iter().flat_map(convert));
    Ok(list)
}

/// Writes the index of the member of an array that failed to `failed`, or the length of the array if none did.
pub(crate) fn write_failed(answer: &Result<(), CallError>, length: usize, failed: Out<usize>) {
    if let Some(failed) = failed {
        let index = answer.as_ref().err().and_then(|failure| failure.index);
        failed.write(index.unwrap_or(length));
    }
}

/// Returns a list of items, each with its value.
pub(crate) fn valued<P: Copy>(
    items: &[P],
    values: impl Iterator<Item = u64>,
) -> Result<ValuedList<P, u64>, CallError> {
    let mut list = ValuedList::with_capacity(Global, items.len())?;
    for (item, value) in items.iter().zip(values) {
        list.push(*item, value).map_err(|_| DVS_OUT_OF_MEMORY)?;
    }
    Ok(list)
}

/// Returns the range of a caller, or `InvalidRange` if it is not a valid range.
pub(crate) fn checked(range: &dvs_range) -> Result<RangeInclusive, CallError> {
    Ok((*range).try_into()?)
}

/// Returns the error of a list of requests, whose ranges were freed again. Its details are those of a request after
/// the requests before it.
pub(crate) fn refused_all(
    ListError { index, error }: ListError,
    wants_details: bool,
    requests: &[Constraint],
    no_range: impl FnOnce(&[Constraint], Constraint) -> Option<dvs_refusal>,
) -> CallError {
    let details = || no_range(requests.get(..index?)?, *requests.get(index?)?);
    let failure = refused(error, wants_details, details);
    CallError { index, ..failure }
}

/// Writes ranges to the array of a caller.
///
/// # Safety
///
/// The array has a writable member for each range.
pub(crate) unsafe fn write_all(allocated: &[RangeInclusive], ranges: *mut dvs_range) {
    for (index, range) in allocated.iter().enumerate() {
        // SAFETY: the caller's contract.
        unsafe { ranges.add(index).write((*range).into()) };
    }
}

/// Returns the error of a list of ranges. If a range fails, its details have the reason in this space.
pub(crate) fn refused_list(
    ListError { index, error }: ListError,
    space: Option<RangeInclusive>,
    ranges: &[RangeInclusive],
) -> CallError {
    let mut failure = CallError::from(error);
    failure.index = index;
    if let Some(details) = index.and_then(|index| not_after(&space?, ranges, index)) {
        failure.details = details;
    }
    failure
}

/// Returns the details of a range of a list that cannot be allocated after the ranges before it.
fn not_after(
    space: &RangeInclusive,
    ranges: &[RangeInclusive],
    index: usize,
) -> Option<dvs_refusal> {
    let (cause, other) = match AddressAllocator::list_conflict(space, ranges, index)? {
        ListConflict::NotAfter(before) => (DVS_CAUSE_NOT_AFTER, before.into()),
        ListConflict::OutsideSpace(space) => (DVS_CAUSE_OUTSIDE_SPACE, space.into()),
        ListConflict::EndsAtMax => (DVS_CAUSE_ENDS_AT_MAX, dvs_range::default()),
    };
    Some(dvs_refusal {
        range: (*ranges.get(index)?).into(),
        other,
        cause,
        ..dvs_refusal::default()
    })
}

/// Returns the details of a request that gets no range after the requests before it in a list, which the allocator
/// does not keep.
pub(crate) fn no_range_after(
    object: &mut AddressAllocator,
    earlier: &[Constraint],
    request: Constraint,
) -> Option<dvs_refusal> {
    let conflict = object.conflict_after(Global, earlier, request).ok()?;
    let Some(mut details) = in_the_way(request, conflict) else {
        let window = window_of(request, object);
        return Some(no_fit(
            object.longest_gap_after(Global, earlier, &window).ok()?,
        ));
    };
    if matches!(conflict, Some(Conflict::Allocated(range)) if !object.holds(&range)) {
        details.cause = DVS_CAUSE_EARLIER_REQUEST;
    }
    Some(details)
}

calls! {
    takes dvs_address_allocator_with_held(
        base: u64, size: u64, held: *const dvs_range, count: usize
    ) -> made: *mut dvs_address_allocator, failed of count [refusal] {
        // SAFETY: the array is as the header requires.
        let held = unsafe { converted(held, count, checked) }?;
        let space = RangeInclusive::from_start_len(base, size).ok();
        let made = AddressAllocator::with_held(Global, base, size, &held);
        Handle::new(made.map_err(|failure| refused_list(failure, space, &held))?)?
    }
    takes dvs_address_allocator_with_free(ranges: *const dvs_range, count: usize)
        -> made: *mut dvs_address_allocator, failed of count [refusal] {
        // SAFETY: the array is as the header requires.
        let free = unsafe { converted(ranges, count, checked) }?;
        let made = AddressAllocator::with_free(Global, &free);
        // The space starts with the first range, so a range is never outside it.
        Handle::new(made.map_err(|failure| refused_list(failure, free.first().copied(), &free))?)?
    }
    takes dvs_address_allocator_allocate_all(
        allocator: In<dvs_address_allocator>, requests: *const dvs_request, count: usize,
        ranges: *mut dvs_range
    ), failed of count [refusal] {
        let allocator = non_null(allocator)?;
        if count > 0 && (requests.is_null() || ranges.is_null()) {
            return Err(DVS_NULL.into());
        }
        let object = allocator.get_mut()?;
        // SAFETY: the array has `count` readable requests.
        let requests = unsafe { converted(requests, count, dvs_request::constraint) }?;
        let allocated = object.allocate_all(Global, &requests);
        let allocated = allocated
            .map_err(|failure| refused_all(failure, refusal.is_some(), &requests, |earlier, request| {
                no_range_after(object, earlier, request)
            }))?;
        // SAFETY: the array has a writable range for each request.
        unsafe { write_all(&allocated, ranges) };
    }
}
