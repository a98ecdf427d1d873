// SPDX-License-Identifier: Apache-2.0 OR BSD-3-Clause
//! The map from allocated ranges to values.

use crate::handle::{found, non_null, Handle};
use crate::lists::{
    array, checked, converted, fill, no_range_after, refused_all, refused_list, valued, write_all,
};
use crate::objects::{calls, object_calls, visits};
use crate::proved::vm_addresses::RangeInclusive;
use crate::proved::vm_range_map::RangeMap;
use crate::ranges::{at_or_above, at_or_below};
use crate::rattle::Global;
use crate::requests::{answered, dvs_request, in_the_way, no_range, not_freed};
use crate::status::DVS_NULL;
use crate::{dvs_range, dvs_refusal, In};

/// A map behind a C pointer.
pub type dvs_range_map = Handle<RangeMap<u64>>;

/// An allocated range and its value.
#[repr(C)]
pub struct dvs_valued_range {
    range: dvs_range,
    value: u64,
}

impl From<(RangeInclusive, &u64)> for dvs_valued_range {
    fn from((range, value): (RangeInclusive, &u64)) -> Self {
        let (range, value) = (range.into(), *value);
        dvs_valued_range { range, value }
    }
}

object_calls! { dvs_range_map: dvs_range_map_destroy, dvs_range_map_copy, dvs_range_map_equal }

calls! {
    takes dvs_range_map_new(base: u64, size: u64) -> made: *mut dvs_range_map {
        Handle::new(RangeMap::new(Global, base, size)?)?
    }
    takes dvs_range_map_with_held(
        base: u64, size: u64, held: *const dvs_valued_range, count: usize
    ) -> made: *mut dvs_range_map, failed of count [refusal] {
        // SAFETY: the array is as the header requires.
        let (ranges, held) = unsafe {
            (converted(held, count, |valued| checked(&valued.range))?, array(held, count)?)
        };
        let list = valued(&ranges, held.iter().map(|valued| valued.value))?;
        let space = RangeInclusive::from_start_len(base, size).ok();
        let made = RangeMap::with_held(Global, base, size, list);
        Handle::new(made.map_err(|refused| refused_list(refused.error, space, &ranges))?)?
    }
    takes dvs_range_map_allocate_all(
        map: In<dvs_range_map>, requests: *const dvs_request, values: *const u64, count: usize,
        ranges: *mut dvs_range
    ), failed of count [refusal] {
        let map = non_null(map)?;
        if count > 0 && (requests.is_null() || values.is_null() || ranges.is_null()) {
            return Err(DVS_NULL.into());
        }
        let map = map.get_mut()?;
        // SAFETY: both arrays have `count` readable members.
        let (requests, values) = unsafe {
            (converted(requests, count, dvs_request::constraint)?, array(values, count)?)
        };
        let list = valued(&requests, values.iter().copied())?;
        let allocated = map.allocate_all(Global, list).map_err(|refused| {
            refused_all(refused.error, refusal.is_some(), &requests, |earlier, request| {
                let mut space = map.addresses().try_clone(Global).ok()?;
                no_range_after(&mut space, earlier, request)
            })
        })?;
        // SAFETY: the array has a writable range for each request.
        unsafe { write_all(&allocated, ranges) };
    }
    changes dvs_range_map_allocate(map: In<dvs_range_map>, value: u64; request)
        -> range: dvs_range [refusal] {
        let allocated = map.allocate_constraint(Global, request, value).map_err(|refused| refused.error);
        let details = || no_range(request, map.addresses());
        answered(allocated, refusal.is_some(), details)?
    }
    changes dvs_range_map_move(map: In<dvs_range_map>, range: dvs_range; request)
        -> moved: dvs_range [refusal] {
        let range = range.try_into()?;
        let moved = map.move_constraint(Global, &range, request);
        let details = || in_the_way(request, map.addresses().move_conflict(&range, request));
        answered(moved, refusal.is_some(), details)?
    }
    changes dvs_range_map_free(map: In<dvs_range_map>, range: dvs_range) -> value: u64 [refusal] {
        let range = range.try_into()?;
        let freed = map.free(&range);
        answered::<u64, u64>(freed, refusal.is_some(), || not_freed(map.addresses(), &range))?
    }
    changes dvs_range_map_set(map: In<dvs_range_map>, address: u64, value: u64) -> before: u64 {
        found(map.set(address, value).ok())?
    }
    reads dvs_range_map_get(map: In<dvs_range_map>, address: u64) -> valued: dvs_valued_range {
        found(map.get(address))?
    }
    reads dvs_range_map_list(
        map: In<dvs_range_map>, from: u64, ranges: *mut dvs_valued_range, capacity: usize
    ) -> count: usize {
        let held = map.held_ranges_in(&at_or_above(map.addresses(), from)?);
        // SAFETY: the array is as the header requires.
        unsafe { fill(held, ranges, capacity) }?
    }
    reads dvs_range_map_gap_list(
        map: In<dvs_range_map>, from: u64, gaps: *mut dvs_range, capacity: usize
    ) -> count: usize {
        let space = map.addresses();
        // SAFETY: the array is as the header requires.
        unsafe { fill(space.gaps_in(&at_or_above(space, from)?), gaps, capacity) }?
    }
    reads dvs_range_map_conflict(map: In<dvs_range_map>; request) -> conflict: dvs_refusal {
        in_the_way(request, map.addresses().conflict(request)).unwrap_or_default()
    }
    reads dvs_range_map_move_conflict(map: In<dvs_range_map>, range: dvs_range; request)
        -> conflict: dvs_refusal {
        let conflict = map.addresses().move_conflict(&range.try_into()?, request);
        in_the_way(request, conflict).unwrap_or_default()
    }
    reads dvs_range_map_count(map: In<dvs_range_map>) -> count: u64 { map.addresses().held_count() }
    reads dvs_range_map_space(map: In<dvs_range_map>) -> ends: dvs_range {
        map.space().into()
    }
}

visits! {
    dvs_range_map_visit(map: dvs_range_map) of dvs_valued_range { map.iter() }
    dvs_range_map_visit_in(map: dvs_range_map, within: dvs_range) of dvs_valued_range [refusal] {
        map.held_ranges_in(&within.try_into()?)
    }
    dvs_range_map_visit_from(map: dvs_range_map, address: u64) of dvs_valued_range {
        map.held_ranges_in(&at_or_above(map.addresses(), address)?)
    }
    dvs_range_map_visit_back(map: dvs_range_map, address: u64) of dvs_valued_range {
        map.held_ranges_in(&at_or_below(map.addresses(), address)?).rev()
    }
    dvs_range_map_gap_visit(map: dvs_range_map) of dvs_range { map.addresses().gaps() }
}
