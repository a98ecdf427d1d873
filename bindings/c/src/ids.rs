// SPDX-License-Identifier: Apache-2.0 OR BSD-3-Clause
//! The id allocator.

use crate::handle::{non_null, Handle};
use crate::lists::{array, fill};
use crate::objects::{calls, object_calls, visits};
use crate::proved::vm_ids::IdAllocator;
use crate::rattle::Global;
use crate::status::{refused_id, DVS_NULL};
use crate::texts::{read_ids, text_of};
use crate::{CallError, In, Out};

/// An id allocator behind a C pointer.
pub type dvs_id_allocator = Handle<IdAllocator>;

/// Returns the first id of a list that is not greater than the id before it, or 0 if there is none.
fn first_not_above(ids: &[u32]) -> u32 {
    let wrong = ids.windows(2).find(|pair| pair[0] >= pair[1]);
    wrong.map_or(0, |pair| pair[1])
}

/// Writes the first id of an allocator to `first`, and returns the last one.
pub(crate) fn write_range(ids: &IdAllocator, first: Out<u32>) -> Result<u32, CallError> {
    non_null(first)?.write(ids.range_base());
    Ok(ids.range_end())
}

object_calls! {
    dvs_id_allocator: dvs_id_allocator_destroy, dvs_id_allocator_copy, dvs_id_allocator_equal,
        dvs_id_allocator_save by text_of,
        dvs_id_allocator_read, dvs_id_allocator_read_within by read_ids
}

calls! {
    takes dvs_id_allocator_new(first: u32, last: u32) -> made: *mut dvs_id_allocator [refusal] {
        Handle::new(IdAllocator::new(Global, first, last)?)?
    }
    takes dvs_id_allocator_with_held(first: u32, last: u32, held: *const u32, count: usize)
        -> made: *mut dvs_id_allocator [refusal] {
        // SAFETY: the array is null or has `count` readable ids.
        let held = unsafe { array(held, count) }?;
        let made = IdAllocator::with_held(Global, first, last, held);
        Handle::new(made.map_err(|error| refused_id(error, first_not_above(held)))?)?
    }
    takes dvs_ids_allocate(allocator: In<dvs_id_allocator>, ids: *mut u32, count: usize) {
        let allocator = non_null(allocator)?;
        if ids.is_null() && count > 0 {
            return Err(DVS_NULL.into());
        }
        let allocated = allocator.get_mut()?.allocate_ids(Global, count)?;
        for (index, id) in allocated.iter().enumerate() {
            // SAFETY: the array has a writable id for each index.
            unsafe { ids.add(index).write(*id) };
        }
    }
    changes dvs_id_allocate(ids: In<dvs_id_allocator>) -> id: u32 { ids.allocate_id()? }
    changes dvs_id_allocate_in(ids: In<dvs_id_allocator>, first: u32, last: u32)
        -> id: u32 [refusal] {
        ids.allocate_in(first, last)?
    }
    changes dvs_id_allocate_exact(ids: In<dvs_id_allocator>, id: u32) [refusal] {
        ids.allocate_exact(id).map_err(|error| refused_id(error, id))?;
    }
    changes dvs_id_free(ids: In<dvs_id_allocator>, id: u32) [refusal] {
        ids.free_id(id)?;
    }
    reads dvs_id_allocator_range(ids: In<dvs_id_allocator>, first: Out<u32>) -> last: u32 {
        write_range(ids, first)?
    }
    reads dvs_id_peek(ids: In<dvs_id_allocator>) -> id: u32 { ids.peek_id()? }
    reads dvs_id_is_allocated(ids: In<dvs_id_allocator>, id: u32) -> is_allocated: bool {
        ids.is_allocated(id)
    }
    reads dvs_id_list(
        allocator: In<dvs_id_allocator>, from: u32, ids: *mut u32, capacity: usize
    ) -> count: usize {
        // SAFETY: the array is as the header requires.
        unsafe { fill(allocator.held_ids_in(from, u32::MAX), ids, capacity) }?
    }
    reads dvs_id_count(ids: In<dvs_id_allocator>) -> count: u64 { ids.held_count() }
    reads dvs_id_free_count(ids: In<dvs_id_allocator>) -> count: u64 { ids.free_count() }
}

visits! {
    dvs_id_visit(ids: dvs_id_allocator) of u32 { ids.held_ids() }
}
