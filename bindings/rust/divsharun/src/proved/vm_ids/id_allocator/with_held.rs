// Written by bindings/erase from crates/vm_ids/src/id_allocator/with_held.rt: do not edit.

//! Creates an id allocator of its range and the list of its allocated ids.

use super::IdAllocator;
use crate::proved::vm_ranges::{Error, Result};
use crate::rattle::Global;

impl IdAllocator {
    /// Creates an allocator for the ids from `range_base` to `range_end`, both included, in which these
    /// ids are allocated. They are given in ascending order.
    ///
    /// It is equal to a new allocator after [`allocate_exact`](Self::allocate_exact) of each id. The ids
    /// can be untrusted input. All of them are checked before memory is allocated. Memory is allocated
    /// only for the ids that the list skips: those from `range_base` up to its last id that it does not
    /// contain. Ids that follow each other take one entry, however many they are.
    ///
    /// # Errors
    ///
    /// In this order:
    /// - `InvalidRange(range_base, range_end)` if `range_end` is below `range_base`.
    /// - The error of the first id that is wrong:
    ///   - `OutOfRange(id)` if the id is outside the range.
    ///   - `ResourceNotAvailable` if the id is not above the id before it.
    /// - `OutOfMemory` if an allocation of memory fails.
    pub fn with_held(alloc: Global, range_base: u32, range_end: u32, held: &[u32]) -> Result<Self> {
        let mut ids = IdAllocator::new(alloc, range_base, range_end)?;
        check_held(range_base, range_end, held)?;
        for id in held {
            ids.allocate_new(*id)?;
        }
        Ok(ids)
    }
}

/// Returns the error of the first id that is outside the range or not above the id before it.
fn check_held(range_base: u32, range_end: u32, held: &[u32]) -> Result<()> {
    let mut next = u64::from(range_base);
    for id in held {
        let id = *id;
        if id < range_base || id > range_end {
            return Err(Error::OutOfRange(id));
        }
        if u64::from(id) < next {
            return Err(Error::ResourceNotAvailable);
        }
        next = u64::from(id) + 1;
    }
    Ok(())
}
