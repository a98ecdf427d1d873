// Written by bindings/erase from crates/vm_ids/src/id_allocator.rt: do not edit.

//! An allocator of ids from a range.
//!
//! The ids below the next id were allocated at some time. A set contains the ids that were freed
//! since, as runs of ids that follow each other. Freeing, cloning and skipping ids allocate memory.

use crate::proved::vm_list::IdSet;
use crate::proved::vm_ranges::{Error, Result};
use crate::rattle::Global;

mod comparing;
mod exact;
mod freed_ids;
mod held_ids;
mod held_ids_in;
mod peek;
mod several;
mod with_held;

pub use freed_ids::FreedIds;
pub use held_ids::HeldIds;
pub use held_ids_in::HeldIdsIn;

/// Allocates ids from a range, the lowest free id first.
///
/// An id is never allocated twice at the same time. It keeps the ids that were freed, and those that
/// were skipped below an allocated one. Ids that follow each other take one entry, however many they
/// are. For aligned blocks of ids, use an `AddressAllocator` whose addresses are ids.
#[derive(Debug)]
pub struct IdAllocator {
    pub(in crate::proved::vm_ids) range_base: u32,
    // The lowest id that was never allocated, or `None` if it would be past `u32::MAX`.
    pub(in crate::proved::vm_ids) next_id: Option<u32>,
    pub(in crate::proved::vm_ids) range_end: u32,
    // The ids that were allocated and are free now.
    pub(in crate::proved::vm_ids) freed_ids: IdSet,
}

/// Returns the next id. Returns `Overflow` if there is none, and `ResourceNotAvailable` if it is
/// past `range_end`.
fn next_in_range(next_id: Option<u32>, range_end: u32) -> Result<u32> {
    match next_id {
        None => Err(Error::Overflow),
        Some(id) if id > range_end => Err(Error::ResourceNotAvailable),
        Some(id) => Ok(id),
    }
}

/// Returns the bound of the ids: an id of the range was allocated at some time if and only if it is
/// below the bound.
pub(in crate::proved::vm_ids) fn bound_of(next: Option<u32>, end: u32) -> u64 {
    match next {
        None => u64::from(end) + 1,
        Some(next) => u64::from(next),
    }
}

impl IdAllocator {
    /// Creates an allocator for the ids from `range_base` to `range_end`, both included. All of
    /// them are free.
    ///
    /// It does not allocate memory.
    ///
    /// # Errors
    ///
    /// - `InvalidRange(range_base, range_end)` if `range_end` is below `range_base`.
    pub fn new(alloc: Global, range_base: u32, range_end: u32) -> Result<Self> {
        if range_end < range_base {
            return Err(Error::InvalidRange(range_base.into(), range_end.into()));
        }
        Ok(IdAllocator {
            range_base,
            next_id: Some(range_base),
            range_end,
            freed_ids: IdSet::new(alloc),
        })
    }

    /// Returns the lowest id of the range.
    pub const fn range_base(&self) -> u32 {
        self.range_base
    }

    /// Returns the highest id of the range.
    pub const fn range_end(&self) -> u32 {
        self.range_end
    }

    /// Returns the lowest id that was never allocated, or `None` if it would be past `u32::MAX`.
    ///
    /// It is right after the range if all ids of the range were allocated at some time.
    pub const fn next_id(&self) -> Option<u32> {
        self.next_id
    }

    /// Returns a copy. It has the same range, the same allocated ids and the same ids that were
    /// allocated at some time.
    ///
    /// # Errors
    ///
    /// - `OutOfMemory` if an allocation of memory fails.
    pub fn try_clone(&self, _alloc: Global) -> Result<Self> {
        let freed_ids = self.freed_ids.try_clone()?;
        Ok(IdAllocator {
            range_base: self.range_base,
            next_id: self.next_id,
            range_end: self.range_end,
            freed_ids,
        })
    }

    /// Allocates the lowest free id of the range, and returns it.
    ///
    /// It does not allocate memory, and always succeeds if an id is free.
    ///
    /// # Errors
    ///
    /// An error changes nothing.
    /// - `Overflow` if all ids are allocated and the range ends at `u32::MAX`.
    /// - `ResourceNotAvailable` if all ids are allocated and the range ends below `u32::MAX`.
    #[inline(always)]
    pub fn allocate_id(&mut self) -> Result<u32> {
        if let Some(id) = self.freed_ids.pop_first() {
            return Ok(id);
        }
        let id = next_in_range(self.next_id, self.range_end)?;
        self.next_id = id.checked_add(1);
        Ok(id)
    }

    /// Returns the id that [`allocate_id`](Self::allocate_id) would allocate, and does not allocate
    /// it.
    ///
    /// # Errors
    ///
    /// Those of [`allocate_id`](Self::allocate_id).
    pub fn peek_id(&self) -> Result<u32> {
        match self.freed_ids.first_from(0) {
            Some(id) => Ok(id),
            None => next_in_range(self.next_id, self.range_end),
        }
    }

    /// Returns `true` if the id is allocated. Returns `false` for an id outside the range.
    pub fn is_allocated(&self, id: u32) -> bool {
        self.was_allocated(id) && !self.freed_ids.contains(id)
    }

    /// Returns the number of allocated ids.
    ///
    /// It does not visit the ids, and does not allocate memory.
    pub fn held_count(&self) -> u64 {
        let ever_allocated = bound_of(self.next_id, self.range_end) - u64::from(self.range_base);
        ever_allocated - self.freed_ids.len()
    }

    /// Frees an allocated id, and returns it.
    ///
    /// # Errors
    ///
    /// An error changes nothing. In this order:
    /// - `OutOfRange(id)` if the id is outside the range.
    /// - `NeverAllocated(id)` if the id was never allocated.
    /// - `AlreadyReleased(id)` if the id was freed and was not allocated since.
    /// - `OutOfMemory` if an allocation of memory fails.
    pub fn free_id(&mut self, id: u32) -> Result<u32> {
        if !self.id_in_range(id) {
            return Err(Error::OutOfRange(id));
        }
        if !self.was_allocated(id) {
            return Err(Error::NeverAllocated(id));
        }
        // The set allocates memory only for an id that it does not contain yet.
        if self.freed_ids.insert(id)? {
            Ok(id)
        } else {
            Err(Error::AlreadyReleased(id))
        }
    }

    /// Returns `true` if the id is in the range.
    fn id_in_range(&self, id: u32) -> bool {
        self.range_base <= id && id <= self.range_end
    }

    /// Returns `true` if the id was allocated at some time.
    fn was_allocated(&self, id: u32) -> bool {
        match self.next_id {
            Some(next_id) => self.range_base <= id && id < next_id,
            None => self.id_in_range(id),
        }
    }
}
