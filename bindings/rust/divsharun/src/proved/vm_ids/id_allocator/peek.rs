// Written by bindings/erase from crates/vm_ids/src/id_allocator/peek.rt: do not edit.

//! The id that a request would allocate.

use super::IdAllocator;
use crate::proved::vm_ids::id_request::IdRequest;
use crate::proved::vm_ranges::{Error, Result};

impl IdAllocator {
    /// Returns the id that the request would allocate if memory suffices, and does not allocate it.
    ///
    /// # Errors
    ///
    /// - Those of [`allocate_id`](Self::allocate_id), [`allocate_in`](Self::allocate_in) or
    ///   [`allocate_exact`](Self::allocate_exact), but never `OutOfMemory`.
    pub fn peek(&self, request: IdRequest) -> Result<u32> {
        match request {
            IdRequest::Lowest => self.peek_id(),
            IdRequest::LowestIn(first, last) => self.peek_in(first, last),
            IdRequest::Exact(id) => self.peek_exact(id),
        }
    }

    /// Returns the id that [`allocate_in`](Self::allocate_in) would allocate.
    pub(super) fn peek_in(&self, first: u32, last: u32) -> Result<u32> {
        if last < first {
            return Err(Error::InvalidRange(first.into(), last.into()));
        }
        self.lowest_in(first, last)
            .ok_or(Error::ResourceNotAvailable)
    }

    /// Returns the id if [`allocate_exact`](Self::allocate_exact) would allocate it.
    fn peek_exact(&self, id: u32) -> Result<u32> {
        if !self.id_in_range(id) {
            return Err(Error::OutOfRange(id));
        }
        if self.is_allocated(id) {
            return Err(Error::ResourceNotAvailable);
        }
        Ok(id)
    }
}
