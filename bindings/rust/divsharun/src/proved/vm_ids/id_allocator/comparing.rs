// Written by bindings/erase from crates/vm_ids/src/id_allocator/comparing.rt: do not edit.

//! Equality of id allocators.

use super::IdAllocator;

impl PartialEq for IdAllocator {
    /// Returns `true` if both allocators have the same range, the same allocated ids and the same ids
    /// that were allocated at some time.
    ///
    /// It stops at the first difference and does not allocate memory.
    fn eq(&self, other: &IdAllocator) -> bool {
        self.has_bounds_of(other) && self.freed_ids.equals(&other.freed_ids)
    }
}

impl Eq for IdAllocator {}

impl IdAllocator {
    /// Returns `true` if both allocators have the same range and the same ids that were allocated at
    /// some time.
    fn has_bounds_of(&self, other: &IdAllocator) -> bool {
        self.range_base == other.range_base
            && self.range_end == other.range_end
            && self.next_id == other.next_id
    }
}
