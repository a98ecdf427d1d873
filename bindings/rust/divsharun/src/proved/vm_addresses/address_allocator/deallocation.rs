// Written by bindings/erase from crates/vm_addresses/src/address_allocator/deallocation.rt: do not edit.

//! Frees an allocated range.

use super::AddressAllocator;
use crate::proved::vm_ranges::{Error, RangeInclusive, Result};

impl AddressAllocator {
    /// Frees like [`free`](Self::free), and also returns the number of tree nodes that the call
    /// entered.
    ///
    /// The count is at most 3h if h is the [`height`](Self::height) before the call, and at least 1 for a
    /// success.
    ///
    /// # Errors
    ///
    /// Those of [`free`](Self::free).
    pub fn free_counted(&mut self, key: &RangeInclusive) -> (Result<()>, u64) {
        if key.start() < self.space.start() || self.space.end() < key.start() {
            return (Err(Error::ResourceNotAvailable), 0);
        }
        // Proof: the tree is valid.
        self.tree.facts();
        let mut count = 0;
        let Some(joined) = self.tree.free(key, &mut count) else {
            return (Err(Error::ResourceNotAvailable), count);
        };
        self.held_count -= 1;
        self.gap_count -= joined;
        self.gap_count += 1;
        self.free_len += key.len();
        (Ok(()), count)
    }
}
