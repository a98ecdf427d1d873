// Written by bindings/erase from crates/vm_addresses/src/address_allocator/comparing.rt: do not edit.

//! Equality and order of allocators.
//!
//! Both compare states, so the shapes of the trees do not matter.

use super::AddressAllocator;
use crate::proved::vm_space::Walk;
use core::cmp::Ordering;

impl PartialEq for AddressAllocator {
    /// Returns `true` if both allocators have the same space and the same allocated ranges.
    ///
    /// It stops at the first difference and does not allocate.
    fn eq(&self, other: &AddressAllocator) -> bool {
        self.cmp(other) == Ordering::Equal
    }
}

impl Eq for AddressAllocator {}

impl PartialOrd for AddressAllocator {
    /// Compares like `cmp`.
    fn partial_cmp(&self, other: &AddressAllocator) -> Option<Ordering> {
        Some(self.cmp(other))
    }
}

impl Ord for AddressAllocator {
    /// Compares the spaces, then the first blocks that differ.
    ///
    /// Blocks are compared by start, then by end, then by state, where `Free` is less than
    /// `Allocated`. If the blocks of one allocator are a prefix of the blocks of the other, it is
    /// less. It stops at the first difference and does not allocate.
    fn cmp(&self, other: &AddressAllocator) -> Ordering {
        match self.space.cmp(&other.space) {
            Ordering::Equal => self.cmp_blocks(other),
            unequal => unequal,
        }
    }
}

impl AddressAllocator {
    /// Compares the first blocks that differ, by start, then by end, then by state. If the blocks of one
    /// allocator are a prefix of the blocks of the other, it is less.
    pub fn cmp_blocks(&self, other: &AddressAllocator) -> Ordering {
        compare_blocks(self.walk(), other.walk())
    }
}

/// Compares two walks by the first blocks that differ. If the blocks of one walk are a prefix of the
/// other's, the walk with fewer blocks is less.
fn compare_blocks(left: Walk<'_>, right: Walk<'_>) -> Ordering {
    left.cmp(right)
}
