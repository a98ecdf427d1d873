// Written by bindings/erase from crates/vm_addresses/src/address_allocator/held_ranges.rt: do not edit.

//! Queries of the allocated ranges: iterators, a test, a search by an address, and a count.

use super::ranges::{Ranges, RangesIn};
use super::AddressAllocator;
use crate::proved::vm_ranges::{NodeState, RangeInclusive};

impl AddressAllocator {
    /// Returns an iterator over the allocated ranges, from the lowest to the highest. Its length is
    /// exact.
    ///
    /// It does not allocate.
    pub fn held_ranges(&self) -> Ranges<'_> {
        let ranges = RangesIn {
            blocks: self.walk(),
            state: NodeState::Allocated,
        };
        Ranges {
            ranges,
            left: self.held_count as usize,
        }
    }

    /// Returns an iterator over the allocated ranges that have an address in common with `range`,
    /// from the lowest to the highest.
    ///
    /// Each range is returned whole. If `range` is in the space, it is free if and only if there is no
    /// item. It descends one path of the tree for each end of `range` and does not allocate.
    pub fn held_ranges_in(&self, range: &RangeInclusive) -> RangesIn<'_> {
        RangesIn {
            blocks: self.walk_in(range),
            state: NodeState::Allocated,
        }
    }

    /// Returns `true` if exactly this range is allocated.
    ///
    /// Returns `false` for a part of an allocated range and for a free range. It descends one path
    /// of the tree and does not allocate.
    pub fn holds(&self, key: &RangeInclusive) -> bool {
        let Some(block) = self.tree.block_at(key.start()) else {
            return false;
        };
        block.state == NodeState::Allocated && block.key == *key
    }

    /// Returns the allocated range that contains an address, or `None` if the address is free or
    /// outside the space.
    ///
    /// It descends one path of the tree and does not allocate.
    pub fn held_at(&self, address: u64) -> Option<RangeInclusive> {
        let block = self.tree.block_at(address)?;
        match block.state {
            NodeState::Free => None,
            NodeState::Allocated => Some(block.key),
        }
    }

    /// Returns the number of allocated ranges.
    ///
    /// It takes constant time and does not allocate.
    pub fn held_count(&self) -> u64 {
        self.held_count
    }
}
