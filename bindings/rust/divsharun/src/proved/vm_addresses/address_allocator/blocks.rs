// Written by bindings/erase from crates/vm_addresses/src/address_allocator/blocks.rt: do not edit.

//! Iteration over the blocks of a space: the allocated ranges and the gaps.

use super::AddressAllocator;
use crate::proved::vm_ranges::{NodeState, RangeInclusive};
use crate::proved::vm_space::Walk;

/// An iterator over the blocks of a space with their states, from the lowest to the highest, or backwards. It
/// has an exact length, and does not allocate.
///
/// Its model is the list of the blocks that it has not returned yet.
#[derive(Clone)]
pub struct AllBlocks<'a> {
    walk: Walk<'a>,
    /// The number of blocks that are left.
    left: usize,
}

impl<'a> Iterator for AllBlocks<'a> {
    type Item = (RangeInclusive, NodeState);

    /// Returns the lowest block that is left.
    fn next(&mut self) -> Option<(RangeInclusive, NodeState)> {
        let block = self.walk.next()?;
        self.left -= 1;
        Some((block.key, block.state))
    }

    /// Returns the number of blocks that are left, as both bounds.
    fn size_hint(&self) -> (usize, Option<usize>) {
        (self.left, Some(self.left))
    }
}

impl<'a> DoubleEndedIterator for AllBlocks<'a> {
    /// Returns the highest block that is left.
    fn next_back(&mut self) -> Option<(RangeInclusive, NodeState)> {
        let block = self.walk.next_back()?;
        self.left -= 1;
        Some((block.key, block.state))
    }
}

impl<'a> ExactSizeIterator for AllBlocks<'a> {
    /// Returns the number of blocks that are left.
    fn len(&self) -> usize {
        self.left
    }
}

impl AddressAllocator {
    /// Returns an iterator over the allocated ranges and the gaps with their states, from the lowest to the
    /// highest. Its length is exact.
    ///
    /// It does not allocate.
    pub fn blocks(&self) -> AllBlocks<'_> {
        AllBlocks {
            walk: self.walk(),
            left: (self.held_count + self.gap_count) as usize,
        }
    }
}
