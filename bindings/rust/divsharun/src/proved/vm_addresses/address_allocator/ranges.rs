// Written by bindings/erase from crates/vm_addresses/src/address_allocator/ranges.rt: do not edit.

//! Iteration over the ranges with a state: over the allocated ranges, or over the gaps.

use crate::proved::vm_ranges::{NodeState, RangeInclusive};
use crate::proved::vm_space::Walk;

/// An iterator over the allocated ranges in a window, or over the gaps there, from the lowest to the
/// highest, or backwards. It does not allocate.
///
/// Its model is the list of the ranges that it has not returned yet.
#[derive(Clone)]
pub struct RangesIn<'a> {
    pub(super) blocks: Walk<'a>,
    /// The state of the ranges.
    pub(super) state: NodeState,
}

impl<'a> Iterator for RangesIn<'a> {
    type Item = RangeInclusive;

    /// Returns the lowest range that is left.
    fn next(&mut self) -> Option<RangeInclusive> {
        while let Some(block) = self.blocks.next() {
            if block.state == self.state {
                return Some(block.key);
            }
        }
        None
    }
}

impl<'a> DoubleEndedIterator for RangesIn<'a> {
    /// Returns the highest range that is left.
    fn next_back(&mut self) -> Option<RangeInclusive> {
        while let Some(block) = self.blocks.next_back() {
            if block.state == self.state {
                return Some(block.key);
            }
        }
        None
    }
}

/// An iterator over all allocated ranges, or over all gaps, from the lowest to the highest, or backwards.
/// It has an exact length, and does not allocate.
///
/// Its model is the list of the ranges that it has not returned yet.
#[derive(Clone)]
pub struct Ranges<'a> {
    pub(super) ranges: RangesIn<'a>,
    /// The number of ranges that are left.
    pub(super) left: usize,
}

impl<'a> Iterator for Ranges<'a> {
    type Item = RangeInclusive;

    /// Returns the lowest range that is left.
    fn next(&mut self) -> Option<RangeInclusive> {
        let range = self.ranges.next()?;
        self.left -= 1;
        Some(range)
    }

    /// Returns the number of ranges that are left, as both bounds.
    fn size_hint(&self) -> (usize, Option<usize>) {
        (self.left, Some(self.left))
    }
}

impl<'a> DoubleEndedIterator for Ranges<'a> {
    /// Returns the highest range that is left.
    fn next_back(&mut self) -> Option<RangeInclusive> {
        let range = self.ranges.next_back()?;
        self.left -= 1;
        Some(range)
    }
}

impl<'a> ExactSizeIterator for Ranges<'a> {
    /// Returns the number of ranges that are left.
    fn len(&self) -> usize {
        self.left
    }
}
