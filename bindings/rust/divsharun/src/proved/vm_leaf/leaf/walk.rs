// Written by bindings/erase from crates/vm_leaf/src/leaf/walk.rt: do not edit.

//! Iteration over the blocks of a leaf from both ends.

use super::{after_cut, state_in, Leaf};
use crate::proved::vm_leaf::block::{Block, BlockStart};
use crate::proved::vm_ranges::RangeInclusive;
use crate::rattle::AllocError;
use crate::rattle::Vec;

/// An iterator over consecutive blocks of a leaf, from both ends.
#[derive(Clone)]
pub(in crate::proved) struct Blocks<'a> {
    /// The cut before the first block that is left.
    before: u64,
    /// The last addresses of the blocks that are left.
    ends: &'a [u64],
    /// The states of the blocks that are left. The lowest bit is that of the first one.
    held: u64,
}

/// Returns the last of these cuts.
#[inline(always)]
fn last_cut(before: u64, ends: &[u64]) -> u64 {
    match ends.last() {
        None => before,
        Some(end) => *end,
    }
}

impl Leaf {
    /// Returns an iterator over the blocks with the indices `from..to`.
    pub(in crate::proved) fn part<'a>(&'a self, from: usize, to: usize) -> Blocks<'a> {
        Blocks {
            before: self.cuts[from],
            ends: &self.cuts[from + 1..to + 1],
            held: self.held >> from,
        }
    }
}

impl<'a> Blocks<'a> {
    /// Returns an iterator over no blocks.
    #[inline(always)]
    pub(in crate::proved) fn none() -> Blocks<'a> {
        Blocks {
            before: 0,
            ends: &[],
            held: 0,
        }
    }

    /// Appends the starts of the blocks that are left to a list, or returns an error if an allocation fails.
    pub(in crate::proved) fn append_starts(
        &self,
        list: &mut Vec<BlockStart>,
    ) -> Result<(), AllocError> {
        let mut held = self.held;
        let mut before = self.before;
        for end in self.ends {
            let address = after_cut(before);
            let state = state_in(held, 0);
            list.push(BlockStart { address, state })?;
            before = *end;
            held >>= 1;
        }
        Ok(())
    }
}

impl<'a> Iterator for Blocks<'a> {
    type Item = Block;

    /// Removes and returns the lowest block that is left.
    #[inline(always)]
    fn next(&mut self) -> Option<Block> {
        let Some((end, others)) = self.ends.split_first() else {
            return None;
        };
        let key = RangeInclusive::between(after_cut(self.before), *end);
        let state = state_in(self.held, 0);
        self.before = *end;
        self.ends = others;
        self.held >>= 1;
        Some(Block { key, state })
    }
}

impl<'a> DoubleEndedIterator for Blocks<'a> {
    /// Removes and returns the highest block that is left.
    #[inline(always)]
    fn next_back(&mut self) -> Option<Block> {
        let Some((end, rest)) = self.ends.split_last() else {
            return None;
        };
        let key = RangeInclusive::between(after_cut(last_cut(self.before, rest)), *end);
        let state = state_in(self.held, rest.len());
        self.ends = rest;
        Some(Block { key, state })
    }
}
