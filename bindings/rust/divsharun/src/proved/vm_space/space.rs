// Written by bindings/erase from crates/vm_space/src/space.rt: do not edit.

//! The blocks of a space.
//!
//! All calls pass the tree to functions of this crate that ask for a valid space, which the invariant of [`Space`] gives.

use crate::proved::vm_leaf::{Block, BlockStart, Leaf};
use crate::proved::vm_ranges::{NodeState, RangeInclusive};
use crate::proved::vm_space::build::build_tree;
use crate::proved::vm_space::closest::{fit_in_space, look_in_space};
use crate::proved::vm_space::copy::append_starts;
use crate::proved::vm_space::exact::Exact;
use crate::proved::vm_space::find::block_at;
use crate::proved::vm_space::free::free_in_tree;
use crate::proved::vm_space::search::{Refusal, Search, Taken};
use crate::proved::vm_space::spare::{take, Spare};
use crate::proved::vm_space::walk::Walk;
use crate::proved::vm_tree::{End, Tree};
use crate::rattle::{AllocError, Global};
use crate::rattle::{Box, Vec};
use core::fmt::{Debug, Formatter};

/// The blocks of a space, in the leaves of a tree.
pub(in crate::proved) struct Space {
    tree: Tree<Leaf>,
}

impl Space {
    /// Creates a space that is free as a whole. It allocates one leaf.
    pub(in crate::proved) fn new(
        alloc: Global,
        space: RangeInclusive,
    ) -> Result<Space, AllocError> {
        let block = Block {
            key: space,
            state: NodeState::Free,
        };
        let leaf = Box::new(alloc, Leaf::single(block))?;
        Ok(Space {
            tree: Tree::single(leaf),
        })
    }

    /// Creates the tree of a space in which these ranges are allocated. It has the fewest leaves, and the
    /// minimum height for them.
    ///
    /// It returns an error if an allocation fails.
    ///
    /// `held` must be in ascending order, in the space, without overlaps and without `u64::MAX`. `count` must
    /// be the number of blocks: the ranges, and the gaps between them.
    pub(in crate::proved) fn with_held(
        alloc: Global,
        count: u64,
        space: RangeInclusive,
        held: &[RangeInclusive],
    ) -> Result<Space, AllocError> {
        Ok(Space {
            tree: build_tree(alloc, count, &space, held)?,
        })
    }

    /// Returns a copy with the same nodes, or an error if an allocation fails.
    pub(in crate::proved) fn try_clone(&self, alloc: Global) -> Result<Space, AllocError> {
        Ok(Space {
            tree: self.tree.copy(alloc)?,
        })
    }

    /// Proof: the tree is valid.
    pub(in crate::proved) fn facts(&self) {
        self.tree.facts();
        if let Some(leaf) = self.tree.only_leaf() {
            let _len = leaf.len();
        }
    }

    /// Returns the height: the number of nodes on the path to a leaf. A leaf is a node.
    pub(in crate::proved) fn height(&self) -> u64 {
        self.tree.height()
    }

    /// Returns the length of the longest gap, or 0 if there is none.
    pub(in crate::proved) fn longest_gap(&self) -> u64 {
        self.tree.entry().longest
    }

    /// Returns the block that contains an address, or `None` outside the space.
    pub(in crate::proved) fn block_at(&self, address: u64) -> Option<Block> {
        block_at(&self.tree, address)
    }

    /// Appends the starts of all blocks to a list, or returns an error if an allocation fails.
    pub(in crate::proved) fn append_starts(
        &self,
        list: &mut Vec<BlockStart>,
    ) -> Result<(), AllocError> {
        append_starts(&self.tree, list)
    }

    /// Returns an iterator over all blocks, from both ends. It does not allocate.
    pub(in crate::proved) fn blocks(&self) -> Walk<'_> {
        Walk::new(&self.tree)
    }

    /// Returns an iterator over the blocks that have an address in common with `window`, from both ends. It
    /// does not allocate.
    pub(in crate::proved) fn blocks_in(&self, window: &RangeInclusive) -> Walk<'_> {
        Walk::within(&self.tree, window)
    }

    /// Allocates the range of a search that starts at `start`.
    ///
    /// It returns `Held` if exactly this range is allocated, and otherwise `NoPlace` if the range is not in a
    /// gap and in the window. It returns `PastMax` if the range ends at `u64::MAX`, `CannotSplit` if gaps cannot be
    /// split, and `OutOfMemory` if an allocation fails. It does not allocate if there is a `spare` for as many ranges
    /// as are allocated. An error changes nothing.
    ///
    /// `start` must be in the space and in the window, and the range must end at most at `u64::MAX`.
    pub(in crate::proved) fn allocate_exact(
        &mut self,
        start: u64,
        search: &Search,
        spare: &mut Option<Spare>,
        alloc: Global,
        count: &mut u64,
    ) -> Result<Taken, Refusal> {
        // Proof: the tree is valid.
        self.facts();
        if start == u64::MAX {
            return Err(Refusal::PastMax);
        }
        let (leaf, mut nodes) = take(spare, alloc);
        let mut exact = Exact {
            start,
            search: *search,
            answer: Err(Refusal::NoPlace),
            spare: leaf,
        };
        self.tree
            .edit_with(start, &mut exact, &mut nodes, alloc, count)?;
        exact.answer
    }

    /// Frees an allocated range, and joins it with the gaps on both sides. Returns the number of these gaps:
    /// 0, 1 or 2.
    ///
    /// It returns `None`, and changes nothing, unless exactly this range is allocated. It does not allocate
    /// memory, and enters at most three nodes for each level of the tree.
    ///
    /// The range must start in the space.
    pub(in crate::proved) fn free(&mut self, key: &RangeInclusive, count: &mut u64) -> Option<u64> {
        if key.start() == u64::MAX {
            return None;
        }
        free_in_tree(&mut self.tree, key, count)
    }

    /// Returns the range of the place of a search that is closest to an end, or `None` if there is no place.
    pub(in crate::proved) fn look_fit(&self, end: End, search: &Search) -> Option<RangeInclusive> {
        look_in_space(&self.tree, end, search)
    }

    /// Allocates the place of a search that is closest to an end: the lowest or the highest place.
    ///
    /// It returns `NoPlace` if there is none, `PastMax` if the range there ends at `u64::MAX`, `CannotSplit` if gaps
    /// cannot be split, and `OutOfMemory` if an allocation fails. An error changes nothing.
    pub(in crate::proved) fn allocate_fit(
        &mut self,
        end: End,
        search: &Search,
        alloc: Global,
        count: &mut u64,
    ) -> Result<Taken, Refusal> {
        fit_in_space(&mut self.tree, end, search, alloc, count)
    }
}

impl Debug for Space {
    fn fmt(&self, f: &mut Formatter<'_>) -> core::fmt::Result {
        f.debug_list().entries(self.blocks()).finish()
    }
}
