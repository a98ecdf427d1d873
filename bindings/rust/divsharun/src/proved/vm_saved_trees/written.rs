// Written by bindings/erase from crates/vm_saved_trees/src/written.rt: do not edit.

//! The saved tree that is written for a tree: a balanced tree of its blocks.
//!
//! The blocks decide its shape, so trees with the same blocks are written in the same way.

use crate::proved::vm_leaf::BlockStart;
use crate::proved::vm_ranges::{NodeState, RangeInclusive};
use crate::rattle::Vec;

/// The blocks of a space in ascending order.
///
/// Its model is the list of the blocks.
pub struct WrittenBlocks {
    starts: Vec<BlockStart>,
    // The last address of the space.
    end: u64,
}

impl WrittenBlocks {
    /// Returns the blocks with these starts, of which the last ends at `end`.
    pub(in crate::proved) fn new(starts: Vec<BlockStart>, end: u64) -> Self {
        WrittenBlocks { starts, end }
    }

    /// Returns the saved tree of all blocks.
    pub fn tree(&self) -> WrittenTree<'_> {
        WrittenTree {
            starts: &self.starts,
            end: self.end,
        }
    }
}

/// The saved tree of some blocks.
///
/// Its model is the list of the blocks.
#[derive(Clone)]
pub struct WrittenTree<'a> {
    starts: &'a [BlockStart],
    // The last address of the last block.
    end: u64,
}

/// A node of a saved tree.
#[derive(Clone)]
pub struct WrittenNode<'a> {
    /// The range of the block.
    pub key: RangeInclusive,
    /// The state of the block.
    pub state: NodeState,
    /// The left child.
    pub left: WrittenTree<'a>,
    /// The right child.
    pub right: WrittenTree<'a>,
    /// The height of the node.
    pub height: u64,
}

/// Returns the last address before these starts, or `end` if there is no start.
fn last_before(starts: &[BlockStart], end: u64) -> u64 {
    match starts.first() {
        Some(next) => next.address.saturating_sub(1),
        None => end,
    }
}

impl<'a> WrittenTree<'a> {
    /// Returns `true` if there is no block, so there is no root.
    pub fn is_empty(&self) -> bool {
        self.starts.is_empty()
    }

    /// Returns the root: the block in the middle, and the trees of the blocks before and after it.
    pub fn root(&self) -> Option<WrittenNode<'a>> {
        let count = self.starts.len();
        let (before, rest) = self.starts.split_at(count / 2);
        let Some((block, after)) = rest.split_first() else {
            return None;
        };
        Some(WrittenNode {
            key: RangeInclusive::between(block.address, last_before(after, self.end)),
            state: block.state,
            left: WrittenTree {
                starts: before,
                end: block.address.saturating_sub(1),
            },
            right: WrittenTree {
                starts: after,
                end: self.end,
            },
            height: u64::from(count.ilog2()) + 1,
        })
    }
}
