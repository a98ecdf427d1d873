// Written by bindings/erase from crates/vm_space/src/edge.rt: do not edit.

//! A held block at an end of its leaf, and the gap beside it in the next leaf.

use crate::proved::vm_leaf::{Block, Leaf, MIN_BLOCKS};
use crate::proved::vm_ranges::NodeState;
use crate::proved::vm_tree::{Cut, Cutting, End, Entry};

/// A held block at an end of its leaf.
#[derive(Clone, Copy)]
pub(in crate::proved::vm_space) struct Edge {
    /// The end of the leaf at which the block is.
    pub(in crate::proved::vm_space) end: End,
    /// The first address of the leaf.
    pub(in crate::proved::vm_space) at: u64,
    /// The address at which the block ends, or starts if it is the last one, with a gap beside it in the leaf.
    pub(in crate::proved::vm_space) to: u64,
}

/// Returns the end of a gap that ends at `end`, joined with the block after it if that is free.
#[inline(always)]
fn end_with(end: u64, next: &Block) -> u64 {
    match next.state {
        NodeState::Free => next.key.end(),
        NodeState::Allocated => end,
    }
}

/// Returns the start of a gap that starts at `start`, joined with the block before it if that is free.
#[inline(always)]
fn start_with(start: u64, last: &Block) -> u64 {
    match last.state {
        NodeState::Free => last.key.start(),
        NodeState::Allocated => start,
    }
}

/// Returns the edge of the first block of a leaf, which is held and not alone.
fn first_edge(leaf: &Leaf) -> Edge {
    Edge {
        end: End::First,
        at: leaf.start(),
        to: end_with(leaf.block_at(0).key.end(), &leaf.block_at(1)),
    }
}

/// Returns the edge of the last block of a leaf, which is held and not alone.
fn last_edge(leaf: &Leaf) -> Edge {
    let last = leaf.len() - 1;
    Edge {
        end: End::Last,
        at: leaf.start(),
        to: start_with(leaf.block_at(last).key.start(), &leaf.block_at(last - 1)),
    }
}

/// Returns the edge of block `i`, which is held. Returns `None` if it is not at an end of the leaf, or is alone.
pub(in crate::proved::vm_space) fn edge_of(leaf: &Leaf, i: usize) -> Option<Edge> {
    let len = leaf.len();
    if len == 1 {
        return None;
    }
    if i == 0 {
        return Some(first_edge(leaf));
    }
    if i + 1 == len {
        return Some(last_edge(leaf));
    }
    None
}

/// Extends the last block up to `last`, if it is a gap that ends right before `start`.
fn extend_last(leaf: &mut Leaf, start: u64, last: u64) -> bool {
    let len = leaf.len();
    if leaf.end() >= start || start - leaf.end() > 1 {
        return false;
    }
    if leaf.start() == 0 && last == u64::MAX {
        return false;
    }
    let gap = leaf.block_at(len - 1);
    match gap.state {
        NodeState::Allocated => false,
        NodeState::Free => {
            leaf.move_end(last);
            true
        }
    }
}

/// Extends the first block down to `first`, if it is a gap that starts right after `end`.
fn extend_first(leaf: &mut Leaf, end: u64, first: u64) -> bool {
    let _len = leaf.len();
    if leaf.start() <= end || leaf.start() - end > 1 {
        return false;
    }
    if first == 0 && leaf.end() == u64::MAX {
        return false;
    }
    let gap = leaf.block_at(0);
    match gap.state {
        NodeState::Allocated => false,
        NodeState::Free => {
            leaf.move_start(first);
            true
        }
    }
}

/// Drops the first block, and a gap after it.
fn drop_first(leaf: &mut Leaf) {
    leaf.drop_first();
    match leaf.block_at(0).state {
        NodeState::Allocated => {}
        NodeState::Free => leaf.drop_first(),
    }
}

/// Drops the last block, and a gap before it.
fn drop_last(leaf: &mut Leaf) {
    leaf.drop_last();
    match leaf.block_at(leaf.len() - 1).state {
        NodeState::Allocated => {}
        NodeState::Free => leaf.drop_last(),
    }
}

/// Extends the gap beside a block over it, in the next leaf.
pub(in crate::proved::vm_space) struct Extend {
    /// The end of its leaf at which the block is.
    pub(in crate::proved::vm_space) end: End,
    /// The first address of the block, or the last one if it is at the end of its leaf.
    pub(in crate::proved::vm_space) beside: u64,
    /// The other end of the block, with a gap beside it in its leaf.
    pub(in crate::proved::vm_space) to: u64,
}

impl Cut<Leaf> for Extend {
    fn cut(&mut self, leaf: &mut Leaf, _was: Entry) -> Cutting {
        let extended = match self.end {
            End::First => extend_last(leaf, self.beside, self.to),
            End::Last => extend_first(leaf, self.beside, self.to),
        };
        if extended {
            return Cutting::Changed(crate::proved::vm_tree::Leaf::entry(leaf));
        }
        Cutting::Refused
    }
}

/// Drops the block at an end of a leaf, and a gap beside it.
pub(in crate::proved::vm_space) struct DropEnd {
    pub(in crate::proved::vm_space) end: End,
    /// The number of blocks that were dropped.
    pub(in crate::proved::vm_space) dropped: u64,
}

impl Cut<Leaf> for DropEnd {
    fn cut(&mut self, leaf: &mut Leaf, _was: Entry) -> Cutting {
        let len = leaf.len();
        if len < MIN_BLOCKS {
            return Cutting::Refused;
        }
        match self.end {
            End::First => drop_first(leaf),
            End::Last => drop_last(leaf),
        }
        let left = leaf.len();
        self.dropped = (len - left) as u64;
        if left < MIN_BLOCKS {
            return Cutting::Small(crate::proved::vm_tree::Leaf::entry(leaf));
        }
        Cutting::Changed(crate::proved::vm_tree::Leaf::entry(leaf))
    }
}

/// Frees the held block at an end of a leaf, and joins it with a gap beside it in the leaf.
pub(in crate::proved::vm_space) struct FreeEnd {
    pub(in crate::proved::vm_space) end: End,
    /// The number of gaps that were joined.
    pub(in crate::proved::vm_space) joined: u64,
}

impl Cut<Leaf> for FreeEnd {
    fn cut(&mut self, leaf: &mut Leaf, _was: Entry) -> Cutting {
        let len = leaf.len();
        let i = match self.end {
            End::First => 0,
            End::Last => len - 1,
        };
        if let NodeState::Free = leaf.block_at(i).state {
            return Cutting::Refused;
        }
        leaf.join(i);
        let left = leaf.len();
        self.joined = (len - left) as u64;
        if left < MIN_BLOCKS {
            return Cutting::Small(crate::proved::vm_tree::Leaf::entry(leaf));
        }
        Cutting::Changed(crate::proved::vm_tree::Leaf::entry(leaf))
    }
}
