// Written by bindings/erase from crates/vm_leaf/src/leaf/ends.rt: do not edit.

//! The first and the last address of a leaf, a copy of a leaf, and one more block at its end.

use super::{with_held, Leaf};
use crate::proved::vm_leaf::block::Block;
use crate::proved::vm_ranges::NodeState;

/// Returns the mask `held` of `i` blocks with the state of one more block.
#[inline(always)]
fn with_next(held: u64, i: usize, state: NodeState) -> u64 {
    match state {
        NodeState::Free => held,
        NodeState::Allocated => with_held(held, i),
    }
}

impl Leaf {
    /// Returns the first address.
    #[inline(always)]
    pub(in crate::proved) fn start(&self) -> u64 {
        self.start_at(0)
    }

    /// Returns the last address.
    #[inline(always)]
    pub(in crate::proved) fn end(&self) -> u64 {
        let len = self.len;
        self.cuts[len]
    }

    /// Returns a leaf with the same blocks.
    #[inline(always)]
    pub(in crate::proved) fn copy(&self) -> Leaf {
        Leaf {
            held: self.held,
            len: self.len,
            cuts: self.cuts,
        }
    }

    /// Appends a block, which must start right after the last block. The leaf must have room for it.
    #[inline(always)]
    pub(in crate::proved) fn push(&mut self, block: Block) {
        let len = self.len;
        self.cuts[len + 1] = block.key.end();
        self.held = with_next(self.held, len, block.state);
        self.len = len + 1;
    }
}
