// Written by bindings/erase from crates/vm_space/src/spare.rt: do not edit.

//! Memory for the split of a gap, for a caller that cannot use an error later.

use crate::proved::vm_leaf::{Block, Leaf, MIN_BLOCKS};
use crate::proved::vm_ranges::{NodeState, RangeInclusive};
use crate::proved::vm_tree::{reserve_nodes, Node};
use crate::rattle::{AllocError, Global};
use crate::rattle::{Box, Vec};
use core::fmt::{Debug, Formatter};

/// Memory for the split of a gap: a leaf, and a node for each level of the tree.
pub(in crate::proved) struct Spare {
    pub(in crate::proved::vm_space) leaf: Box<Leaf>,
    pub(in crate::proved::vm_space) nodes: Vec<Box<Node<Leaf>>>,
}

impl Spare {
    /// Allocates the memory for a split in any tree with up to `held` allocated ranges. The leaf has one block, of
    /// `range`.
    pub(in crate::proved) fn new(
        alloc: Global,
        held: u64,
        range: RangeInclusive,
    ) -> Result<Spare, AllocError> {
        let block = Block {
            key: range,
            state: NodeState::Allocated,
        };
        let leaf = Box::new(alloc, Leaf::single(block))?;
        let mut nodes = Vec::new(alloc);
        reserve_nodes(&mut nodes, highest_with(held), alloc)?;
        Ok(Spare { leaf, nodes })
    }
}

/// Takes the memory, if there is any.
pub(in crate::proved::vm_space) fn take(
    spare: &mut Option<Spare>,
    alloc: Global,
) -> (Option<Box<Leaf>>, Vec<Box<Node<Leaf>>>) {
    match spare.take() {
        Some(spare) => (Some(spare.leaf), spare.nodes),
        None => (None, Vec::new(alloc)),
    }
}

/// Returns the maximum height of a tree with up to `held` allocated ranges.
fn highest_with(held: u64) -> usize {
    let mut height = 1;
    let mut least = MIN_BLOCKS as u64;
    while least <= held {
        height += 1;
        least *= 5;
    }
    height
}

impl Debug for Spare {
    fn fmt(&self, f: &mut Formatter<'_>) -> core::fmt::Result {
        f.write_str("Spare")
    }
}
