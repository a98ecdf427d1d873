// Written by bindings/erase from crates/vm_tree/src/walk.rt: do not edit.

//! A walk over leaves.

use crate::proved::vm_tree::entries::Entries;
use crate::proved::vm_tree::leaf::Leaf;
use crate::proved::vm_tree::node::{Kids, Node};
use crate::proved::vm_tree::read::{leaf_in, node_in};

/// Returns the first address of the child after `i`, or `end` if there is none.
#[inline(always)]
fn start_after(entries: &Entries, i: usize, end: Option<u64>) -> Option<u64> {
    let len = entries.len();
    if i + 1 < len {
        Some(entries.entry(i + 1).at)
    } else {
        end
    }
}

/// Returns the leaf to which a key belongs, below a node, and the first address of the next leaf, or `end` if
/// there is none. A walk goes on with the leaf of that address.
pub(in crate::proved) fn leaf_from<L: Leaf>(
    node: &Node<L>,
    key: u64,
    end: Option<u64>,
) -> (&L, Option<u64>) {
    let i = node.entries.index_of(key);
    let next = start_after(&node.entries, i, end);
    match &node.kids {
        Kids::Leaves(slots) => (leaf_in(slots, i), next),
        Kids::Nodes(slots) => leaf_from(node_in(slots, i), key, next),
    }
}
