// Written by bindings/erase from crates/vm_space/src/find.rt: do not edit.

//! The leaf and the block at an address.

use crate::proved::vm_leaf::{Block, Leaf};
use crate::proved::vm_tree::Tree;

/// Returns the leaf whose blocks contain an address. Below all blocks this is the first leaf, and
/// above all blocks the last one. It follows one path from the root.
pub(in crate::proved::vm_space) fn leaf_at(tree: &Tree<Leaf>, address: u64) -> &Leaf {
    match tree.leaf_at(address) {
        Some(leaf) => leaf,
        // A space has a leaf.
        None => unreachable!(),
    }
}

/// Returns the block that contains an address, or `None` if there is no such block.
pub(in crate::proved::vm_space) fn block_at(tree: &Tree<Leaf>, address: u64) -> Option<Block> {
    let leaf = leaf_at(tree, address);
    if address < leaf.start() || leaf.end() < address {
        return None;
    }
    Some(leaf.block_at(leaf.index_of(address)))
}
