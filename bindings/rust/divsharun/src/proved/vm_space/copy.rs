// Written by bindings/erase from crates/vm_space/src/copy.rt: do not edit.

//! A list of the starts of the blocks of a tree.

use crate::proved::vm_leaf::{BlockStart, Leaf};
use crate::proved::vm_tree::Tree;
use crate::rattle::AllocError;
use crate::rattle::Vec;

/// Appends the starts of the blocks of a leaf to a list, or returns an error if an allocation fails.
fn append_leaf(leaf: &Leaf, list: &mut Vec<BlockStart>) -> Result<(), AllocError> {
    leaf.part(0, leaf.len()).append_starts(list)
}

/// Appends the starts of the blocks of a tree to a list, or returns an error if an allocation fails.
pub(in crate::proved::vm_space) fn append_starts(
    tree: &Tree<Leaf>,
    list: &mut Vec<BlockStart>,
) -> Result<(), AllocError> {
    let mut leaves = tree.leaves();
    while let Some(leaf) = leaves.next_leaf() {
        append_leaf(leaf, list)?;
    }
    Ok(())
}
