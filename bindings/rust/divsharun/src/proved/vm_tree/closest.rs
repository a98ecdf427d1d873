// Written by bindings/erase from crates/vm_tree/src/closest.rt: do not edit.

//! The search of a whole tree.

use crate::proved::vm_tree::leaf::Leaf;
use crate::proved::vm_tree::node::Node;
use crate::proved::vm_tree::search::Seek;
use crate::proved::vm_tree::seek::{seek_at, seek_root};
use crate::proved::vm_tree::tree::{has_changed, leaf_root, node_root, Root, Tree};
use crate::proved::vm_tree::window::{kid_count, low_kid, next_kid};
use crate::rattle::{AllocError, Global};
use crate::rattle::{Box, Vec};
use core::mem;

/// Returns true if a child of a node may have a place. Otherwise the node has none.
#[inline(always)]
pub(in crate::proved::vm_tree) fn may_enter<L: Leaf, S: Seek<L>>(node: &Node<L>, seek: &S) -> bool {
    let end = seek.end();
    let from = low_kid(&node.entries, seek.low());
    let to = kid_count(&node.entries, seek.high());
    let Some(_kid) = next_kid::<L, S>(&node.entries, from, to, end, seek) else {
        return false;
    };
    true
}

/// Searches a root that is a leaf.
fn seek_leaf_root<L: Leaf, S: Seek<L>>(
    mut leaf: Box<L>,
    seek: &mut S,
    alloc: Global,
    count: &mut u64,
) -> (Root<L>, Result<Option<bool>, AllocError>) {
    let mut spares = Vec::new(alloc);
    match seek_root(&mut *leaf, seek, &mut spares, alloc, count) {
        Ok(Some(outcome)) => {
            let done = has_changed(&outcome);
            (leaf_root(leaf, outcome, &mut spares), Ok(Some(done)))
        }
        Ok(None) => (Root::Leaf(leaf), Ok(None)),
        Err(error) => (Root::Leaf(leaf), Err(error)),
    }
}

/// Searches a root that is a node.
fn seek_node_root<L: Leaf, S: Seek<L>>(
    mut node: Box<Node<L>>,
    seek: &mut S,
    alloc: Global,
    count: &mut u64,
) -> (Root<L>, Result<Option<bool>, AllocError>) {
    node.facts();
    if !may_enter::<L, S>(&node, seek) {
        return (Root::Inner(node), Ok(None));
    }
    let mut spares = Vec::new(alloc);
    match seek_at(&mut *node, seek, 1, &mut spares, alloc, count) {
        Ok(Some(outcome)) => {
            let done = has_changed(&outcome);
            (node_root(node, outcome, &mut spares), Ok(Some(done)))
        }
        Ok(None) => (Root::Inner(node), Ok(None)),
        Err(error) => (Root::Inner(node), Err(error)),
    }
}

impl<L: Leaf> Tree<L> {
    /// Changes the leaf that has the place of a search closest to its end. Returns `None` if no leaf has a place, and
    /// otherwise true if the leaf was changed. An error changes nothing.
    pub(in crate::proved) fn seek<S: Seek<L>>(
        &mut self,
        seek: &mut S,
        alloc: Global,
        count: &mut u64,
    ) -> Result<Option<bool>, AllocError> {
        match mem::replace(&mut self.root, Root::Empty) {
            Root::Empty => Ok(None),
            Root::Leaf(leaf) => {
                let (root, found) = seek_leaf_root(leaf, seek, alloc, count);
                self.root = root;
                found
            }
            Root::Inner(node) => {
                let (root, found) = seek_node_root(node, seek, alloc, count);
                self.root = root;
                found
            }
        }
    }
}
