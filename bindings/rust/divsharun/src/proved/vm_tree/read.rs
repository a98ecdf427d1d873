// Written by bindings/erase from crates/vm_tree/src/read.rt: do not edit.

//! The children of a node.

use crate::proved::vm_tree::entries::FANOUT;
use crate::proved::vm_tree::leaf::Leaf;
use crate::proved::vm_tree::node::Node;
use crate::rattle::Box;

/// Returns the child `i`, a leaf.
#[inline(always)]
pub(in crate::proved) fn leaf_in<L: Leaf>(slots: &[Option<Box<L>>; FANOUT], i: usize) -> &L {
    match &slots[i] {
        Some(leaf) => leaf,
        None => unreachable!(),
    }
}

/// Returns the child `i`, a node.
#[inline(always)]
pub(in crate::proved) fn node_in<L: Leaf>(
    slots: &[Option<Box<Node<L>>>; FANOUT],
    i: usize,
) -> &Node<L> {
    match &slots[i] {
        Some(node) => node,
        None => unreachable!(),
    }
}
