// Written by bindings/erase from crates/vm_tree/src/copy.rt: do not edit.

//! Copies of trees.

use crate::proved::vm_tree::entries::FANOUT;
use crate::proved::vm_tree::leaf::Leaf;
use crate::proved::vm_tree::node::{Kids, Node};
use crate::proved::vm_tree::slots::{insert_slot, no_slots};
use crate::rattle::Box;
use crate::rattle::{AllocError, Global};

/// A leaf that can be copied.
pub(in crate::proved) trait CopyLeaf: Leaf {
    /// Returns a leaf with the same items.
    fn try_copy(&self, alloc: Global) -> Result<Box<Self>, AllocError>;
}

/// Returns copies of leaves.
fn copy_leaves<L: CopyLeaf>(
    slots: &[Option<Box<L>>; FANOUT],
    len: usize,
    alloc: Global,
) -> Result<[Option<Box<L>>; FANOUT], AllocError> {
    let mut to = no_slots();
    for i in 0..len {
        match &slots[i] {
            Some(kid) => {
                let kid: &L = kid;
                insert_slot(&mut to, i, i, kid.try_copy(alloc)?);
            }
            None => unreachable!(),
        }
    }
    Ok(to)
}

/// Returns copies of nodes.
fn copy_nodes<L: CopyLeaf>(
    slots: &[Option<Box<Node<L>>>; FANOUT],
    len: usize,
    alloc: Global,
) -> Result<[Option<Box<Node<L>>>; FANOUT], AllocError> {
    let mut to = no_slots();
    for i in 0..len {
        match &slots[i] {
            Some(kid) => {
                let kid: &Node<L> = kid;
                insert_slot(&mut to, i, i, copy_node(kid, alloc)?);
            }
            None => unreachable!(),
        }
    }
    Ok(to)
}

/// Returns a copy of a node, with the same children in each node.
pub(in crate::proved::vm_tree) fn copy_node<L: CopyLeaf>(
    node: &Node<L>,
    alloc: Global,
) -> Result<Box<Node<L>>, AllocError> {
    let entries = node.entries.copy();
    match &node.kids {
        Kids::Leaves(slots) => {
            let kids = Kids::Leaves(copy_leaves(slots, entries.len(), alloc)?);
            Ok(Box::new(alloc, Node { entries, kids })?)
        }
        Kids::Nodes(slots) => {
            let kids = Kids::Nodes(copy_nodes(slots, entries.len(), alloc)?);
            Ok(Box::new(alloc, Node { entries, kids })?)
        }
    }
}
