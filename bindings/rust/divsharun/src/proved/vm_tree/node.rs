// Written by bindings/erase from crates/vm_tree/src/node.rt: do not edit.

//! The shape of a tree.
use crate::proved::vm_tree::entries::{Entries, FANOUT};
use crate::proved::vm_tree::leaf::Leaf;
use crate::rattle::Box;

/// The children of a node.
pub(in crate::proved) enum Kids<L: Leaf> {
    Leaves([Option<Box<L>>; FANOUT]),
    Nodes([Option<Box<Node<L>>>; FANOUT]),
}

/// A node.
pub(in crate::proved) struct Node<L: Leaf> {
    pub(in crate::proved) entries: Entries,
    pub(in crate::proved) kids: Kids<L>,
}
