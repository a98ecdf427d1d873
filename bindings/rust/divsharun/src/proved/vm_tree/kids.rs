// Written by bindings/erase from crates/vm_tree/src/kids.rt: do not edit.

//! A node as a whole.

use crate::proved::vm_tree::entries::Entry;
use crate::proved::vm_tree::leaf::Leaf;
use crate::proved::vm_tree::node::{Kids, Node};
use crate::proved::vm_tree::shrink::join_children;
use crate::proved::vm_tree::slots::no_slots;

impl<L: Leaf> Node<L> {
    /// Returns the number of children.
    pub(in crate::proved::vm_tree) fn len(&self) -> usize {
        self.entries.len()
    }

    /// Returns what is stored beside this node.
    pub(in crate::proved::vm_tree) fn entry(&self) -> Entry {
        self.entries.sum()
    }

    /// Appends the children of the next node if there is room for all, and returns true: then it has none.
    /// Otherwise children are moved, so that both have half of them.
    pub(in crate::proved::vm_tree) fn join(&mut self, next: &mut Node<L>) -> bool {
        match (&mut self.kids, &mut next.kids) {
            (Kids::Leaves(low), Kids::Leaves(high)) => {
                join_children(&mut self.entries, low, &mut next.entries, high)
            }
            (Kids::Nodes(low), Kids::Nodes(high)) => {
                if join_children(&mut self.entries, low, &mut next.entries, high) {
                    next.kids = Kids::Leaves(no_slots());
                    return true;
                }
                false
            }
            _ => unreachable!(),
        }
    }
}
