// Written by bindings/erase from crates/vm_tree/src/find.rt: do not edit.

//! The leaf to which a key belongs.

use crate::proved::vm_tree::entries::FANOUT;
use crate::proved::vm_tree::leaf::Leaf;
use crate::proved::vm_tree::node::{Kids, Node};
use crate::rattle::Box;

/// Returns the child in a slot.
#[inline(always)]
pub(in crate::proved::vm_tree) fn kid_in<C>(slots: &[Option<Box<C>>; FANOUT], i: usize) -> &C {
    match &slots[i] {
        Some(kid) => {
            let kid: &C = kid;
            kid
        }
        None => unreachable!(),
    }
}

/// Returns the leaf to which a key belongs, below a node.
pub(in crate::proved::vm_tree) fn find_at<L: Leaf>(node: &Node<L>, key: u64) -> &L {
    let i = node.entries.index_of(key);
    match &node.kids {
        Kids::Leaves(slots) => kid_in(slots, i),
        Kids::Nodes(slots) => find_at(kid_in(slots, i), key),
    }
}
