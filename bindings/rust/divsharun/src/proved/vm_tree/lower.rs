// Written by bindings/erase from crates/vm_tree/src/lower.rt: do not edit.

//! Changes that leave a tree fewer items.

use crate::proved::vm_tree::cut::{cut_at, cut_root, Cut, ShrunkNode};
use crate::proved::vm_tree::leaf::Leaf;
use crate::proved::vm_tree::node::{Kids, Node};
use crate::proved::vm_tree::slots::remove_slot;
use crate::proved::vm_tree::tree::{Root, Tree};
use crate::rattle::Box;
use core::mem;

/// Returns true if a change was made.
fn has_shrunk(outcome: &ShrunkNode) -> bool {
    match outcome {
        ShrunkNode::Refused => false,
        ShrunkNode::Same => true,
        ShrunkNode::Begins(_) => true,
        ShrunkNode::Changed => true,
        ShrunkNode::Small(_) => true,
    }
}

/// Makes a root of a node, or of its only child.
fn lower<L: Leaf>(node: Box<Node<L>>) -> Root<L> {
    if node.len() > 1 {
        return Root::Inner(node);
    }
    let Node { entries: _, kids } = Box::into_inner(node);
    match kids {
        Kids::Leaves(mut slots) => Root::Leaf(remove_slot(&mut slots, 1, 0)),
        Kids::Nodes(mut slots) => Root::Inner(remove_slot(&mut slots, 1, 0)),
    }
}

impl<L: Leaf> Tree<L> {
    /// Changes the leaf to which a key belongs. Returns false if it refused, and nothing was changed.
    pub(in crate::proved) fn cut<E: Cut<L>>(
        &mut self,
        key: u64,
        edit: &mut E,
        count: &mut u64,
    ) -> bool {
        match mem::replace(&mut self.root, Root::Empty) {
            Root::Empty => unreachable!(),
            Root::Leaf(mut leaf) => {
                *count = count.saturating_add(1);
                let done = cut_root(&mut *leaf, edit);
                self.root = Root::Leaf(leaf);
                done
            }
            Root::Inner(mut node) => {
                let outcome = cut_at(&mut *node, key, edit, count);
                self.root = lower(node);
                has_shrunk(&outcome)
            }
        }
    }
}
