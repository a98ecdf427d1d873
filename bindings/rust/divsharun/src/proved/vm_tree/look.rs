// Written by bindings/erase from crates/vm_tree/src/look.rt: do not edit.

//! A search for the leaf with the place closest to an end, which changes nothing.

use crate::proved::vm_tree::closest::may_enter;
use crate::proved::vm_tree::end::End;
use crate::proved::vm_tree::entries::Entries;
use crate::proved::vm_tree::leaf::Leaf;
use crate::proved::vm_tree::node::{Kids, Node};
use crate::proved::vm_tree::read::{leaf_in, node_in};
use crate::proved::vm_tree::search::Seek;
use crate::proved::vm_tree::tree::{Root, Tree};
use crate::proved::vm_tree::window::{kid_count, low_kid, next_kid};

/// Returns a leaf if it has a place.
#[inline(always)]
fn look_leaf<'a, L: Leaf, S: Seek<L>>(leaf: &'a L, seek: &S) -> Option<&'a L> {
    if seek.has(leaf) {
        Some(leaf)
    } else {
        None
    }
}

/// Searches the child `i` of a node.
#[inline(always)]
fn look_kid<'a, L: Leaf, S: Seek<L>>(
    entries: &Entries,
    kids: &'a Kids<L>,
    i: usize,
    seek: &S,
) -> Option<&'a L> {
    match kids {
        Kids::Leaves(slots) => look_leaf(leaf_in(slots, i), seek),
        Kids::Nodes(slots) => look_at(node_in(slots, i), seek),
    }
}

/// Searches the children of a node: those in the window whose summary does not exclude a place, from an end.
#[inline(always)]
fn look_kids<'a, L: Leaf, S: Seek<L>>(
    entries: &Entries,
    kids: &'a Kids<L>,
    seek: &S,
) -> Option<&'a L> {
    let end = seek.end();
    let mut from = low_kid(entries, seek.low());
    let mut to = kid_count(entries, seek.high());
    while let Some(i) = next_kid::<L, S>(entries, from, to, end, seek) {
        if let Some(leaf) = look_kid(entries, kids, i, seek) {
            return Some(leaf);
        }
        match end {
            End::First => from = i + 1,
            End::Last => to = i,
        }
    }
    None
}

/// Searches the leaves below a node. Returns the one with the place closest to an end.
fn look_at<'a, L: Leaf, S: Seek<L>>(node: &'a Node<L>, seek: &S) -> Option<&'a L> {
    look_kids(&node.entries, &node.kids, seek)
}

impl<L: Leaf> Tree<L> {
    /// Returns the leaf that has the place of a search closest to its end, or `None` if no leaf has a place.
    pub(in crate::proved) fn look<S: Seek<L>>(&self, seek: &S) -> Option<&L> {
        match &self.root {
            Root::Empty => None,
            Root::Leaf(leaf) => {
                let leaf: &L = leaf;
                if seek.has(leaf) {
                    Some(leaf)
                } else {
                    None
                }
            }
            Root::Inner(node) => {
                let node: &Node<L> = node;
                if may_enter::<L, S>(node, seek) {
                    look_at(node, seek)
                } else {
                    None
                }
            }
        }
    }
}
