// Written by bindings/erase from crates/vm_tree/src/edit.rt: do not edit.

//! A change of one leaf of a tree, and what it changes above it.

use crate::proved::vm_tree::entries::{Entries, Entry, FANOUT, MOST};
use crate::proved::vm_tree::leaf::{Change, Edit, Leaf};
use crate::proved::vm_tree::node::{Kids, Node};
use crate::proved::vm_tree::outcome::{Halves, Outcome};
use crate::proved::vm_tree::settle::{settle_leaves, settle_nodes};
use crate::proved::vm_tree::slots::no_slots;
use crate::rattle::{AllocError, Global};
use crate::rattle::{Box, Vec};

impl<L: Leaf> Node<L> {
    /// Creates a node without children.
    fn empty() -> Node<L> {
        Node {
            entries: Entries::empty(),
            kids: Kids::Leaves(no_slots()),
        }
    }

    /// Proof: a node with children is higher than a leaf.
    pub(in crate::proved::vm_tree) fn facts(&self) {
        let _len = self.entries.len();
    }
}

/// Allocates spare nodes until there are `n`.
#[inline(never)]
pub(in crate::proved) fn reserve_nodes<L: Leaf>(
    spares: &mut Vec<Box<Node<L>>>,
    n: usize,
    alloc: Global,
) -> Result<(), AllocError> {
    while spares.len() < n {
        spares.push(Box::new(alloc, Node::empty())?)?;
    }
    Ok(())
}

/// Splits a leaf that has no room for its change. Before the change there are `full` nodes in `spares`.
#[inline(never)]
fn split_leaf<L: Leaf, E: Edit<L>>(
    leaf: &mut L,
    edit: &mut E,
    full: usize,
    spares: &mut Vec<Box<Node<L>>>,
    alloc: Global,
) -> Result<Halves<L>, AllocError> {
    reserve_nodes(spares, full, alloc)?;
    let upper = edit.split(leaf, alloc)?;
    let low = leaf.entry();
    let high = upper.entry();
    Ok(Halves { low, high, upper })
}

/// Changes a leaf. It is split if it has no room: then `full` nodes are allocated before the change.
#[inline(always)]
pub(in crate::proved::vm_tree) fn edit_leaf<L: Leaf, E: Edit<L>>(
    leaf: &mut L,
    was: Entry,
    edit: &mut E,
    full: usize,
    spares: &mut Vec<Box<Node<L>>>,
    alloc: Global,
) -> Result<Outcome<L>, AllocError> {
    match edit.change(leaf, was) {
        Change::Refused => Ok(Outcome::Refused),
        Change::Same => Ok(Outcome::Same),
        Change::Changed => Ok(Outcome::Changed(leaf.entry())),
        Change::OutOfMemory => Err(AllocError),
        Change::Full => Ok(Outcome::Split(split_leaf(leaf, edit, full, spares, alloc)?)),
    }
}

/// Changes a leaf that is a root, beside which no entry is stored.
#[inline(always)]
pub(in crate::proved::vm_tree) fn edit_root<L: Leaf, E: Edit<L>>(
    leaf: &mut L,
    edit: &mut E,
    spares: &mut Vec<Box<Node<L>>>,
    alloc: Global,
) -> Result<Outcome<L>, AllocError> {
    match edit.change(leaf, MOST) {
        Change::Refused => Ok(Outcome::Refused),
        Change::Same => Ok(Outcome::Same),
        Change::Changed => Ok(Outcome::Same),
        Change::OutOfMemory => Err(AllocError),
        Change::Full => Ok(Outcome::Split(split_leaf(leaf, edit, 1, spares, alloc)?)),
    }
}

/// Changes the child `i`, a leaf.
#[inline(always)]
fn edit_leaf_at<L: Leaf, E: Edit<L>>(
    slots: &mut [Option<Box<L>>; FANOUT],
    i: usize,
    was: Entry,
    edit: &mut E,
    full: usize,
    spares: &mut Vec<Box<Node<L>>>,
    alloc: Global,
    count: &mut u64,
) -> Result<Outcome<L>, AllocError> {
    match &mut slots[i] {
        Some(kid) => {
            let leaf: &mut L = kid;
            *count = count.saturating_add(1);
            edit_leaf(leaf, was, edit, full, spares, alloc)
        }
        None => unreachable!(),
    }
}

/// Returns the number of nodes to be allocated if a child of a node is split: one more if the node is full.
#[inline(always)]
pub(in crate::proved::vm_tree) fn full_with(len: usize, full: usize) -> usize {
    if len < FANOUT {
        0
    } else {
        full.saturating_add(1)
    }
}

/// Changes the child `i` of a node, a leaf.
#[inline(always)]
fn edit_leaves<L: Leaf, E: Edit<L>>(
    entries: &mut Entries,
    slots: &mut [Option<Box<L>>; FANOUT],
    i: usize,
    key: u64,
    edit: &mut E,
    full: usize,
    spares: &mut Vec<Box<Node<L>>>,
    alloc: Global,
    count: &mut u64,
) -> Result<Outcome<Node<L>>, AllocError> {
    let full = full_with(entries.len(), full);
    let was = entries.entry(i);
    let outcome = edit_leaf_at(slots, i, was, edit, full, spares, alloc, count)?;
    Ok(settle_leaves(entries, slots, i, outcome, spares))
}

/// Changes the child `i`, a node.
#[inline(always)]
fn edit_node_at<L: Leaf, E: Edit<L>>(
    slots: &mut [Option<Box<Node<L>>>; FANOUT],
    i: usize,
    key: u64,
    edit: &mut E,
    full: usize,
    spares: &mut Vec<Box<Node<L>>>,
    alloc: Global,
    count: &mut u64,
) -> Result<Outcome<Node<L>>, AllocError> {
    match &mut slots[i] {
        Some(kid) => {
            let kid: &mut Node<L> = kid;
            edit_at(kid, key, edit, full, spares, alloc, count)
        }
        None => unreachable!(),
    }
}

/// Changes the child `i` of a node, a node.
#[inline(always)]
fn edit_nodes<L: Leaf, E: Edit<L>>(
    entries: &mut Entries,
    slots: &mut [Option<Box<Node<L>>>; FANOUT],
    i: usize,
    key: u64,
    edit: &mut E,
    full: usize,
    spares: &mut Vec<Box<Node<L>>>,
    alloc: Global,
    count: &mut u64,
) -> Result<Outcome<Node<L>>, AllocError> {
    let full = full_with(entries.len(), full);
    let outcome = edit_node_at(slots, i, key, edit, full, spares, alloc, count)?;
    Ok(settle_nodes(entries, slots, i, outcome, spares))
}

/// Changes the leaf to which a key belongs, below a node. If the node is split, then its upper half is
/// returned, and there are `full` nodes in `spares`. An error changes nothing.
pub(in crate::proved::vm_tree) fn edit_at<L: Leaf, E: Edit<L>>(
    node: &mut Node<L>,
    key: u64,
    edit: &mut E,
    full: usize,
    spares: &mut Vec<Box<Node<L>>>,
    alloc: Global,
    count: &mut u64,
) -> Result<Outcome<Node<L>>, AllocError> {
    *count = count.saturating_add(1);
    let i = node.entries.index_of(key);
    match &mut node.kids {
        Kids::Leaves(slots) => edit_leaves(
            &mut node.entries,
            slots,
            i,
            key,
            edit,
            full,
            spares,
            alloc,
            count,
        ),
        Kids::Nodes(slots) => edit_nodes(
            &mut node.entries,
            slots,
            i,
            key,
            edit,
            full,
            spares,
            alloc,
            count,
        ),
    }
}
