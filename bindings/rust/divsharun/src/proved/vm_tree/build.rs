// Written by bindings/erase from crates/vm_tree/src/build.rt: do not edit.

//! Builds a tree of leaves, with the minimum height.

use crate::proved::vm_tree::entries::{Entries, Entry};
use crate::proved::vm_tree::leaf::Leaf;
use crate::proved::vm_tree::node::{Kids, Node};
use crate::proved::vm_tree::slots::{insert_slot, no_slots};
use crate::rattle::Box;
use crate::rattle::{AllocError, Global};

/// Leaves, one after the other.
pub(in crate::proved) trait Source<L: Leaf> {
    /// Returns the next leaf.
    fn next_leaf(&mut self, alloc: Global) -> Result<Box<L>, AllocError>;
}

/// The root of a tree.
pub(in crate::proved::vm_tree) enum Built<L: Leaf> {
    Leaf(Box<L>),
    Node(Box<Node<L>>),
}

/// Returns what is stored beside a node.
fn entry_over<L: Leaf>(node: &Node<L>) -> Entry {
    node.entries.sum()
}

/// Builds a node over the next `n` leaves.
fn build_leaves<L: Leaf, S: Source<L>>(
    n: usize,
    source: &mut S,
    alloc: Global,
) -> Result<Box<Node<L>>, AllocError> {
    let mut entries = Entries::empty();
    let mut slots = no_slots();
    for i in 0..n {
        let leaf = source.next_leaf(alloc)?;
        entries.insert(i, leaf.entry());
        insert_slot(&mut slots, i, i, leaf);
    }
    let kids = Kids::Leaves(slots);
    Ok(Box::new(alloc, Node { entries, kids })?)
}

/// Builds a node over nodes of the next `n` leaves. Each of these can have up to `below` leaves.
fn build_nodes<L: Leaf, S: Source<L>>(
    levels: usize,
    below: usize,
    n: usize,
    source: &mut S,
    alloc: Global,
) -> Result<Box<Node<L>>, AllocError> {
    let mut entries = Entries::empty();
    let mut slots = no_slots();
    let mut left = n;
    let count = (n - 1) / below + 1;
    for i in 0..count {
        let part = left / (count - i);
        let kid = build_node(levels - 1, below / 16, part, source, alloc)?;
        left -= part;
        entries.insert(i, entry_over(&kid));
        insert_slot(&mut slots, i, i, kid);
    }
    let kids = Kids::Nodes(slots);
    Ok(Box::new(alloc, Node { entries, kids })?)
}

/// Builds a node over the next `n` leaves. Each of its children can have up to `below` leaves.
fn build_node<L: Leaf, S: Source<L>>(
    levels: usize,
    below: usize,
    n: usize,
    source: &mut S,
    alloc: Global,
) -> Result<Box<Node<L>>, AllocError> {
    if levels == 0 {
        return build_leaves(n, source, alloc);
    }
    build_nodes(levels, below, n, source, alloc)
}

/// Builds a tree of the next `n` leaves. No tree of as many leaves is lower.
pub(in crate::proved::vm_tree) fn build_tree<L: Leaf, S: Source<L>>(
    n: usize,
    source: &mut S,
    alloc: Global,
) -> Result<Built<L>, AllocError> {
    if n == 1 {
        return Ok(Built::Leaf(source.next_leaf(alloc)?));
    }
    let (mut levels, mut below) = (0, 1);
    while below * 16 < n {
        below *= 16;
        levels += 1;
    }
    Ok(Built::Node(build_node(levels, below, n, source, alloc)?))
}
