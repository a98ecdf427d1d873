// Written by bindings/erase from crates/vm_tree/src/cut.rt: do not edit.

//! A change of one leaf that leaves it fewer items, and what it changes above it.

use crate::proved::vm_tree::entries::{Entries, Entry, FANOUT, MIN_CHILDREN, MOST};
use crate::proved::vm_tree::leaf::Leaf;
use crate::proved::vm_tree::mend::{mend_leaves, mend_nodes};
use crate::proved::vm_tree::node::{Kids, Node};
use crate::rattle::Box;

/// The result of a change of a leaf.
pub(in crate::proved) enum Cutting {
    /// It refused, and the leaf is as before.
    Refused,
    /// It changed the leaf, but not what is stored beside it.
    Same,
    /// It changed the leaf, which has this entry now.
    Changed(Entry),
    /// It changed the leaf, which has this entry now, and may have too few items.
    Small(Entry),
}

/// A change of one leaf that leaves it fewer items.
pub(in crate::proved) trait Cut<L: Leaf> {
    /// Changes a leaf, beside which `was` is stored. If the leaf is a root, then `was` is not its entry, and the result
    /// does not tell the entry.
    fn cut(&mut self, leaf: &mut L, was: Entry) -> Cutting;
}

/// The result of a change of a child.
#[derive(Clone, Copy)]
pub(in crate::proved::vm_tree) enum Shrunk {
    /// The leaf refused. Nothing was changed.
    Refused,
    /// The entry of the child is as before.
    Same,
    /// The child begins at this address now. The rest of its entry is as before.
    Begins(u64),
    /// The child has this entry now.
    Changed(Entry),
    /// The child has this entry now, and may be too small.
    Small(Entry),
}

/// The result of a change of a node. Its entry is computed only for a node above it.
#[derive(Clone, Copy)]
pub(in crate::proved::vm_tree) enum ShrunkNode {
    /// The leaf refused. Nothing was changed.
    Refused,
    /// The entry of the node is as before.
    Same,
    /// The node begins at this address now. The rest of its entry is as before.
    Begins(u64),
    /// The node has another entry now.
    Changed,
    /// The node has this entry now, and may be too small.
    Small(Entry),
}

/// Changes a leaf.
#[inline(always)]
pub(in crate::proved::vm_tree) fn cut_leaf<L: Leaf, E: Cut<L>>(
    leaf: &mut L,
    was: Entry,
    edit: &mut E,
) -> Shrunk {
    match edit.cut(leaf, was) {
        Cutting::Refused => Shrunk::Refused,
        Cutting::Same => Shrunk::Same,
        Cutting::Changed(entry) => Shrunk::Changed(entry),
        Cutting::Small(entry) => Shrunk::Small(entry),
    }
}

/// Changes a leaf that is a root. Returns false if it refused, and nothing was changed.
#[inline(always)]
pub(in crate::proved::vm_tree) fn cut_root<L: Leaf, E: Cut<L>>(leaf: &mut L, edit: &mut E) -> bool {
    match edit.cut(leaf, MOST) {
        Cutting::Refused => false,
        Cutting::Same => true,
        Cutting::Changed(_) => true,
        Cutting::Small(_) => true,
    }
}

/// Returns `Same` if the entry of a child is as before, and `Begins` if only its first address is not.
#[inline(always)]
fn quiet(outcome: Shrunk, was: Entry) -> Shrunk {
    match outcome {
        Shrunk::Refused => Shrunk::Refused,
        Shrunk::Same => Shrunk::Same,
        Shrunk::Begins(at) => Shrunk::Begins(at),
        Shrunk::Changed(entry) => {
            if entry.longest != was.longest || entry.alignments != was.alignments {
                return Shrunk::Changed(entry);
            }
            if entry.at != was.at {
                return Shrunk::Begins(entry.at);
            }
            Shrunk::Same
        }
        Shrunk::Small(entry) => Shrunk::Small(entry),
    }
}

/// Changes the child `i`, a leaf.
#[inline(always)]
fn cut_leaf_at<L: Leaf, E: Cut<L>>(
    slots: &mut [Option<Box<L>>; FANOUT],
    i: usize,
    was: Entry,
    edit: &mut E,
    count: &mut u64,
) -> Shrunk {
    match &mut slots[i] {
        Some(kid) => {
            let leaf: &mut L = kid;
            *count = count.saturating_add(1);
            let outcome = cut_leaf(leaf, was, edit);
            quiet(outcome, was)
        }
        None => unreachable!(),
    }
}

/// Returns the first of the two neighbours that child `i` is joined with: that below it, if there is one.
fn neighbour(i: usize) -> usize {
    if i > 0 {
        i - 1
    } else {
        0
    }
}

/// Writes the first address of the child `i`. The node begins there if the child is its first one.
#[inline(always)]
fn begin_at(entries: &mut Entries, i: usize, at: u64) -> ShrunkNode {
    entries.set_at(i, at);
    if i > 0 {
        return ShrunkNode::Same;
    }
    ShrunkNode::Begins(at)
}

/// Returns the result for a node that has these entries.
fn small_of(entries: &Entries) -> ShrunkNode {
    if entries.len() < MIN_CHILDREN {
        return ShrunkNode::Small(entries.sum());
    }
    ShrunkNode::Changed
}

/// Changes the child `i` of a node, a leaf.
#[inline(always)]
fn cut_leaves<L: Leaf, E: Cut<L>>(
    entries: &mut Entries,
    slots: &mut [Option<Box<L>>; FANOUT],
    i: usize,
    key: u64,
    edit: &mut E,
    count: &mut u64,
) -> ShrunkNode {
    let was = entries.entry(i);
    match cut_leaf_at(slots, i, was, edit, count) {
        Shrunk::Refused => ShrunkNode::Refused,
        Shrunk::Same => ShrunkNode::Same,
        Shrunk::Begins(at) => begin_at(entries, i, at),
        Shrunk::Changed(entry) => {
            entries.set_entry(i, entry);
            ShrunkNode::Changed
        }
        Shrunk::Small(entry) => {
            entries.set_entry(i, entry);
            mend_leaves(entries, slots, neighbour(i));
            small_of(entries)
        }
    }
}

/// Returns the result of a change of a child that is a node, beside which `was` is stored.
#[inline(always)]
fn shrunk_of<L: Leaf>(kid: &Node<L>, outcome: ShrunkNode, was: Entry) -> Shrunk {
    match outcome {
        ShrunkNode::Refused => Shrunk::Refused,
        ShrunkNode::Same => Shrunk::Same,
        ShrunkNode::Begins(at) => Shrunk::Begins(at),
        ShrunkNode::Changed => quiet(Shrunk::Changed(kid.entry()), was),
        ShrunkNode::Small(entry) => Shrunk::Small(entry),
    }
}

/// Changes the child `i`, a node.
#[inline(always)]
fn cut_node_at<L: Leaf, E: Cut<L>>(
    slots: &mut [Option<Box<Node<L>>>; FANOUT],
    i: usize,
    was: Entry,
    key: u64,
    edit: &mut E,
    count: &mut u64,
) -> Shrunk {
    match &mut slots[i] {
        Some(kid) => {
            let kid: &mut Node<L> = kid;
            let outcome = cut_at(kid, key, edit, count);
            shrunk_of(kid, outcome, was)
        }
        None => unreachable!(),
    }
}

/// Changes the child `i` of a node, a node.
#[inline(always)]
fn cut_nodes<L: Leaf, E: Cut<L>>(
    entries: &mut Entries,
    slots: &mut [Option<Box<Node<L>>>; FANOUT],
    i: usize,
    key: u64,
    edit: &mut E,
    count: &mut u64,
) -> ShrunkNode {
    let was = entries.entry(i);
    match cut_node_at(slots, i, was, key, edit, count) {
        Shrunk::Refused => ShrunkNode::Refused,
        Shrunk::Same => ShrunkNode::Same,
        Shrunk::Begins(at) => begin_at(entries, i, at),
        Shrunk::Changed(entry) => {
            entries.set_entry(i, entry);
            ShrunkNode::Changed
        }
        Shrunk::Small(entry) => {
            entries.set_entry(i, entry);
            mend_nodes(entries, slots, neighbour(i));
            small_of(entries)
        }
    }
}

/// Changes the leaf to which a key belongs, below a node with at least two children. Children that become too
/// small are joined with a neighbour.
pub(in crate::proved::vm_tree) fn cut_at<L: Leaf, E: Cut<L>>(
    node: &mut Node<L>,
    key: u64,
    edit: &mut E,
    count: &mut u64,
) -> ShrunkNode {
    *count = count.saturating_add(1);
    let i = node.entries.index_of(key);
    match &mut node.kids {
        Kids::Leaves(slots) => cut_leaves(&mut node.entries, slots, i, key, edit, count),
        Kids::Nodes(slots) => cut_nodes(&mut node.entries, slots, i, key, edit, count),
    }
}
