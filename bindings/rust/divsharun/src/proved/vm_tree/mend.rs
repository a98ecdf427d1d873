// Written by bindings/erase from crates/vm_tree/src/mend.rt: do not edit.

//! Two neighbours among the children of a node are joined.

use crate::proved::vm_tree::entries::{Entries, Entry, FANOUT};
use crate::proved::vm_tree::leaf::Leaf;
use crate::proved::vm_tree::node::Node;
use crate::proved::vm_tree::shrink::drop_child;
use crate::rattle::Box;

/// Joins the leaves `i` and `i + 1`. Returns true if all is in the first one, and the entries of both.
fn join_leaves<L: Leaf>(slots: &mut [Option<Box<L>>; FANOUT], i: usize) -> (bool, Entry, Entry) {
    let (from, to) = slots.split_at_mut(i + 1);
    let Some(low) = &mut from[i] else {
        unreachable!()
    };
    let Some(high) = &mut to[0] else {
        unreachable!()
    };
    let low: &mut L = low;
    let high: &mut L = high;
    let one = low.join(high);
    (one, low.entry(), high.entry())
}

/// Returns what is stored beside the second of two nodes that were joined, if it has children.
fn second_entry<L: Leaf>(one: bool, first: Entry, high: &Node<L>) -> Entry {
    if one {
        first
    } else {
        high.entry()
    }
}

/// Joins the nodes `i` and `i + 1`. Returns true if all is in the first one, and the entries of both.
fn join_nodes<L: Leaf>(
    slots: &mut [Option<Box<Node<L>>>; FANOUT],
    i: usize,
) -> (bool, Entry, Entry) {
    let (from, to) = slots.split_at_mut(i + 1);
    let Some(low) = &mut from[i] else {
        unreachable!()
    };
    let Some(high) = &mut to[0] else {
        unreachable!()
    };
    let low: &mut Node<L> = low;
    let high: &mut Node<L> = high;
    let one = low.join(high);
    let first = low.entry();
    let second = second_entry(one, first, high);
    (one, first, second)
}

/// Writes the entries of two neighbours that were joined. If all is in the first one, the other is dropped.
fn settle_pair<C>(
    entries: &mut Entries,
    slots: &mut [Option<Box<C>>; FANOUT],
    i: usize,
    one: bool,
    low: Entry,
    high: Entry,
) {
    let _len = entries.len();
    entries.set_entry(i, low);
    if one {
        drop_child(entries, slots, i + 1);
    } else {
        entries.set_entry(i + 1, high);
    }
}

/// Joins the leaves `i` and `i + 1` of a node.
pub(in crate::proved::vm_tree) fn mend_leaves<L: Leaf>(
    entries: &mut Entries,
    slots: &mut [Option<Box<L>>; FANOUT],
    i: usize,
) {
    let (one, low, high) = join_leaves(slots, i);
    settle_pair(entries, slots, i, one, low, high);
}

/// Joins the nodes `i` and `i + 1` of a node.
pub(in crate::proved::vm_tree) fn mend_nodes<L: Leaf>(
    entries: &mut Entries,
    slots: &mut [Option<Box<Node<L>>>; FANOUT],
    i: usize,
) {
    let (one, low, high) = join_nodes(slots, i);
    settle_pair(entries, slots, i, one, low, high);
}
