// Written by bindings/erase from crates/vm_tree/src/settle.rt: do not edit.

//! The result of a change of a child is written into its node, which is split if it is full.

use crate::proved::vm_tree::entries::{Entries, FANOUT};
use crate::proved::vm_tree::grow::{note, settle};
use crate::proved::vm_tree::leaf::Leaf;
use crate::proved::vm_tree::node::{Kids, Node};
use crate::proved::vm_tree::outcome::{Halves, Outcome, Settled, Upper};
use crate::rattle::{Box, Vec};

/// Takes a node for the upper half of the children, which are leaves.
fn finish_leaves<L: Leaf>(settled: Settled<L>, spares: &mut Vec<Box<Node<L>>>) -> Outcome<Node<L>> {
    match settled {
        Settled::Refused => Outcome::Refused,
        Settled::Same => Outcome::Same,
        Settled::Changed(entry) => Outcome::Changed(entry),
        Settled::Split(half) => {
            let Upper {
                low,
                high,
                entries,
                slots,
            } = half;
            let Some(mut upper) = spares.pop() else {
                unreachable!()
            };
            *upper = Node {
                entries,
                kids: Kids::Leaves(slots),
            };
            Outcome::Split(Halves { low, high, upper })
        }
    }
}

/// Takes a node for the upper half of the children, which are nodes.
fn finish_nodes<L: Leaf>(
    settled: Settled<Node<L>>,
    spares: &mut Vec<Box<Node<L>>>,
) -> Outcome<Node<L>> {
    match settled {
        Settled::Refused => Outcome::Refused,
        Settled::Same => Outcome::Same,
        Settled::Changed(entry) => Outcome::Changed(entry),
        Settled::Split(half) => {
            let Upper {
                low,
                high,
                entries,
                slots,
            } = half;
            let Some(mut upper) = spares.pop() else {
                unreachable!()
            };
            *upper = Node {
                entries,
                kids: Kids::Nodes(slots),
            };
            Outcome::Split(Halves { low, high, upper })
        }
    }
}

/// Splits a node whose child `i`, a leaf, was split, if it is full.
#[inline(never)]
fn split_leaves<L: Leaf>(
    entries: &mut Entries,
    slots: &mut [Option<Box<L>>; FANOUT],
    i: usize,
    halves: Halves<L>,
    spares: &mut Vec<Box<Node<L>>>,
) -> Outcome<Node<L>> {
    let settled = settle(entries, slots, i, Outcome::Split(halves));
    finish_leaves(settled, spares)
}

/// Writes what was done with the child `i`, a leaf, into the node above it.
#[inline(always)]
pub(in crate::proved::vm_tree) fn settle_leaves<L: Leaf>(
    entries: &mut Entries,
    slots: &mut [Option<Box<L>>; FANOUT],
    i: usize,
    outcome: Outcome<L>,
    spares: &mut Vec<Box<Node<L>>>,
) -> Outcome<Node<L>> {
    match outcome {
        Outcome::Refused => Outcome::Refused,
        Outcome::Same => Outcome::Same,
        Outcome::Changed(entry) => match note(entries, i, entry) {
            None => Outcome::Same,
            Some(sum) => Outcome::Changed(sum),
        },
        Outcome::Split(halves) => split_leaves(entries, slots, i, halves, spares),
    }
}

/// Splits a node whose child `i`, a node, was split, if it is full.
#[inline(never)]
fn split_nodes<L: Leaf>(
    entries: &mut Entries,
    slots: &mut [Option<Box<Node<L>>>; FANOUT],
    i: usize,
    halves: Halves<Node<L>>,
    spares: &mut Vec<Box<Node<L>>>,
) -> Outcome<Node<L>> {
    let settled = settle(entries, slots, i, Outcome::Split(halves));
    finish_nodes(settled, spares)
}

/// Writes what was done with the child `i`, a node, into the node above it.
#[inline(always)]
pub(in crate::proved::vm_tree) fn settle_nodes<L: Leaf>(
    entries: &mut Entries,
    slots: &mut [Option<Box<Node<L>>>; FANOUT],
    i: usize,
    outcome: Outcome<Node<L>>,
    spares: &mut Vec<Box<Node<L>>>,
) -> Outcome<Node<L>> {
    match outcome {
        Outcome::Refused => Outcome::Refused,
        Outcome::Same => Outcome::Same,
        Outcome::Changed(entry) => match note(entries, i, entry) {
            None => Outcome::Same,
            Some(sum) => Outcome::Changed(sum),
        },
        Outcome::Split(halves) => split_nodes(entries, slots, i, halves, spares),
    }
}
