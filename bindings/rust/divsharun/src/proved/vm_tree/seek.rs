// Written by bindings/erase from crates/vm_tree/src/seek.rt: do not edit.

//! A search for the leaf with the place closest to an end, its change, and what it changes above it.

use crate::proved::vm_tree::edit::{full_with, reserve_nodes};
use crate::proved::vm_tree::end::End;
use crate::proved::vm_tree::entries::{Entries, Entry, FANOUT, MOST};
use crate::proved::vm_tree::leaf::{Change, Leaf};
use crate::proved::vm_tree::node::{Kids, Node};
use crate::proved::vm_tree::outcome::{Halves, Outcome};
use crate::proved::vm_tree::search::Seek;
use crate::proved::vm_tree::settle::{settle_leaves, settle_nodes};
use crate::proved::vm_tree::window::{kid_count, low_kid, next_kid};
use crate::rattle::{AllocError, Global};
use crate::rattle::{Box, Vec};

/// Splits a leaf that has no room for the place of a search. Before the change there are `full` nodes in `spares`.
#[inline(never)]
fn split_sought<L: Leaf, S: Seek<L>>(
    leaf: &mut L,
    seek: &mut S,
    full: usize,
    spares: &mut Vec<Box<Node<L>>>,
    alloc: Global,
) -> Result<Halves<L>, AllocError> {
    reserve_nodes(spares, full, alloc)?;
    let upper = seek.split(leaf, alloc)?;
    let low = leaf.entry();
    let high = upper.entry();
    Ok(Halves { low, high, upper })
}

/// Changes a leaf if it has a place. It is split if it has no room: then `full` nodes are allocated before the
/// change.
#[inline(always)]
pub(in crate::proved::vm_tree) fn seek_leaf<L: Leaf, S: Seek<L>>(
    leaf: &mut L,
    was: Entry,
    seek: &mut S,
    full: usize,
    spares: &mut Vec<Box<Node<L>>>,
    alloc: Global,
    count: &mut u64,
) -> Result<Option<Outcome<L>>, AllocError> {
    *count = count.saturating_add(1);
    let Some(change) = seek.seek(leaf, was) else {
        return Ok(None);
    };
    match change {
        Change::Refused => Ok(Some(Outcome::Refused)),
        Change::Same => Ok(Some(Outcome::Same)),
        Change::Changed => Ok(Some(Outcome::Changed(leaf.entry()))),
        Change::OutOfMemory => Err(AllocError),
        Change::Full => Ok(Some(Outcome::Split(split_sought(
            leaf, seek, full, spares, alloc,
        )?))),
    }
}

/// Changes a leaf that is a root if it has a place. It is entered if its summary does not exclude a place.
#[inline(always)]
pub(in crate::proved::vm_tree) fn seek_root<L: Leaf, S: Seek<L>>(
    leaf: &mut L,
    seek: &mut S,
    spares: &mut Vec<Box<Node<L>>>,
    alloc: Global,
    count: &mut u64,
) -> Result<Option<Outcome<L>>, AllocError> {
    let Some(change) = seek.seek(leaf, MOST) else {
        if seek.fits(&leaf.entry()) {
            *count = count.saturating_add(1);
        }
        return Ok(None);
    };
    *count = count.saturating_add(1);
    match change {
        Change::Refused => Ok(Some(Outcome::Refused)),
        Change::Same => Ok(Some(Outcome::Same)),
        Change::Changed => Ok(Some(Outcome::Same)),
        Change::OutOfMemory => Err(AllocError),
        Change::Full => Ok(Some(Outcome::Split(split_sought(
            leaf, seek, 1, spares, alloc,
        )?))),
    }
}

/// Searches the child `i`, a leaf.
#[inline(always)]
fn seek_leaf_at<L: Leaf, S: Seek<L>>(
    slots: &mut [Option<Box<L>>; FANOUT],
    i: usize,
    was: Entry,
    seek: &mut S,
    full: usize,
    spares: &mut Vec<Box<Node<L>>>,
    alloc: Global,
    count: &mut u64,
) -> Result<Option<Outcome<L>>, AllocError> {
    match &mut slots[i] {
        Some(kid) => {
            let leaf: &mut L = kid;
            seek_leaf(leaf, was, seek, full, spares, alloc, count)
        }
        None => unreachable!(),
    }
}

/// Searches the child `i` of a node, a leaf.
#[inline(always)]
fn seek_leaves<L: Leaf, S: Seek<L>>(
    entries: &mut Entries,
    slots: &mut [Option<Box<L>>; FANOUT],
    i: usize,
    seek: &mut S,
    full: usize,
    spares: &mut Vec<Box<Node<L>>>,
    alloc: Global,
    count: &mut u64,
) -> Result<Option<Outcome<Node<L>>>, AllocError> {
    let full = full_with(entries.len(), full);
    let was = entries.entry(i);
    let Some(outcome) = seek_leaf_at(slots, i, was, seek, full, spares, alloc, count)? else {
        return Ok(None);
    };
    Ok(Some(settle_leaves(entries, slots, i, outcome, spares)))
}

/// Searches the child `i`, a node.
#[inline(always)]
fn seek_node_at<L: Leaf, S: Seek<L>>(
    slots: &mut [Option<Box<Node<L>>>; FANOUT],
    i: usize,
    seek: &mut S,
    full: usize,
    spares: &mut Vec<Box<Node<L>>>,
    alloc: Global,
    count: &mut u64,
) -> Result<Option<Outcome<Node<L>>>, AllocError> {
    match &mut slots[i] {
        Some(kid) => {
            let kid: &mut Node<L> = kid;
            seek_at(kid, seek, full, spares, alloc, count)
        }
        None => unreachable!(),
    }
}

/// Searches the child `i` of a node, a node.
#[inline(always)]
fn seek_nodes<L: Leaf, S: Seek<L>>(
    entries: &mut Entries,
    slots: &mut [Option<Box<Node<L>>>; FANOUT],
    i: usize,
    seek: &mut S,
    full: usize,
    spares: &mut Vec<Box<Node<L>>>,
    alloc: Global,
    count: &mut u64,
) -> Result<Option<Outcome<Node<L>>>, AllocError> {
    let full = full_with(entries.len(), full);
    let Some(outcome) = seek_node_at(slots, i, seek, full, spares, alloc, count)? else {
        return Ok(None);
    };
    Ok(Some(settle_nodes(entries, slots, i, outcome, spares)))
}

/// Searches the child `i` of a node.
#[inline(always)]
fn seek_kid<L: Leaf, S: Seek<L>>(
    entries: &mut Entries,
    kids: &mut Kids<L>,
    i: usize,
    seek: &mut S,
    full: usize,
    spares: &mut Vec<Box<Node<L>>>,
    alloc: Global,
    count: &mut u64,
) -> Result<Option<Outcome<Node<L>>>, AllocError> {
    match kids {
        Kids::Leaves(slots) => seek_leaves(entries, slots, i, seek, full, spares, alloc, count),
        Kids::Nodes(slots) => seek_nodes(entries, slots, i, seek, full, spares, alloc, count),
    }
}

/// Searches the children of a node: those in the window whose summary does not exclude a place, from an end.
#[inline(always)]
fn seek_kids<L: Leaf, S: Seek<L>>(
    entries: &mut Entries,
    kids: &mut Kids<L>,
    seek: &mut S,
    full: usize,
    spares: &mut Vec<Box<Node<L>>>,
    alloc: Global,
    count: &mut u64,
) -> Result<Option<Outcome<Node<L>>>, AllocError> {
    *count = count.saturating_add(1);
    let end = seek.end();
    let mut from = low_kid(entries, seek.low());
    let mut to = kid_count(entries, seek.high());
    while let Some(i) = next_kid::<L, S>(entries, from, to, end, seek) {
        if let Some(outcome) = seek_kid(entries, kids, i, seek, full, spares, alloc, count)? {
            return Ok(Some(outcome));
        }
        match end {
            End::First => from = i + 1,
            End::Last => to = i,
        }
    }
    Ok(None)
}

/// Searches the leaves below a node, and changes the one with the place closest to an end. If the node is split,
/// then its upper half is returned, and there are `full` nodes in `spares`. An error changes nothing.
pub(in crate::proved::vm_tree) fn seek_at<L: Leaf, S: Seek<L>>(
    node: &mut Node<L>,
    seek: &mut S,
    full: usize,
    spares: &mut Vec<Box<Node<L>>>,
    alloc: Global,
    count: &mut u64,
) -> Result<Option<Outcome<Node<L>>>, AllocError> {
    seek_kids(
        &mut node.entries,
        &mut node.kids,
        seek,
        full,
        spares,
        alloc,
        count,
    )
}
