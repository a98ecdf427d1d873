// Written by bindings/erase from crates/vm_tree/src/shrink.rt: do not edit.

//! A child is dropped from a node, and children move between two nodes.

use crate::proved::vm_tree::entries::{Entries, FANOUT};
use crate::proved::vm_tree::slots::{append_slots, no_slots, remove_slot, split_slots};
use crate::rattle::Box;
use core::mem;

/// Takes the child `i` out.
pub(in crate::proved) fn drop_child<C>(
    entries: &mut Entries,
    slots: &mut [Option<Box<C>>; FANOUT],
    i: usize,
) -> Box<C> {
    let len = entries.len();
    entries.remove(i);
    remove_slot(slots, len, i)
}

/// Appends the children of another node, which has none then.
pub(in crate::proved) fn append_children<C>(
    entries: &mut Entries,
    slots: &mut [Option<Box<C>>; FANOUT],
    other: &mut Entries,
    other_slots: &mut [Option<Box<C>>; FANOUT],
) {
    let (len, more) = (entries.len(), other.len());
    entries.append(other);
    append_slots(slots, len, other_slots, more);
    *other = Entries::empty();
}

/// Moves children between two neighbours, which have more than fit in one, so that both have half of them.
pub(in crate::proved) fn even_children<C>(
    low: &mut Entries,
    low_slots: &mut [Option<Box<C>>; FANOUT],
    high: &mut Entries,
    high_slots: &mut [Option<Box<C>>; FANOUT],
) {
    let (a, b) = (low.len(), high.len());
    let half = (a + b) / 2;
    let mut rest = Entries::empty();
    let mut rest_slots = no_slots();
    if half < a {
        low.split_off(half, &mut rest);
        split_slots(low_slots, a, half, &mut rest_slots);
        append_children(&mut rest, &mut rest_slots, high, high_slots);
    } else {
        high.split_off(half - a, &mut rest);
        split_slots(high_slots, b, half - a, &mut rest_slots);
        append_children(low, low_slots, high, high_slots);
    }
    mem::swap(high, &mut rest);
    mem::swap(high_slots, &mut rest_slots);
}

/// Appends the children of the next node if there is room for all, and returns true: then it has none.
/// Otherwise children are moved, so that both have half of them.
pub(in crate::proved::vm_tree) fn join_children<C>(
    low: &mut Entries,
    low_slots: &mut [Option<Box<C>>; FANOUT],
    high: &mut Entries,
    high_slots: &mut [Option<Box<C>>; FANOUT],
) -> bool {
    if low.len() + high.len() <= FANOUT {
        append_children(low, low_slots, high, high_slots);
        true
    } else {
        even_children(low, low_slots, high, high_slots);
        false
    }
}
