// Written by bindings/erase from crates/vm_tree/src/grow.rt: do not edit.

//! A child is added to a node, which is split if it is full.

use crate::proved::vm_tree::entries::{Entries, Entry, FANOUT, MIN_CHILDREN};
use crate::proved::vm_tree::outcome::{Halves, Outcome, Settled, Upper};
use crate::proved::vm_tree::slots::{insert_slot, no_slots, split_slots};
use crate::rattle::Box;

/// Returns the number of children that a full node keeps when it is split to insert a child at the index `i`.
///
/// A child behind all others is likely to be split next, so the upper node gets few children then. If it is behind the
/// first one, the lower node keeps few.
fn kept(i: usize) -> usize {
    if i == FANOUT {
        return FANOUT + 1 - MIN_CHILDREN;
    }
    if i == 1 {
        return MIN_CHILDREN - 1;
    }
    FANOUT / 2
}

/// Inserts a child at the index `i`. Returns true if the node was full: then its upper half is moved to
/// `upper` and `upper_slots`.
fn add_child<C>(
    entries: &mut Entries,
    slots: &mut [Option<Box<C>>; FANOUT],
    i: usize,
    entry: Entry,
    child: Box<C>,
    upper: &mut Entries,
    upper_slots: &mut [Option<Box<C>>; FANOUT],
) -> bool {
    let len = entries.len();
    if len < FANOUT {
        entries.insert(i, entry);
        insert_slot(slots, len, i, child);
        return false;
    }
    let at = kept(i);
    entries.split_off(at, upper);
    split_slots(slots, len, at, upper_slots);
    if i <= at {
        entries.insert(i, entry);
        insert_slot(slots, at, i, child);
    } else {
        upper.insert(i - at, entry);
        insert_slot(upper_slots, len - at, i - at, child);
    }
    true
}

/// Inserts a child at the index `i`. If the node is full, then the upper half of the children is returned.
fn grow<C>(
    entries: &mut Entries,
    slots: &mut [Option<Box<C>>; FANOUT],
    i: usize,
    entry: Entry,
    child: Box<C>,
) -> Settled<C> {
    let mut upper = Entries::empty();
    let mut upper_slots = no_slots();
    if add_child(
        entries,
        slots,
        i,
        entry,
        child,
        &mut upper,
        &mut upper_slots,
    ) {
        Settled::Split(Upper {
            low: entries.sum(),
            high: upper.sum(),
            entries: upper,
            slots: upper_slots,
        })
    } else {
        Settled::Changed(entries.sum())
    }
}

/// Returns true if two entries are equal.
#[inline(always)]
pub(in crate::proved::vm_tree) fn is_same(a: &Entry, b: &Entry) -> bool {
    a.at == b.at && a.longest == b.longest && a.alignments == b.alignments
}

/// Writes the entry of the child `i`. Returns the sum of all, or `None` if the entry is as before.
#[inline(always)]
pub(in crate::proved::vm_tree) fn note(
    entries: &mut Entries,
    i: usize,
    entry: Entry,
) -> Option<Entry> {
    if is_same(&entries.entry(i), &entry) {
        return None;
    }
    entries.set_entry(i, entry);
    Some(entries.sum())
}

/// Writes what was done with the child `i` into the node above it.
pub(in crate::proved::vm_tree) fn settle<C>(
    entries: &mut Entries,
    slots: &mut [Option<Box<C>>; FANOUT],
    i: usize,
    outcome: Outcome<C>,
) -> Settled<C> {
    match outcome {
        Outcome::Refused => Settled::Refused,
        Outcome::Same => Settled::Same,
        Outcome::Changed(entry) => match note(entries, i, entry) {
            None => Settled::Same,
            Some(sum) => Settled::Changed(sum),
        },
        Outcome::Split(halves) => {
            let Halves { low, high, upper } = halves;
            entries.set_entry(i, low);
            grow(entries, slots, i + 1, high, upper)
        }
    }
}
