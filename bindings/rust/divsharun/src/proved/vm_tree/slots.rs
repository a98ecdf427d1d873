// Written by bindings/erase from crates/vm_tree/src/slots.rt: do not edit.

//! Slots for the children of a node.

use crate::proved::vm_tree::entries::FANOUT;
use crate::rattle::Box;

/// Returns slots without children.
pub(in crate::proved) fn no_slots<C>() -> [Option<Box<C>>; FANOUT] {
    [const { None }; FANOUT]
}

/// Inserts a child.
pub(in crate::proved) fn insert_slot<C>(
    slots: &mut [Option<Box<C>>; FANOUT],
    len: usize,
    i: usize,
    x: Box<C>,
) {
    let whole = &mut slots[..];
    whole[len] = Some(x);
    whole[i..len + 1].rotate_right(1);
}

/// Moves the children from `at` on to slots that are empty.
pub(in crate::proved) fn split_slots<C>(
    slots: &mut [Option<Box<C>>; FANOUT],
    len: usize,
    at: usize,
    upper: &mut [Option<Box<C>>; FANOUT],
) {
    let from = &mut slots[..];
    let to = &mut upper[..];
    to[0..len - at].swap_with_slice(&mut from[at..len]);
}

/// Takes a child out.
pub(in crate::proved) fn remove_slot<C>(
    slots: &mut [Option<Box<C>>; FANOUT],
    len: usize,
    i: usize,
) -> Box<C> {
    match slots[i].take() {
        Some(child) => {
            let whole = &mut slots[..];
            whole[i..len].rotate_left(1);
            child
        }
        None => unreachable!(),
    }
}

/// Appends the children of other slots, which are empty then.
pub(in crate::proved) fn append_slots<C>(
    slots: &mut [Option<Box<C>>; FANOUT],
    len: usize,
    other: &mut [Option<Box<C>>; FANOUT],
    more: usize,
) {
    let to = &mut slots[..];
    let from = &mut other[..];
    to[len..len + more].swap_with_slice(&mut from[0..more]);
}
