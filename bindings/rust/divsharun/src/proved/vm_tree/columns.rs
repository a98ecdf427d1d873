// Written by bindings/erase from crates/vm_tree/src/columns.rt: do not edit.

//! Changes of one array, of which the first `len` items are used.

use crate::proved::vm_tree::entries::FANOUT;

/// Inserts `x` at the index `at` of the first `len` items.
#[inline(always)]
pub(in crate::proved::vm_tree) fn insert_in<T: Copy>(
    items: &mut [T; FANOUT],
    len: usize,
    at: usize,
    x: T,
) {
    items.copy_within(at..len, at + 1);
    items[at] = x;
}

/// Removes the item `at` from the first `len` items.
#[inline(always)]
pub(in crate::proved::vm_tree) fn remove_in<T: Copy>(
    items: &mut [T; FANOUT],
    len: usize,
    at: usize,
    pad: T,
) {
    items.copy_within(at + 1..len, at);
    items[len - 1] = pad;
}

/// Writes the first `n` items of another array behind the first `len` items.
#[inline(always)]
pub(in crate::proved::vm_tree) fn append_in<T: Copy>(
    items: &mut [T; FANOUT],
    len: usize,
    other: &[T; FANOUT],
    n: usize,
) {
    let whole = &mut items[..];
    whole[len..len + n].copy_from_slice(&other[..n]);
}

/// Returns 1 if `a` is at most `b`, otherwise 0.
#[inline(always)]
fn one_if_at_most(a: u64, b: u64) -> usize {
    if a <= b {
        1
    } else {
        0
    }
}

/// Returns the index of the last item that is at most `address`, or 0.
#[inline(always)]
pub(in crate::proved::vm_tree) fn last_up_to(at: &[u64; FANOUT], address: u64) -> usize {
    let q = 4
        * (one_if_at_most(at[4], address)
            + one_if_at_most(at[8], address)
            + one_if_at_most(at[12], address));
    q + one_if_at_most(at[q + 1], address)
        + one_if_at_most(at[q + 2], address)
        + one_if_at_most(at[q + 3], address)
}

/// Returns the greatest of the four items starting at an index.
#[inline(always)]
fn greatest_of_four(items: &[u64; FANOUT], from: usize) -> u64 {
    let low = items[from].max(items[from + 1]);
    let high = items[from + 2].max(items[from + 3]);
    low.max(high)
}

/// Returns the greatest item.
///
/// The processor can compare several pairs at once.
#[inline(always)]
pub(in crate::proved::vm_tree) fn greatest_in(items: &[u64; FANOUT]) -> u64 {
    let low = greatest_of_four(items, 0).max(greatest_of_four(items, 4));
    let high = greatest_of_four(items, 8).max(greatest_of_four(items, 12));
    low.max(high)
}

/// Returns the greatest of short items.
#[inline(always)]
pub(in crate::proved::vm_tree) fn most_in(items: &[u32; FANOUT]) -> u32 {
    let mut most = 0;
    for i in 0..FANOUT {
        most = most.max(items[i]);
    }
    most
}

/// Moves the items from `at` on to the start of another array, which is all pads.
#[inline(always)]
pub(in crate::proved::vm_tree) fn split_in<T: Copy>(
    items: &mut [T; FANOUT],
    len: usize,
    at: usize,
    upper: &mut [T; FANOUT],
    pad: T,
) {
    let from = &mut items[..];
    let to = &mut upper[..];
    to[0..len - at].swap_with_slice(&mut from[at..len]);
}
