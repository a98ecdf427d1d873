// Written by bindings/erase from crates/vm_tree/src/window.rt: do not edit.

//! The children of a node at which a search looks.

use crate::proved::vm_tree::end::End;
use crate::proved::vm_tree::entries::Entries;
use crate::proved::vm_tree::leaf::Leaf;
use crate::proved::vm_tree::search::Seek;

/// Returns the index of the last child that starts at `address` or below it, or 0.
#[inline(always)]
pub(in crate::proved::vm_tree) fn low_kid(entries: &Entries, address: u64) -> usize {
    // Most windows begin with the space.
    if entries.len() > 1 && address < entries.entry(1).at {
        return 0;
    }
    entries.index_of(address)
}

/// Returns the number of children that start at `address` or below it, or 1 if there is none.
#[inline(always)]
pub(in crate::proved::vm_tree) fn kid_count(entries: &Entries, address: u64) -> usize {
    // Most windows end with the space.
    let len = entries.len();
    if entries.entry(len - 1).at <= address {
        return len;
    }
    entries.index_of(address) + 1
}

/// Returns the first child from `from` up to, but not including, `to` that may have a place.
#[inline(always)]
fn first_kid<L: Leaf, S: Seek<L>>(
    entries: &Entries,
    from: usize,
    to: usize,
    seek: &S,
) -> Option<usize> {
    let mut i = from;
    while i < to {
        if seek.fits(&entries.entry(i)) {
            return Some(i);
        }
        i += 1;
    }
    None
}

/// Returns the last child from `from` up to, but not including, `to` that may have a place.
#[inline(always)]
fn last_kid<L: Leaf, S: Seek<L>>(
    entries: &Entries,
    from: usize,
    to: usize,
    seek: &S,
) -> Option<usize> {
    let mut i = to;
    while from < i {
        i -= 1;
        if seek.fits(&entries.entry(i)) {
            return Some(i);
        }
    }
    None
}

/// Returns the next child, from an end, that may have a place.
#[inline(always)]
pub(in crate::proved::vm_tree) fn next_kid<L: Leaf, S: Seek<L>>(
    entries: &Entries,
    from: usize,
    to: usize,
    end: End,
    seek: &S,
) -> Option<usize> {
    match end {
        End::First => first_kid::<L, S>(entries, from, to, seek),
        End::Last => last_kid::<L, S>(entries, from, to, seek),
    }
}
