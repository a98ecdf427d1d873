// Written by bindings/erase from crates/vm_list/src/lib.rt: do not edit.

//! Lists of entries in descending order of their keys, in leaves of at most 64 entries, and sets of ids.
//!
//! The leaves are those of a B+ tree (`vm_tree`). A call descends to the leaf of a key, and then finds the entry in
//! the leaf, so it takes logarithmic time. An insertion into a full leaf splits it: in half, or so that the leaf stays
//! nearly full if keys come in order. A leaf that has fewer than 16 entries after a removal is joined with one next to
//! it if both fit in one. If the lowest id was removed, that is tried only at a few of these numbers. The lowest entry
//! is at the end of its leaf, so removing it moves nothing.

mod chunk;
mod id_set;
mod iter;
mod keyed_list;
mod leaf;

pub(in crate::proved) use id_set::{IdSet, Run};
pub(in crate::proved) use iter::Iter;
pub(in crate::proved) use keyed_list::KeyedList;

/// An entry with a key.
pub(in crate::proved) trait Keyed: Sized {
    /// Returns the key of the entry.
    fn key(&self) -> u64;
}

/// Returns the number of entries with keys above this one.
fn place<E: Keyed>(entries: &[E], key: u64) -> usize {
    entries.partition_point(|entry| entry.key() > key)
}

/// Returns the number of entries whose keys are at least this one.
fn place_from<E: Keyed>(entries: &[E], key: u64) -> usize {
    entries.partition_point(|entry| entry.key() >= key)
}

/// Returns the index of the entry with this key, or the index at which such an entry belongs.
fn find<E: Keyed>(entries: &[E], key: u64) -> Result<usize, usize> {
    let at = place(entries, key);
    if at < entries.len() && entries[at].key() == key {
        Ok(at)
    } else {
        Err(at)
    }
}
