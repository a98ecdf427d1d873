// Written by bindings/erase from crates/vm_list/src/chunk.rt: do not edit.

//! A leaf: entries in one vector.

use crate::rattle::{Box, Vec};
mod runs;

use crate::proved::vm_list::{find, place, place_from, Keyed};
use crate::rattle::{AllocError, AllocFailed, Global};
use core::mem;

/// The number of entries from which on a leaf is split.
pub(in crate::proved::vm_list) const MAX_ENTRIES: usize = 64;

/// The maximum number of entries of a leaf after a join.
const MAX_JOINED: usize = 48;

/// The number of entries below which a leaf is joined with one next to it, if both fit in one.
pub(in crate::proved::vm_list) const MIN_ENTRIES: usize = 16;

/// The minimum number of entries of both parts of a leaf that is split.
const FEW_ENTRIES: usize = 4;

/// Returns true for a few numbers below `MIN_ENTRIES`. So a leaf whose lowest ids are taken one after the other seldom
/// tries to be joined.
pub(in crate::proved::vm_list) fn may_join(len: usize) -> bool {
    matches!(len, 0 | 1 | 3 | 7 | 15)
}

/// Entries in descending order of their keys.
///
/// Its model is the list of its entries.
pub(in crate::proved) struct Chunk<E: Keyed> {
    entries: Vec<E>,
}

/// Inserts an entry with a new key. An error changes nothing and returns the entry.
fn insert_in<E: Keyed>(entries: &mut Vec<E>, entry: E) -> Result<(), AllocFailed<E>> {
    let Err(at) = find(entries.as_slice(), entry.key()) else {
        unreachable!()
    };
    if let Err(failed) = entries.insert(at, entry) {
        return Err(failed);
    }
    Ok(())
}

/// Returns the number of entries that stay in the upper part if an entry with this key is put into a full leaf: half
/// of them, but few or almost all if keys come in order.
fn upper_for<E: Keyed>(entries: &[E], key: u64) -> usize {
    let at = place(entries, key);
    if at == 0 {
        return FEW_ENTRIES;
    }
    if at == entries.len() {
        return entries.len() - FEW_ENTRIES;
    }
    entries.len() / 2
}

/// Returns the index of the entry with this key, if it may be replaced by an entry with a lower key.
fn lower_place<E: Keyed>(entries: &[E], key: u64, entry: &E) -> Option<usize> {
    let Ok(at) = find(entries, key) else {
        return None;
    };
    let new = entry.key();
    if new > key {
        return None;
    }
    if at + 1 >= entries.len() {
        return Some(at);
    }
    if entries[at + 1].key() >= new {
        return None;
    }
    Some(at)
}

/// Inserts an entry with a new key into one of two parts. An error changes nothing and returns the entry.
fn insert_part<E: Keyed>(
    upper: &mut Vec<E>,
    lower: &mut Vec<E>,
    entry: E,
) -> Result<(), AllocFailed<E>> {
    if lower[0].key() < entry.key() {
        insert_in(upper, entry)
    } else {
        insert_in(lower, entry)
    }
}

/// Inserts an entry with a new key into a full leaf, and moves the lower part to the vector that is returned. An error
/// changes nothing and returns the entry.
fn divide<E: Keyed>(entries: &mut Vec<E>, entry: E) -> Result<Vec<E>, AllocFailed<E>> {
    let at = upper_for(entries.as_slice(), entry.key());
    let Ok(mut lower) = entries.split_off(at) else {
        return Err(AllocFailed { value: entry });
    };
    if let Err(failed) = insert_part(entries, &mut lower, entry) {
        let Ok(()) = entries.append(&mut lower) else {
            unreachable!()
        };
        return Err(failed);
    }
    Ok(lower)
}

impl<E: Keyed> Chunk<E> {
    /// Creates an empty chunk. It does not allocate.
    pub(in crate::proved) fn new(alloc: Global) -> Self {
        Chunk {
            entries: Vec::new(alloc),
        }
    }

    /// Returns the number of entries.
    pub(in crate::proved) fn len(&self) -> usize {
        self.entries.len()
    }

    /// Returns the entries.
    pub(in crate::proved) fn as_slice(&self) -> &[E] {
        self.entries.as_slice()
    }

    /// Returns the lowest key, or 0.
    pub(in crate::proved) fn lowest(&self) -> u64 {
        match self.entries.as_slice().split_last() {
            Some((entry, _)) => entry.key(),
            None => 0,
        }
    }

    /// Returns the entry with this key, if there is one.
    pub(in crate::proved) fn get(&self, key: u64) -> Option<&E> {
        match find(self.entries.as_slice(), key) {
            Ok(at) => Some(&self.entries[at]),
            Err(_) => None,
        }
    }

    /// Returns the entry with the lowest key that is at least this one, if there is one.
    pub(in crate::proved) fn at_or_above(&self, key: u64) -> Option<&E> {
        let at = place_from(self.entries.as_slice(), key);
        if at == 0 {
            return None;
        }
        Some(&self.entries[at - 1])
    }

    /// Returns the entries with keys from `low` to `high`.
    pub(in crate::proved) fn between(&self, low: u64, high: u64) -> &[E] {
        let entries = self.entries.as_slice();
        let end = place_from(entries, low);
        let start = place(entries, high).min(end);
        &entries[start..end]
    }

    /// Returns the entry with the highest key below this one, if there is one.
    pub(in crate::proved) fn highest_below(&self, key: u64) -> Option<&E> {
        let at = place_from(self.entries.as_slice(), key);
        if at >= self.entries.len() {
            return None;
        }
        Some(&self.entries[at])
    }

    /// Returns the index of the entry with this key, or the index at which such an entry belongs.
    pub(in crate::proved::vm_list) fn find(&self, key: u64) -> Result<usize, usize> {
        find(self.entries.as_slice(), key)
    }

    /// Replaces the entry with the key of this one, which is at this index, and returns it.
    pub(in crate::proved::vm_list) fn replace_at(&mut self, at: usize, entry: E) -> E {
        mem::replace(&mut self.entries[at], entry)
    }

    /// Replaces the entry with this key by one with a lower key, and returns it. Returns the new entry if that would
    /// not be in order.
    pub(in crate::proved::vm_list) fn lower(&mut self, key: u64, entry: E) -> Result<E, E> {
        match lower_place(self.entries.as_slice(), key, &entry) {
            Some(at) => Ok(mem::replace(&mut self.entries[at], entry)),
            None => Err(entry),
        }
    }

    /// Inserts an entry with a new key at the index at which it belongs. An error changes nothing and returns the entry.
    pub(in crate::proved::vm_list) fn insert_at(
        &mut self,
        at: usize,
        entry: E,
    ) -> Result<(), AllocFailed<E>> {
        if let Err(failed) = self.entries.insert(at, entry) {
            return Err(failed);
        }
        Ok(())
    }

    /// Inserts an entry with a new key, and moves the upper part to a new leaf. An error changes nothing and returns
    /// the entry.
    pub(in crate::proved::vm_list) fn split(
        &mut self,
        alloc: Global,
        entry: E,
    ) -> Result<Box<Chunk<E>>, AllocFailed<E>> {
        let Ok(mut upper) = Box::new(alloc, Chunk::new(alloc)) else {
            return Err(AllocFailed { value: entry });
        };
        match divide(&mut self.entries, entry) {
            Ok(lower) => {
                let chunk: &mut Chunk<E> = &mut upper;
                chunk.entries = mem::replace(&mut self.entries, lower);
                Ok(upper)
            }
            Err(failed) => Err(failed),
        }
    }

    /// Removes the entry with this key, and returns it. It does not allocate.
    pub(in crate::proved) fn remove(&mut self, key: u64) -> Option<E> {
        match find(self.entries.as_slice(), key) {
            Ok(at) => Some(self.entries.remove(at)),
            Err(_) => None,
        }
    }

    /// Appends the entries of the next leaf if there is memory for all, and returns true. It does not allocate.
    pub(in crate::proved::vm_list) fn join_next(&mut self, next: &mut Self) -> bool {
        if self.entries.is_empty() {
            mem::swap(&mut self.entries, &mut next.entries);
            return true;
        }
        if next.entries.is_empty() {
            return true;
        }
        let capacity = next.entries.capacity().min(MAX_JOINED);
        if capacity.saturating_sub(next.entries.len()) < self.entries.len() {
            return false;
        }
        let Ok(()) = next.entries.append(&mut self.entries) else {
            unreachable!()
        };
        mem::swap(&mut self.entries, &mut next.entries);
        true
    }
}

impl<E: Keyed + Copy> Chunk<E> {
    /// Returns a copy. It allocates once.
    pub(in crate::proved::vm_list) fn try_clone(&self, alloc: Global) -> Result<Self, AllocError> {
        let mut entries = Vec::with_capacity(alloc, self.entries.len())?;
        entries.extend_from_slice(self.entries.as_slice())?;
        Ok(Chunk { entries })
    }
}
