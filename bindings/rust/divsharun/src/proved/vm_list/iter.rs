// Written by bindings/erase from crates/vm_list/src/iter.rt: do not edit.

//! Iteration over the entries of a list from both ends.

use crate::proved::vm_list::chunk::Chunk;
use crate::proved::vm_list::Keyed;
use crate::proved::vm_tree::LeafIter;

/// An iterator over the entries of a list in ascending order of their keys, or backwards.
///
/// Its model is the list of the entries that it has not returned yet.
#[derive(Clone)]
pub(in crate::proved) struct Iter<'a, E: Keyed> {
    // The leaves that were not begun, and the entries that are left of the leaves begun at both ends.
    leaves: LeafIter<'a, Chunk<E>>,
    lowest: &'a [E],
    highest: &'a [E],
}

/// Begins the lowest leaf that is left if no entry is left of `lowest`, or moves `highest` there if no leaf is left.
fn begin_lowest<'a, E: Keyed>(
    leaves: &mut LeafIter<'a, Chunk<E>>,
    lowest: &'a [E],
    highest: &'a [E],
) -> (&'a [E], &'a [E]) {
    if !lowest.is_empty() {
        return (lowest, highest);
    }
    match leaves.next_leaf() {
        Some(leaf) => (leaf.as_slice(), highest),
        None => (highest, lowest),
    }
}

/// Begins the highest leaf that is left if no entry is left of `highest`, or moves `lowest` there if no leaf is left.
fn begin_highest<'a, E: Keyed>(
    leaves: &mut LeafIter<'a, Chunk<E>>,
    lowest: &'a [E],
    highest: &'a [E],
) -> (&'a [E], &'a [E]) {
    if !highest.is_empty() {
        return (lowest, highest);
    }
    match leaves.last_leaf() {
        Some(leaf) => (lowest, leaf.as_slice()),
        None => (highest, lowest),
    }
}

impl<'a, E: Keyed> Iter<'a, E> {
    /// Returns an iterator over the entries of a leaf, which may be empty, and of the leaves after it.
    pub(in crate::proved::vm_list) fn after(
        leaf: &'a Chunk<E>,
        leaves: LeafIter<'a, Chunk<E>>,
    ) -> Iter<'a, E> {
        Iter {
            leaves,
            lowest: leaf.as_slice(),
            highest: &[],
        }
    }

    /// Returns an iterator over some entries of two leaves, and those of the leaves between them.
    pub(in crate::proved::vm_list) fn within(
        lowest: &'a [E],
        leaves: LeafIter<'a, Chunk<E>>,
        highest: &'a [E],
    ) -> Iter<'a, E> {
        Iter {
            leaves,
            lowest,
            highest,
        }
    }

    /// Returns an iterator over the entries of these leaves.
    pub(in crate::proved::vm_list) fn of_leaves(leaves: LeafIter<'a, Chunk<E>>) -> Iter<'a, E> {
        Iter {
            leaves,
            lowest: &[],
            highest: &[],
        }
    }
}

impl<'a, E: Keyed> Iterator for Iter<'a, E> {
    type Item = &'a E;

    /// Returns the entry with the lowest key that is left.
    fn next(&mut self) -> Option<&'a E> {
        let (lowest, highest) = begin_lowest(&mut self.leaves, self.lowest, self.highest);
        let Some((entry, others)) = lowest.split_last() else {
            self.lowest = lowest;
            self.highest = highest;
            return None;
        };
        self.lowest = others;
        self.highest = highest;
        Some(entry)
    }
}

impl<'a, E: Keyed> DoubleEndedIterator for Iter<'a, E> {
    /// Returns the entry with the highest key that is left.
    fn next_back(&mut self) -> Option<&'a E> {
        let (lowest, highest) = begin_highest(&mut self.leaves, self.lowest, self.highest);
        let Some((entry, others)) = highest.split_first() else {
            self.lowest = lowest;
            self.highest = highest;
            return None;
        };
        self.lowest = lowest;
        self.highest = others;
        Some(entry)
    }
}
