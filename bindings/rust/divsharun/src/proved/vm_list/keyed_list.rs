// Written by bindings/erase from crates/vm_list/src/keyed_list.rt: do not edit.

//! A descending list of entries, in the leaves of a tree.

use crate::rattle::Box;
mod runs;

use crate::proved::vm_list::chunk::Chunk;
use crate::proved::vm_list::iter::Iter;
use crate::proved::vm_list::leaf::{Lower, Put, TakeOut};
use crate::proved::vm_list::Keyed;
use crate::proved::vm_tree::{LeafIter, Tree};
use crate::rattle::{AllocError, AllocFailed, Global};
use core::fmt::{Debug, Formatter, Write};

/// Entries in descending order of their keys.
///
/// Its model is the list of its entries.
pub(in crate::proved) struct KeyedList<E: Keyed> {
    tree: Tree<Chunk<E>>,
}

/// Gives a tree without leaves one, which has no entry.
fn begin<E: Keyed>(tree: &mut Tree<Chunk<E>>, alloc: Global) -> Result<(), AllocError> {
    if tree.is_empty() {
        *tree = Tree::single(Box::new(alloc, Chunk::new(alloc))?);
    }
    Ok(())
}

/// Puts an entry, and returns the one that had its key. An error changes nothing and returns the entry.
fn put<E: Keyed>(
    tree: &mut Tree<Chunk<E>>,
    alloc: Global,
    entry: E,
) -> Result<Option<E>, AllocFailed<E>> {
    tree.facts();
    let key = entry.key();
    let mut put = Put {
        entry: Some(entry),
        old: None,
    };
    let done = tree.edit(key, &mut put, alloc, &mut 0);
    let Put { entry, old } = put;
    match done {
        Ok(true) => Ok(old),
        Ok(false) => unreachable!(),
        Err(_) => match entry {
            Some(value) => Err(AllocFailed { value }),
            None => unreachable!(),
        },
    }
}

/// Replaces the entry with this key by one with a lower key.
fn lower<E: Keyed>(tree: &mut Tree<Chunk<E>>, key: u64, entry: E) {
    if tree.is_empty() {
        unreachable!()
    }
    tree.facts();
    let mut edit = Lower {
        key,
        entry: Some(entry),
    };
    if !tree.cut(key, &mut edit, &mut 0) {
        unreachable!()
    }
}

impl<E: Keyed> KeyedList<E> {
    /// Creates an empty list. It does not allocate.
    pub(in crate::proved) fn new() -> Self {
        KeyedList {
            tree: Tree::empty(),
        }
    }

    /// Returns the entry with this key, if there is one. It takes logarithmic time.
    pub(in crate::proved) fn get(&self, key: u64) -> Option<&E> {
        self.tree.facts();
        match self.tree.leaf_from(key) {
            Some((leaf, _)) => leaf.get(key),
            None => None,
        }
    }

    /// Returns the entry with the lowest key that is at least this one, if there is one.
    pub(in crate::proved) fn at_or_above(&self, key: u64) -> Option<&E> {
        self.tree.facts();
        let Some((leaf, next)) = self.tree.leaf_from(key) else {
            return None;
        };
        match leaf.at_or_above(key) {
            Some(entry) => Some(entry),
            None => match next {
                Some(lowest) => self.get(lowest),
                None => None,
            },
        }
    }

    /// Returns the entry with the highest key below this one, if there is one.
    pub(in crate::proved) fn highest_below(&self, key: u64) -> Option<&E> {
        if key == 0 {
            return None;
        }
        self.tree.facts();
        match self.tree.leaf_from(key - 1) {
            Some((leaf, _)) => leaf.highest_below(key),
            None => None,
        }
    }

    /// Puts an entry into the list, and returns the one that had its key. An error changes nothing and returns the
    /// entry.
    pub(in crate::proved) fn insert(
        &mut self,
        alloc: Global,
        entry: E,
    ) -> Result<Option<E>, AllocFailed<E>> {
        if begin(&mut self.tree, alloc).is_err() {
            return Err(AllocFailed { value: entry });
        }
        put(&mut self.tree, alloc, entry)
    }

    /// Removes the entry with this key, and returns it. It does not allocate.
    pub(in crate::proved) fn remove(&mut self, key: u64) -> Option<E> {
        if self.tree.is_empty() {
            return None;
        }
        self.tree.facts();
        let mut edit = TakeOut { key, taken: None };
        if !self.tree.cut(key, &mut edit, &mut 0) {
            return None;
        }
        edit.taken
    }

    /// Replaces the entry with this key by one with a lower key, which is above the keys of the entries below. It does
    /// not allocate.
    pub(in crate::proved) fn lower_key(&mut self, key: u64, entry: E) {
        lower(&mut self.tree, key, entry);
    }

    /// Replaces the entry with the key of this one. It does not allocate.
    pub(in crate::proved) fn set(&mut self, entry: E) {
        lower(&mut self.tree, entry.key(), entry);
    }

    /// Returns an iterator over the entries in ascending order of their keys. It does not allocate.
    pub(in crate::proved) fn iter(&self) -> Iter<'_, E> {
        self.tree.facts();
        iter_of(self.tree.leaves())
    }

    /// Returns an iterator over the entries with keys from `low` to `high`, in ascending order of their keys. It
    /// descends one path of the tree for each of these keys, and does not allocate.
    pub(in crate::proved) fn iter_between(&self, low: u64, high: u64) -> Iter<'_, E> {
        self.tree.facts();
        let mut leaves = self.tree.leaves_between(low, high);
        let Some(first) = leaves.next_leaf() else {
            return Iter::of_leaves(leaves);
        };
        let lowest = first.between(low, high);
        match leaves.last_leaf() {
            Some(last) => Iter::within(lowest, leaves, last.between(low, high)),
            None => Iter::within(lowest, leaves, &[]),
        }
    }
}

impl<E: Keyed + Copy> KeyedList<E> {
    /// Returns a copy. It allocates for each leaf and each node.
    pub(in crate::proved) fn try_clone(&self, alloc: Global) -> Result<Self, AllocError> {
        Ok(KeyedList {
            tree: self.tree.copy(alloc)?,
        })
    }
}

impl<E: Keyed + Debug> Debug for KeyedList<E> {
    fn fmt(&self, f: &mut Formatter<'_>) -> core::fmt::Result {
        f.debug_list().entries(self.iter()).finish()
    }
}

/// Returns an iterator over the entries of leaves. A leaf that is alone may be empty.
fn iter_of<'a, E: Keyed>(leaves: LeafIter<'a, Chunk<E>>) -> Iter<'a, E> {
    let mut rest = leaves;
    match rest.next_leaf() {
        Some(leaf) => Iter::after(leaf, rest),
        None => Iter::of_leaves(rest),
    }
}
