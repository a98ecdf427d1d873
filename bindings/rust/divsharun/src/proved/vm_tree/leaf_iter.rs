// Written by bindings/erase from crates/vm_tree/src/leaf_iter.rt: do not edit.

//! The leaves of a tree, from both ends.

use crate::proved::vm_tree::leaf::Leaf;
use crate::proved::vm_tree::tree::Tree;
use crate::rattle::AllocError;

/// Returns the first leaf between two addresses, and the addresses between which the others are.
fn after_first<L: Leaf>(tree: &Tree<L>, from: u64, to: u64) -> (&L, u64, u64) {
    match tree.leaf_from(from) {
        Some((leaf, next)) => match next {
            Some(next) => (leaf, next, to),
            None => (leaf, 1, 0),
        },
        None => unreachable!(),
    }
}

/// Returns the last leaf between two addresses, and the addresses between which the others are.
fn before_last<L: Leaf>(tree: &Tree<L>, from: u64, to: u64) -> (&L, u64, u64) {
    let Some((leaf, _)) = tree.leaf_from(to) else {
        unreachable!()
    };
    if from == to {
        return (leaf, 1, 0);
    }
    let Some((lower, _)) = tree.leaf_from(to - 1) else {
        unreachable!()
    };
    let entry = lower.entry();
    (leaf, from, entry.at)
}

/// Returns the first and the last address of a tree, or 1 and 0 if there is no leaf.
fn whole<L: Leaf>(tree: &Tree<L>) -> (u64, u64) {
    let Some((low, _)) = tree.leaf_from(0) else {
        return (1, 0);
    };
    let Some((high, next)) = tree.leaf_from(u64::MAX) else {
        unreachable!()
    };
    match next {
        Some(beyond) => {
            let _beyond = beyond;
            unreachable!()
        }
        None => {
            let first = low.entry();
            let last = high.entry();
            (first.at, last.at)
        }
    }
}

/// Returns the addresses of the leaves to which two keys belong, or 1 and 0 if no leaf is between them.
fn ends_between<L: Leaf>(tree: &Tree<L>, low: u64, high: u64) -> (u64, u64) {
    if high < low {
        return (1, 0);
    }
    let Some((lowest, _)) = tree.leaf_from(low) else {
        return (1, 0);
    };
    let Some((highest, _)) = tree.leaf_from(high) else {
        unreachable!()
    };
    let first = lowest.entry();
    let last = highest.entry();
    (first.at, last.at)
}

/// The leaves of a tree, from both ends.
///
/// Its model is the list of the leaves that it has not returned yet.
pub(in crate::proved) struct LeafIter<'a, L: Leaf> {
    tree: &'a Tree<L>,
    from: u64,
    to: u64,
}

impl<'a, L: Leaf> LeafIter<'a, L> {
    /// Returns the first leaf that is left.
    pub(in crate::proved) fn next_leaf(&mut self) -> Option<&'a L> {
        if self.to < self.from {
            return None;
        }
        let (leaf, from, to) = after_first(self.tree, self.from, self.to);
        self.from = from;
        self.to = to;
        Some(leaf)
    }

    /// Returns the last leaf that is left.
    pub(in crate::proved) fn last_leaf(&mut self) -> Option<&'a L> {
        if self.to < self.from {
            return None;
        }
        let (leaf, from, to) = before_last(self.tree, self.from, self.to);
        self.from = from;
        self.to = to;
        Some(leaf)
    }
}

impl<'a, L: Leaf> Clone for LeafIter<'a, L> {
    fn clone(&self) -> Self {
        LeafIter {
            tree: self.tree,
            from: self.from,
            to: self.to,
        }
    }
}

impl<L: Leaf> Tree<L> {
    /// Returns the leaves of this tree.
    pub(in crate::proved) fn leaves(&self) -> LeafIter<'_, L> {
        let (from, to) = whole(self);
        LeafIter {
            tree: self,
            from,
            to,
        }
    }
    /// Returns the leaves from the one to which `low` belongs to the one to which `high` belongs, or none if `high` is
    /// below `low`.
    pub(in crate::proved) fn leaves_between(&self, low: u64, high: u64) -> LeafIter<'_, L> {
        let (from, to) = ends_between(self, low, high);
        LeafIter {
            tree: self,
            from,
            to,
        }
    }
}
