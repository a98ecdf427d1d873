// Written by bindings/erase from crates/vm_tree/src/tree.rt: do not edit.

//! A tree.

use crate::proved::vm_tree::edit::{edit_at, edit_root};
use crate::proved::vm_tree::entries::{Entries, Entry, FANOUT};
use crate::proved::vm_tree::find::find_at;
use crate::proved::vm_tree::leaf::{Edit, Leaf};
use crate::proved::vm_tree::node::{Kids, Node};
use crate::proved::vm_tree::outcome::{Halves, Outcome};
use crate::proved::vm_tree::slots::{insert_slot, no_slots};
use crate::rattle::{AllocError, Global};
use crate::rattle::{Box, Vec};
use core::mem;

/// The root of a tree.
pub(in crate::proved::vm_tree) enum Root<L: Leaf> {
    Empty,
    Leaf(Box<L>),
    Inner(Box<Node<L>>),
}

/// A tree.
pub(in crate::proved) struct Tree<L: Leaf> {
    pub(in crate::proved::vm_tree) root: Root<L>,
}

/// Creates the entries of two children.
fn two_entries(low: Entry, high: Entry) -> Entries {
    let mut entries = Entries::empty();
    entries.insert(0, low);
    entries.insert(1, high);
    entries
}

/// Creates slots with two children.
fn two_slots<C>(low: Box<C>, high: Box<C>) -> [Option<Box<C>>; FANOUT] {
    let mut slots = no_slots();
    insert_slot(&mut slots, 0, 0, low);
    insert_slot(&mut slots, 1, 1, high);
    slots
}

/// Returns true if a change was made.
pub(in crate::proved::vm_tree) fn has_changed<C>(outcome: &Outcome<C>) -> bool {
    match outcome {
        Outcome::Refused => false,
        Outcome::Same => true,
        Outcome::Changed(_) => true,
        Outcome::Split(_) => true,
    }
}

/// Makes a root of a leaf, or of its halves.
pub(in crate::proved::vm_tree) fn leaf_root<L: Leaf>(
    leaf: Box<L>,
    outcome: Outcome<L>,
    spares: &mut Vec<Box<Node<L>>>,
) -> Root<L> {
    match outcome {
        Outcome::Refused => Root::Leaf(leaf),
        Outcome::Same => Root::Leaf(leaf),
        Outcome::Changed(_) => Root::Leaf(leaf),
        Outcome::Split(halves) => {
            let Halves { low, high, upper } = halves;
            let Some(mut top) = spares.pop() else {
                unreachable!()
            };
            *top = Node {
                entries: two_entries(low, high),
                kids: Kids::Leaves(two_slots(leaf, upper)),
            };
            Root::Inner(top)
        }
    }
}

/// Makes a root of a node, or of its halves.
pub(in crate::proved::vm_tree) fn node_root<L: Leaf>(
    node: Box<Node<L>>,
    outcome: Outcome<Node<L>>,
    spares: &mut Vec<Box<Node<L>>>,
) -> Root<L> {
    match outcome {
        Outcome::Refused => Root::Inner(node),
        Outcome::Same => Root::Inner(node),
        Outcome::Changed(_) => Root::Inner(node),
        Outcome::Split(halves) => {
            let Halves { low, high, upper } = halves;
            let Some(mut top) = spares.pop() else {
                unreachable!()
            };
            *top = Node {
                entries: two_entries(low, high),
                kids: Kids::Nodes(two_slots(node, upper)),
            };
            Root::Inner(top)
        }
    }
}

impl<L: Leaf> Tree<L> {
    /// Creates a tree without leaves.
    pub(in crate::proved) fn empty() -> Tree<L> {
        Tree { root: Root::Empty }
    }

    /// Creates a tree of one leaf.
    pub(in crate::proved) fn single(leaf: Box<L>) -> Tree<L> {
        Tree {
            root: Root::Leaf(leaf),
        }
    }

    /// Returns true if there is no leaf.
    pub(in crate::proved) fn is_empty(&self) -> bool {
        match &self.root {
            Root::Empty => true,
            Root::Leaf(_) => false,
            Root::Inner(node) => {
                node.facts();
                false
            }
        }
    }

    /// Returns the only leaf, or `None` if there is none or the root is a node.
    #[inline(always)]
    pub(in crate::proved) fn only_leaf(&self) -> Option<&L> {
        match &self.root {
            Root::Empty => None,
            Root::Leaf(leaf) => {
                let leaf: &L = leaf;
                Some(leaf)
            }
            Root::Inner(node) => {
                node.facts();
                None
            }
        }
    }

    /// Returns the leaf to which a key belongs, if there is one.
    pub(in crate::proved) fn leaf_at(&self, key: u64) -> Option<&L> {
        match &self.root {
            Root::Empty => None,
            Root::Leaf(leaf) => {
                let leaf: &L = leaf;
                Some(leaf)
            }
            Root::Inner(node) => Some(find_at(node, key)),
        }
    }

    /// Changes the leaf to which a key belongs. Returns false if it refused. An error changes nothing.
    pub(in crate::proved) fn edit<E: Edit<L>>(
        &mut self,
        key: u64,
        edit: &mut E,
        alloc: Global,
        count: &mut u64,
    ) -> Result<bool, AllocError> {
        let mut spares = Vec::new(alloc);
        self.edit_with(key, edit, &mut spares, alloc, count)
    }

    /// Changes the leaf to which a key belongs. Returns false if it refused. An error changes nothing. Nodes are
    /// taken from `spares`. If there are as many as the height, an error means that the leaf lacks memory.
    pub(in crate::proved) fn edit_with<E: Edit<L>>(
        &mut self,
        key: u64,
        edit: &mut E,
        spares: &mut Vec<Box<Node<L>>>,
        alloc: Global,
        count: &mut u64,
    ) -> Result<bool, AllocError> {
        match mem::replace(&mut self.root, Root::Empty) {
            Root::Empty => unreachable!(),
            Root::Leaf(mut leaf) => {
                *count = count.saturating_add(1);
                match edit_root(&mut *leaf, edit, spares, alloc) {
                    Ok(outcome) => {
                        let done = has_changed(&outcome);
                        self.root = leaf_root(leaf, outcome, spares);
                        Ok(done)
                    }
                    Err(error) => {
                        self.root = Root::Leaf(leaf);
                        Err(error)
                    }
                }
            }
            Root::Inner(mut node) => {
                node.facts();
                match edit_at(&mut *node, key, edit, 1, spares, alloc, count) {
                    Ok(outcome) => {
                        let done = has_changed(&outcome);
                        self.root = node_root(node, outcome, spares);
                        Ok(done)
                    }
                    Err(error) => {
                        self.root = Root::Inner(node);
                        Err(error)
                    }
                }
            }
        }
    }
}
