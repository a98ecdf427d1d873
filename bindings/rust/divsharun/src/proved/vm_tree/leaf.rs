// Written by bindings/erase from crates/vm_tree/src/leaf.rt: do not edit.

//! The leaves of a tree, and the change of a leaf.

use crate::proved::vm_tree::entries::Entry;
use crate::rattle::Box;
use crate::rattle::{AllocError, Global};

/// A leaf.
pub(in crate::proved) trait Leaf: Sized {
    /// Returns what is stored beside this leaf.
    fn entry(&self) -> Entry;

    /// Appends the items of the next leaf if there is room for all, and returns true. Otherwise it moves items
    /// between both, so that both have enough.
    fn join(&mut self, next: &mut Self) -> bool;
}

/// The result of a change of a leaf.
pub(in crate::proved) enum Change {
    /// It refused, and the leaf is as before.
    Refused,
    /// It changed the leaf, but not what is stored beside it.
    Same,
    /// It changed the leaf.
    Changed,
    /// It has no room, and the leaf is as before.
    Full,
    /// There is no memory, and the leaf is as before.
    OutOfMemory,
}

/// A change of one leaf.
pub(in crate::proved) trait Edit<L: Leaf> {
    /// Changes a leaf, beside which `was` is stored. If the leaf is a root, then `was` is not its entry.
    fn change(&mut self, leaf: &mut L, was: Entry) -> Change;

    /// Changes a leaf that has no room: its upper part is moved to another leaf. An error changes nothing.
    fn split(&mut self, leaf: &mut L, alloc: Global) -> Result<Box<L>, AllocError>;
}
