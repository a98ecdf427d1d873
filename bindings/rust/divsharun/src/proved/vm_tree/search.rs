// Written by bindings/erase from crates/vm_tree/src/search.rt: do not edit.

//! The search for a leaf.

use crate::proved::vm_tree::end::End;
use crate::proved::vm_tree::entries::Entry;
use crate::proved::vm_tree::leaf::{Change, Leaf};
use crate::rattle::Box;
use crate::rattle::{AllocError, Global};

/// A search for the leaf that has the place closest to an end, and a change of this leaf.
pub(in crate::proved) trait Seek<L: Leaf> {
    /// Returns the end to which the place is closest.
    fn end(&self) -> End;

    /// Returns the lowest address of the window.
    fn low(&self) -> u64;

    /// Returns the highest address of the window.
    fn high(&self) -> u64;

    /// Returns true if the summary of leaves does not exclude a place.
    fn fits(&self, entry: &Entry) -> bool;

    /// Returns true if a leaf has a place.
    fn has(&self, leaf: &L) -> bool;

    /// Changes the leaf, beside which `was` is stored, if it has a place. Returns `None` if it has none.
    /// If the leaf is a root, then `was` is not its entry.
    fn seek(&mut self, leaf: &mut L, was: Entry) -> Option<Change>;

    /// Changes a leaf that has no room: its upper part is moved to another leaf. An error does not change the leaf.
    fn split(&mut self, leaf: &mut L, alloc: Global) -> Result<Box<L>, AllocError>;
}
