// Written by bindings/erase from crates/vm_tree/src/outcome.rt: do not edit.

//! The result of a change of a child, and of its node.
use crate::proved::vm_tree::entries::{Entries, Entry, FANOUT};
use crate::rattle::Box;

/// The result of a change of a child.
pub(in crate::proved::vm_tree) enum Outcome<C> {
    /// The leaf refused. Nothing was changed.
    Refused,
    /// The entry of the child is as before.
    Same,
    /// The child has this entry now.
    Changed(Entry),
    /// The child was split.
    Split(Halves<C>),
}

/// The upper half of a child that was split, and the entries of both halves.
pub(in crate::proved::vm_tree) struct Halves<C> {
    pub(in crate::proved::vm_tree) low: Entry,
    pub(in crate::proved::vm_tree) high: Entry,
    pub(in crate::proved::vm_tree) upper: Box<C>,
}

/// The result of a change of the children of a node.
pub(in crate::proved::vm_tree) enum Settled<C> {
    Refused,
    Same,
    Changed(Entry),
    /// The node was full: these children belong to a node behind it.
    Split(Upper<C>),
}

/// The upper half of the children of a node that was split, and the entries of both halves.
pub(in crate::proved::vm_tree) struct Upper<C> {
    pub(in crate::proved::vm_tree) low: Entry,
    pub(in crate::proved::vm_tree) high: Entry,
    pub(in crate::proved::vm_tree) entries: Entries,
    pub(in crate::proved::vm_tree) slots: [Option<Box<C>>; FANOUT],
}
