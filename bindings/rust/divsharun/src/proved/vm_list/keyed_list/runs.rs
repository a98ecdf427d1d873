// Written by bindings/erase from crates/vm_list/src/keyed_list/runs.rt: do not edit.

//! The runs of ids of a list.

use super::KeyedList;
use crate::proved::vm_list::chunk::{may_join, Chunk, MAX_ENTRIES};
use crate::proved::vm_list::id_set::Run;
use crate::proved::vm_tree::{Change, Cut, Cutting, Edit, Entry, Tree};
use crate::rattle::Box;
use crate::rattle::{AllocError, Global};

/// Takes the lowest id out of a leaf.
struct Pop {
    taken: Option<u32>,
}

impl Cut<Chunk<Run>> for Pop {
    fn cut(&mut self, leaf: &mut Chunk<Run>, _was: Entry) -> Cutting {
        let before = leaf.len();
        self.taken = leaf.pop();
        if self.taken.is_none() {
            return Cutting::Refused;
        }
        let len = leaf.len();
        if len < before && may_join(len) {
            return Cutting::Small(crate::proved::vm_tree::Leaf::entry(leaf));
        }
        Cutting::Changed(crate::proved::vm_tree::Leaf::entry(leaf))
    }
}

/// Adds an id that has a run above it in a leaf, and is next to none.
struct AddAlone {
    id: u32,
}

impl AddAlone {
    /// Returns the run of the id.
    fn run(&self) -> Run {
        Run {
            first: self.id,
            last: self.id,
        }
    }
}

impl Edit<Chunk<Run>> for AddAlone {
    fn change(&mut self, leaf: &mut Chunk<Run>, _was: Entry) -> Change {
        let Some(at) = leaf.alone_at(self.id) else {
            return Change::Refused;
        };
        if leaf.len() >= MAX_ENTRIES {
            return Change::Full;
        }
        match leaf.insert_at(at, self.run()) {
            Ok(()) => Change::Changed,
            Err(_) => Change::OutOfMemory,
        }
    }

    fn split(
        &mut self,
        leaf: &mut Chunk<Run>,
        alloc: Global,
    ) -> Result<Box<Chunk<Run>>, AllocError> {
        match leaf.split(alloc, self.run()) {
            Ok(upper) => Ok(upper),
            Err(_) => Err(AllocError),
        }
    }
}

/// Adds an id that has a run above it in its leaf and is next to none, and returns true. Returns false, and changes
/// nothing, for any other id. An error changes nothing.
fn add_alone(tree: &mut Tree<Chunk<Run>>, alloc: Global, id: u32) -> Result<bool, AllocError> {
    tree.facts();
    let mut add = AddAlone { id };
    match tree.edit(id.into(), &mut add, alloc, &mut 0) {
        Ok(true) => Ok(true),
        Ok(false) => Ok(false),
        Err(error) => Err(error),
    }
}

impl KeyedList<Run> {
    /// Adds an id that has a run above it in its leaf and is next to none, and returns true. It descends once. Returns
    /// false, and changes nothing, for any other id. An error changes nothing.
    pub(in crate::proved::vm_list) fn add_alone(
        &mut self,
        alloc: Global,
        id: u32,
    ) -> Result<bool, AllocError> {
        if self.tree.is_empty() {
            return Ok(false);
        }
        add_alone(&mut self.tree, alloc, id)
    }

    /// Removes and returns the lowest id. It does not allocate.
    pub(in crate::proved::vm_list) fn pop(&mut self) -> Option<u32> {
        if self.tree.is_empty() {
            return None;
        }
        self.tree.facts();
        let mut edit = Pop { taken: None };
        if !self.tree.cut(0, &mut edit, &mut 0) {
            return None;
        }
        edit.taken
    }
}
