// Written by bindings/erase from crates/vm_list/src/leaf.rt: do not edit.

//! A list of entries as a leaf of a tree, and its changes.

use crate::proved::vm_list::chunk::{Chunk, MAX_ENTRIES, MIN_ENTRIES};
use crate::proved::vm_list::Keyed;
use crate::proved::vm_tree::{Change, CopyLeaf, Cut, Cutting, Edit, Entry, Leaf};
use crate::rattle::Box;
use crate::rattle::{AllocError, Global};

impl<E: Keyed> Leaf for Chunk<E> {
    fn entry(&self) -> Entry {
        Entry {
            at: self.lowest(),
            longest: 0,
            alignments: 0,
        }
    }

    fn join(&mut self, next: &mut Chunk<E>) -> bool {
        self.join_next(next)
    }
}

impl<E: Keyed + Copy> CopyLeaf for Chunk<E> {
    fn try_copy(&self, alloc: Global) -> Result<Box<Self>, AllocError> {
        Ok(Box::new(alloc, self.try_clone(alloc)?)?)
    }
}

/// Puts an entry into a leaf. An entry with the same key is replaced, and is `old` then.
pub(in crate::proved::vm_list) struct Put<E: Keyed> {
    pub(in crate::proved::vm_list) entry: Option<E>,
    pub(in crate::proved::vm_list) old: Option<E>,
}

impl<E: Keyed> Edit<Chunk<E>> for Put<E> {
    fn change(&mut self, leaf: &mut Chunk<E>, _was: Entry) -> Change {
        let Some(entry) = self.entry.take() else {
            return Change::Refused;
        };
        match leaf.find(entry.key()) {
            Ok(at) => {
                self.old = Some(leaf.replace_at(at, entry));
                Change::Changed
            }
            Err(_) if leaf.len() >= MAX_ENTRIES => {
                self.entry = Some(entry);
                Change::Full
            }
            Err(at) => match leaf.insert_at(at, entry) {
                Ok(()) => {
                    self.old = None;
                    Change::Changed
                }
                Err(failed) => {
                    self.entry = Some(failed.value);
                    Change::OutOfMemory
                }
            },
        }
    }

    fn split(&mut self, leaf: &mut Chunk<E>, alloc: Global) -> Result<Box<Chunk<E>>, AllocError> {
        let Some(entry) = self.entry.take() else {
            unreachable!()
        };
        match leaf.split(alloc, entry) {
            Ok(upper) => {
                self.old = None;
                Ok(upper)
            }
            Err(failed) => {
                self.entry = Some(failed.value);
                Err(AllocError)
            }
        }
    }
}

/// Takes the entry with a key out of a leaf.
pub(in crate::proved::vm_list) struct TakeOut<E: Keyed> {
    pub(in crate::proved::vm_list) key: u64,
    pub(in crate::proved::vm_list) taken: Option<E>,
}

impl<E: Keyed> Cut<Chunk<E>> for TakeOut<E> {
    fn cut(&mut self, leaf: &mut Chunk<E>, _was: Entry) -> Cutting {
        match leaf.remove(self.key) {
            Some(entry) => {
                self.taken = Some(entry);
                if leaf.len() < MIN_ENTRIES {
                    Cutting::Small(leaf.entry())
                } else {
                    Cutting::Changed(leaf.entry())
                }
            }
            None => {
                self.taken = None;
                Cutting::Refused
            }
        }
    }
}

/// Replaces the entry with a key by one with a lower key.
pub(in crate::proved::vm_list) struct Lower<E: Keyed> {
    pub(in crate::proved::vm_list) key: u64,
    pub(in crate::proved::vm_list) entry: Option<E>,
}

impl<E: Keyed> Cut<Chunk<E>> for Lower<E> {
    fn cut(&mut self, leaf: &mut Chunk<E>, _was: Entry) -> Cutting {
        let Some(entry) = self.entry.take() else {
            return Cutting::Refused;
        };
        match leaf.lower(self.key, entry) {
            Ok(_) => Cutting::Changed(leaf.entry()),
            Err(_) => Cutting::Refused,
        }
    }
}
