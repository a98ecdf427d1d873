// Written by bindings/erase from crates/vm_leaf/src/leaf/part.rt: do not edit.

//! A leaf of blocks as a leaf of a tree.

use super::{Leaf, CAPACITY};
use crate::proved::vm_tree::{CopyLeaf, Entry};
use crate::rattle::Box;
use crate::rattle::{AllocError, Global};

impl crate::proved::vm_tree::Leaf for Leaf {
    /// Returns the first address, and the summary of the gaps.
    fn entry(&self) -> Entry {
        let sum = self.summary();
        Entry {
            at: self.start(),
            longest: sum.longest,
            alignments: sum.alignments,
        }
    }

    /// Appends the next leaf if there is room for all its blocks. Otherwise both get half of the blocks.
    fn join(&mut self, next: &mut Leaf) -> bool {
        if self.len() + next.len() <= CAPACITY {
            self.append(next);
            return true;
        }
        self.even(next);
        false
    }
}

impl CopyLeaf for Leaf {
    fn try_copy(&self, alloc: Global) -> Result<Box<Self>, AllocError> {
        Ok(Box::new(alloc, self.copy())?)
    }
}
