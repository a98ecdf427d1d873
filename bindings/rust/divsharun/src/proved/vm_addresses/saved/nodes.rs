// Written by bindings/erase from crates/vm_addresses/src/saved/nodes.rt: do not edit.

//! The saved tree of an allocator, as nodes that a serializer writes and reads.

use crate::proved::vm_addresses::AddressAllocator;
use crate::proved::vm_ranges::{RangeInclusive, SavedError};
use crate::proved::vm_saved_trees::{Form, ReadNodes, WrittenBlocks};
use crate::rattle::Vec;
use crate::rattle::{AllocError, Global};

impl AddressAllocator {
    /// Returns the blocks of which the saved tree of the allocator is made, or an error if an
    /// allocation fails.
    pub fn written_blocks(&self, alloc: Global) -> core::result::Result<WrittenBlocks, AllocError> {
        let mut starts = Vec::with_capacity(alloc, (self.held_count + self.gap_count) as usize)?;
        self.tree.append_starts(&mut starts)?;
        Ok(WrittenBlocks::new(starts, self.end()))
    }

    /// Returns the allocator that a saved space and a saved tree represent. Its tree has the minimum height.
    ///
    /// # Errors
    ///
    /// In this order:
    /// - The error of reading the nodes.
    /// - `Violated(Tree)` if the nodes are not one whole tree of the space.
    /// - `OutOfMemory` if an allocation fails.
    pub fn from_nodes(
        alloc: Global,
        space: RangeInclusive,
        nodes: &ReadNodes,
    ) -> core::result::Result<Self, SavedError> {
        Self::from_read_nodes(alloc, space, nodes, Form::Strict)
    }

    /// Returns the allocator of a saved space in which the allocated keys of a saved tree are
    /// allocated. The saved tree can be empty or unbalanced, with gaps, free neighbours and wrong heights.
    /// The tree of the allocator has the minimum height.
    ///
    /// # Errors
    ///
    /// In this order:
    /// - The error of reading the nodes.
    /// - `Violated(Inside)` if the nodes are not one whole tree, if a key is not in the space, or if more
    ///   than 6,293,134,512 keys are allocated.
    /// - `OutOfMemory` if an allocation fails.
    pub fn from_nodes_repaired(
        alloc: Global,
        space: RangeInclusive,
        nodes: &ReadNodes,
    ) -> core::result::Result<Self, SavedError> {
        Self::from_read_nodes(alloc, space, nodes, Form::Repaired)
    }

    /// Returns the allocator of a space, of nodes that are accepted in this form.
    ///
    /// [`from_nodes`](Self::from_nodes) and [`from_nodes_repaired`](Self::from_nodes_repaired) document the
    /// errors.
    fn from_read_nodes(
        alloc: Global,
        space: RangeInclusive,
        nodes: &ReadNodes,
        form: Form,
    ) -> core::result::Result<Self, SavedError> {
        let held = nodes.held_keys(&space, form)?;
        Ok(Self::of_held(alloc, space, held)?)
    }
}
