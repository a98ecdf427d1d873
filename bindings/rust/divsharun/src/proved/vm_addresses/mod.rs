// Written by bindings/erase from crates/vm_addresses/src/lib.rt: do not edit.

//! Allocators of address ranges.
//!
//! - [`AddressAllocator`] allocates ranges of 64-bit addresses from one space. Its blocks are in a
//!   tree.
//! - [`Ranges`] iterates over the allocated ranges, or over the gaps between them. [`RangesIn`] iterates
//!   over those in a window, and [`AllBlocks`] over both.
//! - [`ReadNodes`] reads the nodes of a saved tree, and [`WrittenTree`] has those that are written.

mod address_allocator;
mod saved;

pub use crate::proved::vm_ranges::{
    AllocPolicy, Condition, Constraint, Error, ListError, RangeInclusive, Result, SavedError,
    ValueError, DEFAULT_CONSTRAINT_ALIGN,
};
pub use crate::proved::vm_saved_trees::{ReadNodes, Side, WrittenBlocks, WrittenNode, WrittenTree};
pub use address_allocator::blocks::AllBlocks;
pub use address_allocator::ranges::{Ranges, RangesIn};
pub use address_allocator::{AddressAllocator, Conflict, ListConflict};
