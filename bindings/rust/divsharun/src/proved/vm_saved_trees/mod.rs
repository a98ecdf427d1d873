// Written by bindings/erase from crates/vm_saved_trees/src/lib.rt: do not edit.

//! Saved trees of a space, which have a node for each block: checked, read and written.
//!
//! - [`ReadNodes`] reads the nodes of a saved tree, and [`read_held_keys`] a value. Both keep only the
//!   allocated keys.
//! - [`WrittenTree`] has the nodes that are written, and [`encode`] makes a value of them.

mod nodes;
mod span;
mod written;

pub use nodes::{ReadNodes, Side};
pub use span::Form;
pub use written::{WrittenBlocks, WrittenNode, WrittenTree};
