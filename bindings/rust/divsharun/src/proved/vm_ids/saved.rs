// Written by bindings/erase from crates/vm_ids/src/saved.rt: do not edit.

//! Saved values of id allocators.
mod read_ids;

pub use read_ids::ReadIds;
