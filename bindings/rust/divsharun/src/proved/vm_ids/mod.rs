// Written by bindings/erase from crates/vm_ids/src/lib.rt: do not edit.

//! An allocator of 32-bit ids from a range, the lowest free id first.

mod id_allocator;
mod id_request;
mod saved;

pub use id_allocator::{FreedIds, HeldIds, HeldIdsIn, IdAllocator};
pub use id_request::IdRequest;
pub use saved::ReadIds;
