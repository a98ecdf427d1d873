// Written by bindings/erase from crates/vm_ids/src/id_request.rt: do not edit.

//! A request for an id.

/// Which id to allocate.
#[derive(Clone, Copy, Debug, PartialEq, Eq)]
pub enum IdRequest {
    /// The lowest free id, as by `IdAllocator::allocate_id`.
    Lowest,
    /// The lowest free id from the first to the last one, both included, as by
    /// `IdAllocator::allocate_in`.
    LowestIn(u32, u32),
    /// This id, as by `IdAllocator::allocate_exact`.
    Exact(u32),
}
