// Written by bindings/erase from crates/vm_addresses/src/saved.rt: do not edit.

//! Saved values of address allocators, and of those that vm-allocator saved.
//!
//! A value can be untrusted input, so the whole value is checked before the first allocation.
mod nodes;
