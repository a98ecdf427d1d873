// Written by bindings/erase from crates.txt: do not edit.

//! The proved code, without its contracts.
#![forbid(unsafe_code)]
// Names are public in Rattle, and some proofs need another form than these lints or a statement that is removed.
#![allow(clippy::enum_variant_names, clippy::wrong_self_convention)]
#![allow(
    clippy::large_enum_variant,
    clippy::needless_range_loop,
    clippy::only_used_in_recursion
)]
#![allow(
    clippy::needless_match,
    clippy::question_mark,
    clippy::too_many_arguments,
    clippy::while_let_on_iterator
)]
#![allow(unused_imports, unused_variables)]

pub mod vm_addresses;
mod vm_commands;
pub mod vm_devices;
pub mod vm_ids;
mod vm_leaf;
#[cfg(feature = "std")]
pub mod vm_lines;
mod vm_list;
pub mod vm_range_map;
pub mod vm_ranges;
pub mod vm_saved_trees;
mod vm_space;
#[allow(dead_code)]
mod vm_tree;
