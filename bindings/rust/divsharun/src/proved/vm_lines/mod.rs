// Written by bindings/erase from crates/vm_lines/src/lib.rt: do not edit.

//! The replay language: each line is a call of an allocator or of a manager of devices, and has one
//! line of output.

mod machine;
mod replay;
mod reply;
mod session;

pub use replay::{run, RunError};
