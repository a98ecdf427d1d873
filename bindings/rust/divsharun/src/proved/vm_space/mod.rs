// Written by bindings/erase from crates/vm_space/src/lib.rt: do not edit.

//! The blocks of an address space in a tree, whose leaves have up to 32 blocks each.

mod build;
mod closest;
mod copy;
mod edge;
mod exact;
mod find;
mod fit;
mod free;
mod place;
mod search;
mod space;
mod spare;
mod walk;

pub(in crate::proved) use crate::proved::vm_tree::End;
pub(in crate::proved) use search::{Refusal, Search, Taken};
pub(in crate::proved) use space::Space;
pub(in crate::proved) use spare::Spare;
pub(in crate::proved) use walk::Walk;
