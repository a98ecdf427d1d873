// Written by bindings/erase from crates/vm_tree/src/lib.rt: do not edit.

//! A tree over leaves of any kind: inner nodes of up to 16 children, all leaves at the same depth.

mod build;
mod closest;
mod columns;
mod copy;
mod cut;
mod edit;
mod end;
mod entries;
mod find;
mod grow;
mod kids;
mod leaf;
mod leaf_iter;
mod look;
mod lower;
mod mend;
mod node;
mod outcome;
mod read;
mod search;
mod seek;
mod settle;
mod shrink;
mod slots;
mod tree;
mod walk;
mod whole;
mod window;

pub(in crate::proved) use build::Source;
pub(in crate::proved) use copy::CopyLeaf;
pub(in crate::proved) use cut::{Cut, Cutting};
pub(in crate::proved) use edit::reserve_nodes;
pub(in crate::proved) use end::End;
pub(in crate::proved) use entries::{Entries, Entry, FANOUT};
pub(in crate::proved) use leaf::{Change, Edit, Leaf};
pub(in crate::proved) use leaf_iter::LeafIter;
pub(in crate::proved) use node::{Kids, Node};
pub(in crate::proved) use read::{leaf_in, node_in};
pub(in crate::proved) use search::Seek;
pub(in crate::proved) use slots::{append_slots, insert_slot, no_slots, remove_slot, split_slots};
pub(in crate::proved) use tree::Tree;
pub(in crate::proved) use walk::leaf_from;
