// Written by bindings/erase from crates/vm_tree/src/whole.rt: do not edit.

//! A tree as a whole: facts, reading, building and copying.

use crate::proved::vm_tree::build::{build_tree, Built, Source};
use crate::proved::vm_tree::copy::{copy_node, CopyLeaf};
use crate::proved::vm_tree::entries::Entry;
use crate::proved::vm_tree::leaf::Leaf;
use crate::proved::vm_tree::node::{Kids, Node};
use crate::proved::vm_tree::read::node_in;
use crate::proved::vm_tree::tree::{Root, Tree};
use crate::proved::vm_tree::walk::leaf_from;
use crate::rattle::{AllocError, Global};

/// Returns the height of a node.
fn height_of<L: Leaf>(node: &Node<L>) -> u64 {
    match &node.kids {
        Kids::Leaves(_) => 2,
        Kids::Nodes(slots) => height_of(node_in(slots, 0)) + 1,
    }
}

impl<L: Leaf> Tree<L> {
    /// Proof: if there are two leaves or more, then all are full enough. The height is limited by the leaves.
    pub(in crate::proved) fn facts(&self) {
        match &self.root {
            Root::Empty => {}
            Root::Leaf(_) => {}
            Root::Inner(node) => {
                let _len = node.len();
            }
        }
    }

    /// Returns the entry of all leaves together. There must be a leaf.
    pub(in crate::proved) fn entry(&self) -> Entry {
        match &self.root {
            Root::Empty => unreachable!(),
            Root::Leaf(leaf) => leaf.entry(),
            Root::Inner(node) => node.entry(),
        }
    }

    /// Returns the height: the number of nodes on the path to a leaf. A leaf is a node.
    pub(in crate::proved) fn height(&self) -> u64 {
        match &self.root {
            Root::Empty => unreachable!(),
            Root::Leaf(_) => 1,
            Root::Inner(node) => height_of(node),
        }
    }

    /// Returns the leaf to which a key belongs, and the first address of the next leaf, if there is one.
    pub(in crate::proved) fn leaf_from(&self, key: u64) -> Option<(&L, Option<u64>)> {
        match &self.root {
            Root::Empty => None,
            Root::Leaf(leaf) => {
                let leaf: &L = leaf;
                Some((leaf, None))
            }
            Root::Inner(node) => Some(leaf_from(node, key, None)),
        }
    }

    /// Builds a tree of the next `n` leaves. No tree of as many leaves is lower.
    pub(in crate::proved) fn build<S: Source<L>>(
        n: usize,
        source: &mut S,
        alloc: Global,
    ) -> Result<Tree<L>, AllocError> {
        match build_tree(n, source, alloc)? {
            Built::Leaf(leaf) => Ok(Tree {
                root: Root::Leaf(leaf),
            }),
            Built::Node(node) => Ok(Tree {
                root: Root::Inner(node),
            }),
        }
    }
}

impl<L: CopyLeaf> Tree<L> {
    /// Returns a copy of this tree, with the same children in each node.
    pub(in crate::proved) fn copy(&self, alloc: Global) -> Result<Tree<L>, AllocError> {
        match &self.root {
            Root::Empty => Ok(Tree { root: Root::Empty }),
            Root::Leaf(leaf) => {
                let leaf: &L = leaf;
                Ok(Tree {
                    root: Root::Leaf(leaf.try_copy(alloc)?),
                })
            }
            Root::Inner(node) => Ok(Tree {
                root: Root::Inner(copy_node(node, alloc)?),
            }),
        }
    }
}
