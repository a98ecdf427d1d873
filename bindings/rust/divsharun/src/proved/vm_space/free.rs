// Written by bindings/erase from crates/vm_space/src/free.rt: do not edit.

//! The free of a range.
//!
//! A block inside its leaf is freed by one change. A block at an end of its leaf takes two more: the gap beside it
//! in the next leaf is extended over it, and then the block is dropped from its leaf. If no gap is there, it is
//! freed in its leaf instead. Only the last change can make a leaf so small that it is joined with another.

use crate::proved::vm_leaf::{Leaf, Summary, MIN_BLOCKS};
use crate::proved::vm_ranges::{NodeState, RangeInclusive};
use crate::proved::vm_space::edge::{edge_of, DropEnd, Edge, Extend, FreeEnd};
use crate::proved::vm_tree::{Cut, Cutting, End, Entry, Tree};

/// Returns the index of the allocated block of this range. Returns `None` if the leaf does not hold the range.
#[inline(always)]
fn held_at(leaf: &Leaf, key: &RangeInclusive) -> Option<usize> {
    let (start, end) = (key.start(), key.end());
    let i = leaf.index_of(start);
    let block = leaf.block_at(i);
    if block.key.start() != start || block.key.end() != end {
        return None;
    }
    match block.state {
        NodeState::Free => None,
        NodeState::Allocated => Some(i),
    }
}

/// Returns the entry of a leaf after a gap was made of blocks that do not have its first address alone, or of all.
#[inline(always)]
fn with_gap(was: &Entry, gap: &RangeInclusive) -> Entry {
    let sum = Summary::of_gap(gap);
    Entry {
        at: was.at,
        longest: was.longest.max(sum.longest),
        alignments: was.alignments.max(sum.alignments),
    }
}

/// The result of a call that frees a range inside its leaf.
#[derive(Clone, Copy)]
pub(in crate::proved::vm_space) enum Freeing {
    /// The range is not held.
    Absent,
    /// The block is at an end of its leaf.
    AtEdge(Edge),
    /// It was freed, and this number of gaps was joined with it.
    Done(u64),
}

/// Frees a held range that is not at an end of its leaf, or is alone in it.
pub(in crate::proved::vm_space) struct FreeInside {
    pub(in crate::proved::vm_space) key: RangeInclusive,
    pub(in crate::proved::vm_space) answer: Freeing,
}

impl Cut<Leaf> for FreeInside {
    #[inline(always)]
    fn cut(&mut self, leaf: &mut Leaf, was: Entry) -> Cutting {
        let len = leaf.len();
        self.answer = Freeing::Absent;
        let start = self.key.start();
        if start < leaf.start() || leaf.end() < start {
            return Cutting::Refused;
        }
        let Some(i) = held_at(leaf, &self.key) else {
            return Cutting::Refused;
        };
        if let Some(edge) = edge_of(leaf, i) {
            self.answer = Freeing::AtEdge(edge);
            return Cutting::Refused;
        }
        let gap = leaf.join(i);
        let entry = with_gap(&was, &gap);
        let left = leaf.len();
        self.answer = Freeing::Done((len - left) as u64);
        if left < MIN_BLOCKS {
            return Cutting::Small(entry);
        }
        Cutting::Changed(entry)
    }
}

/// Extends the gap beside a block at an end of its leaf over it. Returns `false` if there is none.
fn extend_beside(tree: &mut Tree<Leaf>, key: &RangeInclusive, edge: Edge, count: &mut u64) -> bool {
    match edge.end {
        End::First => {
            if key.start() == 0 {
                return false;
            }
            let mut extend = Extend {
                end: End::First,
                beside: key.start(),
                to: edge.to,
            };
            tree.cut(key.start() - 1, &mut extend, count)
        }
        End::Last => {
            let mut extend = Extend {
                end: End::Last,
                beside: key.end(),
                to: edge.to,
            };
            tree.cut(key.end() + 1, &mut extend, count)
        }
    }
}

/// Drops a block at an end of its leaf, after the gap beside it was extended over it. Returns the number of gaps
/// that were joined.
fn drop_end(tree: &mut Tree<Leaf>, _key: &RangeInclusive, edge: Edge, count: &mut u64) -> u64 {
    // Proof: one of several leaves has `MIN_BLOCKS` blocks.
    tree.facts();
    let mut drop = DropEnd {
        end: edge.end,
        dropped: 0,
    };
    tree.cut(edge.at, &mut drop, count);
    drop.dropped
}

/// Frees a held block at an end of its leaf, with no gap beside it in the next leaf. Returns the number of gaps
/// that were joined.
fn free_end(tree: &mut Tree<Leaf>, _key: &RangeInclusive, edge: Edge, count: &mut u64) -> u64 {
    let mut free = FreeEnd {
        end: edge.end,
        joined: 0,
    };
    tree.cut(edge.at, &mut free, count);
    free.joined
}

/// Frees a held block at an end of its leaf. Returns the number of gaps that were joined.
fn free_at_edge(tree: &mut Tree<Leaf>, key: &RangeInclusive, edge: Edge, count: &mut u64) -> u64 {
    if extend_beside(tree, key, edge, count) {
        return drop_end(tree, key, edge, count);
    }
    free_end(tree, key, edge, count)
}

/// Frees a range in its leaf, and joins the gap with a gap beside it in the next leaf. Leaves that became too small
/// are joined with others. Returns the number of gaps that were joined, or `None` if the range is not held.
pub(in crate::proved::vm_space) fn free_in_tree(
    tree: &mut Tree<Leaf>,
    key: &RangeInclusive,
    count: &mut u64,
) -> Option<u64> {
    // Proof: one of several leaves has `MIN_BLOCKS` blocks.
    tree.facts();
    let mut free = FreeInside {
        key: *key,
        answer: Freeing::Absent,
    };
    let _done = tree.cut(key.start(), &mut free, count);
    match free.answer {
        Freeing::Absent => None,
        Freeing::AtEdge(edge) => Some(free_at_edge(tree, key, edge, count)),
        Freeing::Done(joined) => Some(joined),
    }
}
