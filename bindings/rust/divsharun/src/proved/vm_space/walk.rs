// Written by bindings/erase from crates/vm_space/src/walk.rt: do not edit.

//! Iteration over the blocks of a tree from both ends.

use crate::proved::vm_leaf::{Block, Blocks, Leaf};
use crate::proved::vm_ranges::RangeInclusive;
use crate::proved::vm_space::find::leaf_at;
use crate::proved::vm_tree::Tree;

/// The addresses from `start` to `end`. All 2^64 addresses are a span too.
#[derive(Clone, Copy)]
struct Span {
    start: u64,
    end: u64,
}

/// Returns the index of the first block that ends at an address or above it.
#[inline(always)]
fn first_from(leaf: &Leaf, address: u64) -> usize {
    if address <= leaf.start() {
        return 0;
    }
    leaf.index_of(address)
}

/// Returns the number of blocks that start at an address or below it.
#[inline(always)]
fn count_up_to(leaf: &Leaf, address: u64) -> usize {
    let len = leaf.len();
    if leaf.end() <= address {
        return len;
    }
    leaf.index_of(address) + 1
}

/// Returns an iterator over the blocks of a leaf that have an address in common with a span.
fn part_within<'a>(leaf: &'a Leaf, span: Span) -> Blocks<'a> {
    if leaf.end() < span.start || span.end < leaf.start() {
        return Blocks::none();
    }
    leaf.part(first_from(leaf, span.start), count_up_to(leaf, span.end))
}

/// Returns the first blocks that have an address in common with a span, up to the end of a leaf, and
/// the span of the other blocks.
fn first_part<'a>(tree: &'a Tree<Leaf>, span: Span) -> (Blocks<'a>, Option<Span>) {
    let leaf = leaf_at(tree, span.start);
    let part = part_within(leaf, span);
    let end = leaf.end();
    if span.end <= end {
        return (part, None);
    }
    let rest = Span {
        start: end + 1,
        end: span.end,
    };
    (part, Some(rest))
}

/// Returns the last blocks that have an address in common with a span, from the start of a leaf, and
/// the span of the other blocks.
fn last_part<'a>(tree: &'a Tree<Leaf>, span: Span) -> (Blocks<'a>, Option<Span>) {
    let leaf = leaf_at(tree, span.end);
    let part = part_within(leaf, span);
    let start = leaf.start();
    if start <= span.start {
        return (part, None);
    }
    let rest = Span {
        start: span.start,
        end: start - 1,
    };
    (part, Some(rest))
}

/// An iterator over blocks of a tree, from both ends.
///
/// The blocks that are left are those of `lower`, those that meet the span `rest`, and those of
/// `upper`, in this order. `lower` and `upper` each have blocks of one leaf. When one has no block, it
/// gets those of the next leaf, by one path from the root. The model is the list of all blocks that are
/// left.
#[derive(Clone)]
pub(in crate::proved) struct Walk<'a> {
    tree: &'a Tree<Leaf>,
    lower: Blocks<'a>,
    rest: Option<Span>,
    upper: Blocks<'a>,
}

impl<'a> Walk<'a> {
    /// Creates an iterator over all blocks of a tree.
    pub(in crate::proved::vm_space) fn new(tree: &'a Tree<Leaf>) -> Walk<'a> {
        let rest = Span {
            start: 0,
            end: u64::MAX,
        };
        Walk {
            tree,
            lower: Blocks::none(),
            rest: Some(rest),
            upper: Blocks::none(),
        }
    }

    /// Creates an iterator over the blocks of a tree that have an address in common with `window`.
    pub(in crate::proved::vm_space) fn within(
        tree: &'a Tree<Leaf>,
        window: &RangeInclusive,
    ) -> Walk<'a> {
        let rest = Span {
            start: window.start(),
            end: window.end(),
        };
        Walk {
            tree,
            lower: Blocks::none(),
            rest: Some(rest),
            upper: Blocks::none(),
        }
    }

    /// Returns the lowest block that is left. If `lower` has none, it becomes the blocks of the next
    /// leaf.
    #[cold]
    #[inline(never)]
    fn next_below(&mut self) -> Option<Block> {
        if let Some(block) = self.lower.next() {
            return Some(block);
        }
        let Some(span) = self.rest else {
            return self.upper.next();
        };
        let (part, rest) = first_part(self.tree, span);
        self.lower = part;
        self.rest = rest;
        if let Some(block) = self.lower.next() {
            return Some(block);
        }
        self.upper.next()
    }

    /// Returns the highest block that is left. If `upper` has none, it becomes the blocks of the leaf
    /// before it.
    #[cold]
    #[inline(never)]
    fn next_above(&mut self) -> Option<Block> {
        if let Some(block) = self.upper.next_back() {
            return Some(block);
        }
        let Some(span) = self.rest else {
            return self.lower.next_back();
        };
        let (part, rest) = last_part(self.tree, span);
        self.upper = part;
        self.rest = rest;
        if let Some(block) = self.upper.next_back() {
            return Some(block);
        }
        self.lower.next_back()
    }
}

impl<'a> Iterator for Walk<'a> {
    type Item = Block;

    /// Returns the lowest block that is left.
    #[inline(always)]
    fn next(&mut self) -> Option<Block> {
        if let Some(block) = self.lower.next() {
            return Some(block);
        }
        self.next_below()
    }
}

impl<'a> DoubleEndedIterator for Walk<'a> {
    /// Returns the highest block that is left.
    #[inline(always)]
    fn next_back(&mut self) -> Option<Block> {
        if let Some(block) = self.upper.next_back() {
            return Some(block);
        }
        self.next_above()
    }
}
