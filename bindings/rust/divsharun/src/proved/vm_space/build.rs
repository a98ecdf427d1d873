// Written by bindings/erase from crates/vm_space/src/build.rt: do not edit.

//! Builds the tree of a space in which some ranges are allocated.
//!
//! Each leaf is filled directly, and has nearly the same number of blocks.

use crate::proved::vm_leaf::{Block, Leaf, CAPACITY};
use crate::proved::vm_ranges::{NodeState, RangeInclusive};
use crate::proved::vm_tree::{Source, Tree};
use crate::rattle::Box;
use crate::rattle::{AllocError, Global};

/// Returns the free block from `start` to `end`. The caller proves that these are the ends of a range.
fn free_between(start: u64, end: u64) -> Block {
    Block {
        key: RangeInclusive::between(start, end),
        state: NodeState::Free,
    }
}

/// A cursor at the blocks that are not built yet: the gaps and the allocated ranges from `next` to
/// `end`.
struct BlockCursor<'a> {
    next: u128,
    held: &'a [RangeInclusive],
    end: u64,
}

impl BlockCursor<'_> {
    /// Returns the next block, and advances.
    fn take_first(&mut self) -> Block {
        let start = self.next as u64;
        let Some((range, others)) = self.held.split_first() else {
            self.next = u128::from(self.end) + 1;
            return free_between(start, self.end);
        };
        if start < range.start() {
            self.next = range.start().into();
            return free_between(start, range.start() - 1);
        }
        self.next = u128::from(range.end()) + 1;
        self.held = others;
        Block {
            key: *range,
            state: NodeState::Allocated,
        }
    }
}

/// Returns a leaf of the next `count` blocks.
fn fill_leaf(count: u64, cursor: &mut BlockCursor<'_>) -> Leaf {
    let mut leaf = Leaf::single(cursor.take_first());
    for _filled in 1..count {
        leaf.push(cursor.take_first());
    }
    leaf
}

/// The leaves that are not built yet. Each has the next `each` blocks, and each of the first `more` leaves one block
/// more.
struct Leaves<'a> {
    cursor: BlockCursor<'a>,
    count: u64,
    each: u64,
    more: u64,
}

impl<'a> Source<Leaf> for Leaves<'a> {
    fn next_leaf(&mut self, alloc: Global) -> Result<Box<Leaf>, AllocError> {
        let more = self.more.min(1);
        let leaf = fill_leaf(self.each + more, &mut self.cursor);
        self.count -= 1;
        self.more -= more;
        Ok(Box::new(alloc, leaf)?)
    }
}

/// Builds the tree of a space in which these ranges are allocated. It has `count` blocks in the fewest leaves, and the
/// minimum height for its leaves.
///
/// It returns an error if an allocation fails. The leaves built so far are freed.
pub(in crate::proved::vm_space) fn build_tree(
    alloc: Global,
    count: u64,
    space: &RangeInclusive,
    held: &[RangeInclusive],
) -> Result<Tree<Leaf>, AllocError> {
    let mut cursor = BlockCursor {
        next: space.start().into(),
        held,
        end: space.end(),
    };
    let leaves = (count - 1) / CAPACITY as u64 + 1;
    if leaves == 1 {
        let leaf = fill_leaf(count, &mut cursor);
        return Ok(Tree::single(Box::new(alloc, leaf)?));
    }
    let mut source = Leaves {
        cursor,
        count: leaves,
        each: count / leaves,
        more: count % leaves,
    };
    Tree::build(leaves as usize, &mut source, alloc)
}
