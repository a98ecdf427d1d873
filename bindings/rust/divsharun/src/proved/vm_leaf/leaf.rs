// Written by bindings/erase from crates/vm_leaf/src/leaf.rt: do not edit.

//! A leaf: up to `CAPACITY` consecutive blocks, with the cuts between them in one array.

mod ends;
mod fits;
mod gaps;
mod moves;
mod part;
mod rest;
mod summary;
mod walk;

pub(in crate::proved) use self::fits::{highest_fit, lowest_fit};
pub(in crate::proved) use self::rest::Rest;
pub(in crate::proved) use self::summary::Summary;
pub(in crate::proved) use self::walk::Blocks;
use crate::proved::vm_leaf::block::Block;
use crate::proved::vm_ranges::{NodeState, RangeInclusive};

/// The maximum number of blocks of a leaf.
pub(in crate::proved) const CAPACITY: usize = 32;

/// The number of cuts of a leaf with `CAPACITY` blocks.
const CUTS: usize = 33;

/// The minimum number of blocks of a leaf, unless the leaf is the whole tree.
pub(in crate::proved) const MIN_BLOCKS: usize = 12;

/// One to `CAPACITY` consecutive blocks that cover a range of addresses. Two neighbours are never both free.
///
/// The fields have this order in memory, so that few blocks are in few cache lines.
#[derive(Debug)]
#[repr(C)]
pub(in crate::proved) struct Leaf {
    /// The states: bit `i` is 1 if block `i` is allocated. The bits at or above `len` are 0.
    held: u64,
    /// The number of blocks.
    len: usize,
    /// The address before the first block, then the last address of each block. The first is `u64::MAX` if the
    /// first block starts at 0. The entries behind the last block are `u64::MAX`.
    cuts: [u64; CUTS],
}

/// A fit in a leaf: the index of a gap, and the first address of a range in it.
#[derive(Clone, Copy)]
pub(in crate::proved) struct Fit {
    /// The index of the gap.
    pub(in crate::proved) index: usize,
    /// The first address of the range.
    pub(in crate::proved) start: u64,
}

/// Returns the state of block `i`, which is bit `i` of the mask `held`.
#[inline(always)]
fn state_in(held: u64, i: usize) -> NodeState {
    if (held >> i) & 1 == 0 {
        NodeState::Free
    } else {
        NodeState::Allocated
    }
}

/// Returns the mask `held` with bit `i` set.
#[inline(always)]
fn with_held(held: u64, i: usize) -> u64 {
    held | 1 << i
}

/// Returns the mask `held` with bit `i` cleared.
#[inline(always)]
fn without_held(held: u64, i: usize) -> u64 {
    held & !(1 << i)
}

/// Returns the bits of `held` below `keep`, and the bits starting at `from`, moved so that they start at `to`.
#[inline(always)]
fn with_moved(held: u64, keep: usize, from: usize, to: usize) -> u64 {
    ((held >> from) << to) + held % (1 << keep)
}

/// Returns the first address after a cut.
#[inline(always)]
fn after_cut(cut: u64) -> u64 {
    if cut == u64::MAX {
        0
    } else {
        cut + 1
    }
}

/// Returns the cut before a block that starts at `start`.
#[inline(always)]
fn cut_before(start: u64) -> u64 {
    if start == 0 {
        u64::MAX
    } else {
        start - 1
    }
}

/// Inserts `first` at the index `at` of the first `len` cuts.
#[inline(always)]
fn insert_one(cuts: &mut [u64; CUTS], len: usize, at: usize, first: u64) {
    cuts.copy_within(at..len, at + 1);
    cuts[at] = first;
}

/// Inserts `first` and `second` at the index `at` of the first `len` cuts.
#[inline(always)]
fn insert_two(cuts: &mut [u64; CUTS], len: usize, at: usize, first: u64, second: u64) {
    cuts.copy_within(at..len, at + 2);
    cuts[at] = first;
    cuts[at + 1] = second;
}

/// Keeps the cuts below the index `at`, and writes pads to the indices `at..len`.
#[inline(always)]
fn clear(cuts: &mut [u64; CUTS], len: usize, at: usize) {
    cuts[at..len].fill(u64::MAX);
}

/// Removes the cuts with the indices `to..from` from the first `len` cuts.
#[inline(always)]
fn remove_between(cuts: &mut [u64; CUTS], len: usize, to: usize, from: usize) {
    cuts.copy_within(from..len, to);
    clear(cuts, len, len - from + to);
}

/// Writes `n` cuts of `other`, without the first one, to the indices `at..at + n`.
#[inline(always)]
fn copy_in(cuts: &mut [u64; CUTS], at: usize, other: &[u64; CUTS], n: usize) {
    cuts[at..at + n].copy_from_slice(&other[1..n + 1]);
}

/// Returns the mask of `len` blocks with the states `held`, followed by `_more` blocks with the states `other`.
#[inline(always)]
fn with_appended(held: u64, len: usize, other: u64, _more: usize) -> u64 {
    (other << len) + held
}

/// Returns the bits of the mask `held` below `at`.
#[inline(always)]
fn low_part(held: u64, at: usize) -> u64 {
    held % (1 << at)
}

impl Leaf {
    /// Creates a leaf that has only this block.
    pub(in crate::proved) fn single(block: Block) -> Leaf {
        let mut cuts = [u64::MAX; CUTS];
        cuts[0] = cut_before(block.key.start());
        cuts[1] = block.key.end();
        let held = match block.state {
            NodeState::Free => 0,
            NodeState::Allocated => 1,
        };
        Leaf { held, len: 1, cuts }
    }

    /// Returns the number of blocks.
    #[inline(always)]
    pub(in crate::proved) fn len(&self) -> usize {
        self.len
    }

    /// Returns the first address of block `i`.
    #[inline(always)]
    fn start_at(&self, i: usize) -> u64 {
        after_cut(self.cuts[i])
    }

    /// Returns the last address of block `i`.
    #[inline(always)]
    fn end_at(&self, i: usize) -> u64 {
        self.cuts[i + 1]
    }

    /// Returns the state of block `i`.
    #[inline(always)]
    fn state_at(&self, i: usize) -> NodeState {
        state_in(self.held, i)
    }

    /// Returns block `i`, which must exist.
    pub(in crate::proved) fn block_at(&self, i: usize) -> Block {
        Block {
            key: self.key_at(i),
            state: self.state_at(i),
        }
    }

    /// Returns 1 if block `i` exists and starts at or below `address`, otherwise 0.
    #[inline(always)]
    fn one_if_up_to(&self, i: usize, address: u64) -> usize {
        if self.cuts[i] < address {
            1
        } else {
            0
        }
    }

    /// Returns `low + 1` if that block exists and starts at or below `address`, otherwise `low`.
    ///
    /// The block with the address must be one of these two.
    #[inline(always)]
    fn narrow_to_one(&self, low: usize, address: u64) -> usize {
        low + self.one_if_up_to(low + 1, address)
    }

    /// Returns the last of the indices `low`, `low + step`, `low + 2 * step` and `low + 3 * step` whose
    /// block exists and starts at or below `address`. The processor can compare the three starts at once.
    ///
    /// The block with the address must be one of the `4 * step` blocks starting at `low`.
    #[inline(always)]
    fn narrow_to_quarter(&self, low: usize, step: usize, address: u64) -> usize {
        let first = self.one_if_up_to(low + step, address);
        let second = self.one_if_up_to(low + 2 * step, address);
        let third = self.one_if_up_to(low + 3 * step, address);
        low + step * (first + second + third)
    }

    /// Returns the index of the block with `address`, which must be in the leaf.
    ///
    /// No branch depends on the address. The search also reads entries of the array behind the last block,
    /// which have no effect.
    pub(in crate::proved) fn index_of(&self, address: u64) -> usize {
        let low = self.narrow_to_quarter(0, 8, address);
        let low = self.narrow_to_quarter(low, 2, address);
        self.narrow_to_one(low, address)
    }

    /// Allocates the whole gap `i`.
    pub(in crate::proved) fn take(&mut self, i: usize) {
        self.held = with_held(self.held, i);
    }

    /// Splits the gap `i` into a free part and an allocated part, which starts at `first`.
    #[inline(always)]
    fn split_upper(&mut self, i: usize, first: u64) {
        let len = self.len;
        insert_one(&mut self.cuts, len + 1, i + 1, first - 1);
        self.held = with_held(with_moved(self.held, i + 1, i + 1, i + 2), i + 1);
        self.len = len + 1;
    }

    /// Splits the gap `i` into an allocated part and a free part, which starts at `next`.
    #[inline(always)]
    fn split_lower(&mut self, i: usize, next: u64) {
        let len = self.len;
        insert_one(&mut self.cuts, len + 1, i + 1, next - 1);
        self.held = with_held(with_moved(self.held, i + 1, i + 1, i + 2), i);
        self.len = len + 1;
    }

    /// Splits the gap `i` into a free part, an allocated part that starts at `first`, and a free part that starts
    /// at `next`.
    #[inline(always)]
    fn split_middle(&mut self, i: usize, first: u64, next: u64) {
        let len = self.len;
        insert_two(&mut self.cuts, len + 1, i + 1, first - 1, next - 1);
        self.held = with_held(with_moved(self.held, i + 1, i + 1, i + 3), i + 1);
        self.len = len + 2;
    }

    /// Frees block `i`. Its neighbours must be allocated.
    #[inline(always)]
    fn set_free(&mut self, i: usize) {
        self.held = without_held(self.held, i);
    }

    /// Replaces the `n` blocks starting at `i` with one gap. Their neighbours must be allocated.
    #[inline(always)]
    fn merge(&mut self, i: usize, n: usize) {
        if n == 1 {
            return self.set_free(i);
        }
        let len = self.len;
        remove_between(&mut self.cuts, len + 1, i + 1, i + n);
        self.held = with_moved(self.held, i, i + n, i + 1);
        self.len = len - n + 1;
    }

    /// Allocates `range`, which must be in the gap `i`. `rest` is the parts of the gap that stay free.
    ///
    /// The leaf must have room for these parts. If it has not, [`Leaf::split_full`] allocates the range.
    #[inline(always)]
    pub(in crate::proved) fn split(&mut self, i: usize, range: RangeInclusive, rest: Rest) {
        let (start, end) = (range.start(), range.end());
        match rest {
            Rest::Nothing => self.take(i),
            Rest::Before => self.split_upper(i, start),
            Rest::After => self.split_lower(i, end + 1),
            Rest::Both => self.split_middle(i, start, end + 1),
        }
    }

    /// Returns `true` if block `i` exists and is free.
    #[inline(always)]
    fn is_free_at(&self, i: usize) -> bool {
        if i >= self.len() {
            return false;
        }
        match self.state_at(i) {
            NodeState::Free => true,
            NodeState::Allocated => false,
        }
    }

    /// Replaces the `n` blocks starting at `i` with one gap, and returns its range.
    #[inline(always)]
    fn join_blocks(&mut self, i: usize, n: usize) -> RangeInclusive {
        let gap = RangeInclusive::between(self.start_at(i), self.end_at(i + n - 1));
        self.merge(i, n);
        gap
    }

    /// Frees the allocated block `i`, joins it with its free neighbours, and returns the range of the gap.
    #[inline(always)]
    pub(in crate::proved) fn join(&mut self, i: usize) -> RangeInclusive {
        let after = self.is_free_at(i + 1);
        if i > 0 && self.is_free_at(i - 1) {
            if after {
                return self.join_blocks(i - 1, 3);
            }
            return self.join_blocks(i - 1, 2);
        }
        if after {
            return self.join_blocks(i, 2);
        }
        self.join_blocks(i, 1)
    }

    /// Removes the blocks starting at index `at`, and returns a leaf of them.
    #[inline(always)]
    fn split_off(&mut self, at: usize) -> Leaf {
        let len = self.len;
        let mut cuts = self.cuts;
        remove_between(&mut cuts, len + 1, 0, at);
        let upper = Leaf {
            held: self.held >> at,
            len: len - at,
            cuts,
        };
        clear(&mut self.cuts, len + 1, at + 1);
        self.held = low_part(self.held, at);
        self.len = at;
        upper
    }

    /// Appends the blocks of the next leaf. The leaf must have room for them.
    pub(in crate::proved) fn append(&mut self, other: &Leaf) {
        let (len, more) = (self.len, other.len);
        copy_in(&mut self.cuts, len + 1, &other.cuts, more);
        self.held = with_appended(self.held, len, other.held, more);
        self.len = len + more;
    }
}
