// Written by bindings/erase from crates/vm_leaf/src/leaf/moves.rt: do not edit.

//! Changes at the ends of a leaf, and blocks that move between neighbouring leaves.

use super::{clear, cut_before, low_part, remove_between, Leaf, Rest, MIN_BLOCKS};
use crate::proved::vm_ranges::RangeInclusive;

/// Returns the number of blocks that a full leaf keeps when it is split to allocate a range of the gap `i`, of which
/// `added` parts stay free.
///
/// The gap is likely to be split again. If it is the last block, the upper leaf therefore gets `MIN_BLOCKS`. If it is
/// the first block, the lower leaf keeps so many.
#[inline(always)]
fn kept(i: usize, len: usize, added: usize) -> usize {
    if i + 1 == len {
        return len + added - MIN_BLOCKS;
    }
    if i == 0 {
        return MIN_BLOCKS - added;
    }
    len / 2
}

impl Leaf {
    /// Removes the first block. There must be another one.
    pub(in crate::proved) fn drop_first(&mut self) {
        let len = self.len;
        remove_between(&mut self.cuts, len + 1, 0, 1);
        self.held >>= 1;
        self.len = len - 1;
    }

    /// Removes the last block. There must be another one.
    pub(in crate::proved) fn drop_last(&mut self) {
        let len = self.len;
        let last = len - 1;
        clear(&mut self.cuts, len + 1, len);
        self.held = low_part(self.held, last);
        self.len = last;
    }

    /// Sets the first address of the first block, which must not be past the last one.
    pub(in crate::proved) fn move_start(&mut self, start: u64) {
        self.cuts[0] = cut_before(start);
    }

    /// Sets the last address of the last block, which must not be before the first one.
    pub(in crate::proved) fn move_end(&mut self, end: u64) {
        let len = self.len;
        self.cuts[len] = end;
    }

    /// Moves blocks between this leaf and the next one, so that this leaf has half of the blocks of both.
    /// The half is rounded down.
    pub(in crate::proved) fn even(&mut self, next: &mut Leaf) {
        let (len, more) = (self.len(), next.len());
        let half = (len + more) / 2;
        if half < len {
            let mut upper = self.split_off(half);
            upper.append(next);
            *next = upper;
        } else if len < half {
            let upper = next.split_off(half - len);
            self.append(next);
            *next = upper;
        }
    }

    /// Allocates `range`, which must be in the gap `i`, in a leaf without room for the parts that stay free.
    ///
    /// The upper blocks are moved to `upper`, whose old blocks are lost. Both leaves have at least `MIN_BLOCKS`
    /// blocks then.
    pub(in crate::proved) fn split_full(
        &mut self,
        i: usize,
        range: RangeInclusive,
        rest: Rest,
        upper: &mut Leaf,
    ) {
        let at = kept(i, self.len(), rest.added() as usize);
        *upper = self.split_off(at);
        if i < at {
            self.split(i, range, rest);
        } else {
            upper.split(i - at, range, rest);
        }
    }
}
