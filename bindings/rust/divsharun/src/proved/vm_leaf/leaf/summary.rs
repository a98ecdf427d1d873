// Written by bindings/erase from crates/vm_leaf/src/leaf/summary.rt: do not edit.

//! The summary of the gaps of a leaf: how long they are, and which alignments have a multiple in them.

use super::gaps::{lowest_one, lowest_one_or, without_any, without_lowest};
use super::Leaf;
use crate::proved::vm_ranges::RangeInclusive;

/// The summary of some gaps. Both fields are 0 if there is no gap.
#[derive(Clone, Copy)]
pub(in crate::proved) struct Summary {
    /// The length of the longest gap, in addresses.
    pub(in crate::proved) longest: u64,
    /// The number of the 64 alignments that have a multiple in a gap.
    pub(in crate::proved) alignments: u32,
}

/// Returns a number whose highest bit is the largest alignment that has a multiple in the range.
///
/// Smaller alignments also have a multiple there, so the number of binary digits is that of the alignments.
#[inline(always)]
fn reach(start: u64, end: u64) -> u64 {
    if start == 0 {
        return u64::MAX;
    }
    (start - 1) ^ end
}

/// Returns the number of binary digits of `number`, or 0 if it is 0.
#[inline(always)]
fn bit_length(number: u64) -> u32 {
    if number == 0 {
        0
    } else {
        number.ilog2() + 1
    }
}

impl Summary {
    /// Returns the summary of only this gap.
    #[inline(always)]
    pub(in crate::proved) fn of_gap(gap: &RangeInclusive) -> Summary {
        Summary {
            longest: gap.len(),
            alignments: bit_length(reach(gap.start(), gap.end())),
        }
    }
}

impl Leaf {
    /// Returns the length of block `i`, and a number whose highest bit is the largest alignment in it.
    #[inline(always)]
    fn measure(&self, i: usize) -> (u64, u64) {
        let key = self.key_at(i);
        (key.len(), reach(key.start(), key.end()))
    }

    /// Returns true only if a gap has at least `longest` addresses, and a gap at least `alignments` alignments.
    ///
    /// It ends at the first gaps that have them.
    #[inline(always)]
    pub(in crate::proved) fn reaches(&self, longest: u64, alignments: u64) -> bool {
        let (mut most, mut reached) = (0, 0);
        let mut gaps = self.gaps();
        while gaps != 0 && (most < longest || u64::from(bit_length(reached)) < alignments) {
            let i = lowest_one(gaps);
            gaps = without_lowest(gaps);
            let (length, reach) = self.measure(i);
            most = most.max(length);
            reached |= reach;
        }
        longest <= most && alignments <= u64::from(bit_length(reached))
    }

    /// Returns the summary of the gaps of the leaf.
    ///
    /// The processor can measure the two gaps of a turn at once. If only one is left, both are that one.
    #[inline(never)]
    pub(in crate::proved) fn summary(&self) -> Summary {
        let (mut longest, mut reached) = (0, 0);
        let mut gaps = self.gaps();
        while gaps != 0 {
            let first = lowest_one(gaps);
            gaps = without_lowest(gaps);
            let second = lowest_one_or(gaps, first);
            gaps = without_any(gaps);
            let (one, one_reached) = self.measure(first);
            let (two, two_reached) = self.measure(second);
            longest = longest.max(one.max(two));
            reached |= one_reached | two_reached;
        }
        Summary {
            longest,
            alignments: bit_length(reached),
        }
    }
}
