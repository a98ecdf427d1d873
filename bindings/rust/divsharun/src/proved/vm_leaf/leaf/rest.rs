// Written by bindings/erase from crates/vm_leaf/src/leaf/rest.rt: do not edit.

//! The parts of a gap that stay free when a range of it is allocated.

use crate::proved::vm_ranges::RangeInclusive;

/// The parts of a gap that stay free when a range of it is allocated.
#[derive(Clone, Copy)]
pub(in crate::proved) enum Rest {
    /// No part stays free: the range fills the gap.
    Nothing,
    /// The part before the range stays free.
    Before,
    /// The part after the range stays free.
    After,
    /// The parts on both sides of the range stay free.
    Both,
}

impl Rest {
    /// Returns the parts of `gap` that stay free when `range` is allocated. `range` must be in `gap`.
    #[inline(always)]
    pub(in crate::proved) fn of(gap: &RangeInclusive, range: &RangeInclusive) -> Rest {
        let before = gap.start() < range.start();
        let after = range.end() < gap.end();
        match (before, after) {
            (false, false) => Rest::Nothing,
            (true, false) => Rest::Before,
            (false, true) => Rest::After,
            (true, true) => Rest::Both,
        }
    }

    /// Returns the number of these parts, which is the number of blocks that the allocation adds.
    #[inline(always)]
    pub(in crate::proved) fn added(self) -> u8 {
        match self {
            Rest::Nothing => 0,
            Rest::Before => 1,
            Rest::After => 1,
            Rest::Both => 2,
        }
    }
}
