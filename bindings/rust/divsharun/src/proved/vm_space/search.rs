// Written by bindings/erase from crates/vm_space/src/search.rt: do not edit.

//! A search for a place, and its results.

use crate::proved::vm_ranges::RangeInclusive;
use crate::rattle::AllocError;

/// A search for a place: `size` addresses at a multiple of `alignment`, between `low` and `high`.
#[derive(Clone, Copy)]
pub(in crate::proved) struct Search {
    /// The number of addresses, which is not 0.
    pub(in crate::proved) size: u64,
    /// One of the 64 powers of two.
    pub(in crate::proved) alignment: u64,
    /// The lowest address that the range can have.
    pub(in crate::proved) low: u64,
    /// The highest address that the range can have.
    pub(in crate::proved) high: u64,
    /// `false` if only ranges that fill their gaps can be allocated.
    pub(in crate::proved) can_split: bool,
}

/// A range that was allocated.
#[derive(Clone, Copy)]
pub(in crate::proved) struct Taken {
    /// The number of blocks that the tree has more than before: 0, 1 or 2.
    pub(in crate::proved) added: u8,
    pub(in crate::proved) range: RangeInclusive,
}

/// The reason why no range was allocated.
#[derive(Clone, Copy)]
pub(in crate::proved) enum Refusal {
    /// The range does not fit anywhere, or is not free.
    NoPlace,
    /// Exactly this range is already allocated.
    Held,
    /// The range would end at `u64::MAX`.
    PastMax,
    /// An allocation of memory failed, with this error.
    OutOfMemory(AllocError),
    /// The range does not fill its gap, and gaps cannot be split.
    CannotSplit,
}

impl From<AllocError> for Refusal {
    fn from(error: AllocError) -> Refusal {
        Refusal::OutOfMemory(error)
    }
}
