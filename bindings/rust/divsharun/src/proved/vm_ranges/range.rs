// Written by bindings/erase from crates/vm_ranges/src/range.rt: do not edit.

//! Closed ranges of addresses, in the order of their starts, then of their ends.

use crate::proved::vm_ranges::error::{Error, Result};
use core::cmp::Ordering;

/// A closed range of addresses: its start, its end and all addresses between them.
///
/// A range is never empty and never contains all 2^64 addresses, so its length fits into a `u64`.
/// Ranges are ordered by start, then by end.
#[derive(Clone, Copy, Debug, PartialEq, Eq, Hash)]
pub struct RangeInclusive {
    start: u64,
    end: u64,
}

impl RangeInclusive {
    /// Creates the range from `start` to `end`, both included.
    ///
    /// # Errors
    ///
    /// - `InvalidRange(start, end)` if `start` is past `end`, or if the range would contain all
    ///   2^64 addresses.
    pub const fn new(start: u64, end: u64) -> Result<Self> {
        if start > end || (start == 0 && end == u64::MAX) {
            return Err(Error::InvalidRange(start, end));
        }
        Ok(RangeInclusive { start, end })
    }

    /// Returns the range from `start` to `end`, which must be the ends of a range.
    #[inline(always)]
    pub(in crate::proved) const fn between(start: u64, end: u64) -> Self {
        RangeInclusive { start, end }
    }

    /// Creates the range of the `len` addresses that start at `start`, such as a BAR by its base and
    /// its size.
    ///
    /// # Errors
    ///
    /// In this order:
    /// - `InvalidSize(0)` if `len` is 0.
    /// - `Overflow` if the last address would be past `u64::MAX`.
    pub const fn from_start_len(start: u64, len: u64) -> Result<Self> {
        if len == 0 {
            return Err(Error::InvalidSize(0));
        }
        match start.checked_add(len - 1) {
            None => Err(Error::Overflow),
            Some(end) => Ok(RangeInclusive { start, end }),
        }
    }

    /// Returns the offset of an address in the range: the number of addresses below it. Returns `None`
    /// if the address is not in the range.
    pub const fn offset_of(&self, address: u64) -> Option<u64> {
        if address < self.start || self.end < address {
            return None;
        }
        Some(address - self.start)
    }

    /// Returns the number of addresses in the range.
    #[allow(clippy::len_without_is_empty)]
    pub const fn len(&self) -> u64 {
        1 + (self.end - self.start)
    }

    /// Returns `true` if an address is in both ranges.
    pub const fn overlaps(&self, other: &RangeInclusive) -> bool {
        other.start <= self.end && self.start <= other.end
    }

    /// Returns `true` if every address of `other` is in this range.
    pub const fn contains(&self, other: &RangeInclusive) -> bool {
        other.start >= self.start && other.end <= self.end
    }

    /// Returns the first address.
    pub const fn start(&self) -> u64 {
        self.start
    }

    /// Returns the last address.
    pub const fn end(&self) -> u64 {
        self.end
    }
}

impl Ord for RangeInclusive {
    /// Compares by start, then by end. It stops at the first difference.
    fn cmp(&self, other: &RangeInclusive) -> Ordering {
        if self.start < other.start {
            return Ordering::Less;
        }
        if other.start < self.start {
            return Ordering::Greater;
        }
        Ord::cmp(&self.end, &other.end)
    }
}

impl PartialOrd for RangeInclusive {
    /// Compares like `cmp`.
    fn partial_cmp(&self, other: &RangeInclusive) -> Option<Ordering> {
        Some(self.cmp(other))
    }
}
