// Written by bindings/erase from crates/vm_range_map/src/range_map/windows.rt: do not edit.

//! Iteration over the allocated ranges that have an address in common with a window, from both ends.

use super::value_table::ValueTable;
use super::RangeMap;
use crate::proved::vm_addresses::{RangeInclusive, RangesIn};
use crate::rattle::AllocError;

/// An iterator over the allocated ranges that have an address in common with a window, with their values, from the
/// lowest to the highest, or backwards. It does not allocate.
///
/// Its model is the list of the ranges with their values that it has not returned yet.
pub struct ValuedRangesIn<'a, T> {
    ranges: RangesIn<'a>,
    // The values of all ranges.
    values: &'a ValueTable<T>,
}

impl<T> RangeMap<T> {
    /// Returns an iterator over the allocated ranges that have an address in common with `window`, with their values,
    /// from the lowest to the highest.
    ///
    /// Each range is returned whole. It descends one path of the tree for each end of `window`, looks each value up,
    /// and does not allocate.
    pub fn held_ranges_in(&self, window: &RangeInclusive) -> ValuedRangesIn<'_, T> {
        ValuedRangesIn {
            ranges: self.addresses.held_ranges_in(window),
            values: &self.values,
        }
    }
}

impl<'a, T> Clone for ValuedRangesIn<'a, T> {
    fn clone(&self) -> Self {
        ValuedRangesIn {
            ranges: self.ranges.clone(),
            values: self.values,
        }
    }
}

impl<'a, T> Iterator for ValuedRangesIn<'a, T> {
    type Item = (RangeInclusive, &'a T);

    /// Returns the lowest range that is left, with its value.
    fn next(&mut self) -> Option<(RangeInclusive, &'a T)> {
        let range = self.ranges.next()?;
        let Some(value) = self.values.get(range.start()) else {
            // Each allocated range has a value.
            unreachable!()
        };
        Some((range, value))
    }
}

impl<'a, T> DoubleEndedIterator for ValuedRangesIn<'a, T> {
    /// Returns the highest range that is left, with its value.
    fn next_back(&mut self) -> Option<(RangeInclusive, &'a T)> {
        let range = self.ranges.next_back()?;
        let Some(value) = self.values.get(range.start()) else {
            // Each allocated range has a value.
            unreachable!()
        };
        Some((range, value))
    }
}
