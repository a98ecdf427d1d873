// Written by bindings/erase from crates/vm_range_map/src/range_map/iter.rt: do not edit.

//! Iteration over the allocated ranges with their values, from both ends.

use super::value_table::{IndexAt, ValueAt};
use super::RangeMap;
use crate::proved::vm_addresses::{RangeInclusive, Ranges};
use crate::proved::vm_list::Iter;
use crate::rattle::AllocError;

/// An iterator over the allocated ranges with their values, from the lowest to the highest, or backwards. It has
/// an exact length, and does not allocate.
///
/// Its model is the list of the ranges with their values that it has not returned yet.
pub struct ValuedRanges<'a, T> {
    ranges: Ranges<'a>,
    // The entries of these ranges, in the same order, and the values at their indices.
    entries: Iter<'a, IndexAt>,
    values: &'a [ValueAt<T>],
}

/// Returns the value at an index.
fn value_at<T>(values: &[ValueAt<T>], index: usize) -> &T {
    &values[index].value
}

impl<T> RangeMap<T> {
    /// Returns an iterator over the allocated ranges with their values, from the lowest to the highest.
    ///
    /// It does not allocate.
    pub fn iter(&self) -> ValuedRanges<'_, T> {
        let (entries, values) = self.values.iter();
        ValuedRanges {
            ranges: self.addresses.held_ranges(),
            entries,
            values,
        }
    }
}

impl<'a, T> Clone for ValuedRanges<'a, T> {
    fn clone(&self) -> Self {
        ValuedRanges {
            ranges: self.ranges.clone(),
            entries: self.entries.clone(),
            values: self.values,
        }
    }
}

impl<'a, T> Iterator for ValuedRanges<'a, T> {
    type Item = (RangeInclusive, &'a T);

    /// Returns the lowest range that is left, with its value.
    fn next(&mut self) -> Option<(RangeInclusive, &'a T)> {
        let range = self.ranges.next()?;
        let Some(entry) = self.entries.next() else {
            // There are as many entries as ranges.
            unreachable!()
        };
        Some((range, value_at(self.values, entry.index)))
    }

    /// Returns the number of ranges that are left, as both bounds.
    fn size_hint(&self) -> (usize, Option<usize>) {
        let left = self.ranges.len();
        (left, Some(left))
    }
}

impl<'a, T> DoubleEndedIterator for ValuedRanges<'a, T> {
    /// Returns the highest range that is left, with its value.
    fn next_back(&mut self) -> Option<(RangeInclusive, &'a T)> {
        let range = self.ranges.next_back()?;
        let Some(entry) = self.entries.next_back() else {
            // There are as many entries as ranges.
            unreachable!()
        };
        Some((range, value_at(self.values, entry.index)))
    }
}

impl<'a, T> ExactSizeIterator for ValuedRanges<'a, T> {
    /// Returns the number of ranges that are left. It takes constant time.
    fn len(&self) -> usize {
        self.ranges.len()
    }
}
