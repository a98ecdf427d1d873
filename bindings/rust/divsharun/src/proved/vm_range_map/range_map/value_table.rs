// Written by bindings/erase from crates/vm_range_map/src/range_map/value_table.rt: do not edit.

//! The values of the allocated ranges, by the starts of the ranges.
//!
//! The values are in a list, in no order, each with the start of its range. A list of entries in the order of the
//! starts has the index of each value. The last value takes the index of one that is removed.

use crate::proved::vm_addresses::RangeInclusive;
use crate::proved::vm_list::{Iter, Keyed, KeyedList};
use crate::rattle::Vec;
use crate::rattle::{AllocError, AllocFailed, Global};

/// A value, and the start of its range.
#[derive(Clone)]
pub(super) struct ValueAt<T> {
    pub(super) start: u64,
    pub(super) value: T,
}

/// The index of a value, and the start of its range.
#[derive(Clone, Copy)]
pub(super) struct IndexAt {
    pub(super) start: u64,
    pub(super) index: usize,
}

impl Keyed for IndexAt {
    /// Returns the start of the range.
    fn key(&self) -> u64 {
        self.start
    }
}

/// The value of each allocated range by the start of the range.
///
/// Its model is the map from starts to values.
pub(super) struct ValueTable<T> {
    indices: KeyedList<IndexAt>,
    values: Vec<ValueAt<T>>,
}

/// Writes the index of the item there into its entry, unless the index is past the end.
fn renumber<T>(indices: &mut KeyedList<IndexAt>, values: &[ValueAt<T>], index: usize) {
    if let Some(moved) = values.get(index) {
        indices.set(IndexAt {
            start: moved.start,
            index,
        });
    }
}

impl<T> ValueTable<T> {
    /// Creates a table without values. It does not allocate.
    pub(super) fn new(alloc: Global) -> ValueTable<T> {
        ValueTable {
            indices: KeyedList::new(),
            values: Vec::new(alloc),
        }
    }

    /// Returns the value at a start, or `None` if there is none.
    pub(super) fn get(&self, start: u64) -> Option<&T> {
        let entry = self.indices.get(start)?;
        Some(&self.values[entry.index].value)
    }

    /// Returns the value at a start, to change it.
    pub(super) fn value_mut(&mut self, start: u64) -> &mut T {
        let Some(entry) = self.indices.get(start) else {
            unreachable!()
        };
        let index = entry.index;
        &mut self.values[index].value
    }

    /// Inserts a value at a new start. An error changes nothing, and returns the value.
    pub(super) fn insert(
        &mut self,
        alloc: Global,
        start: u64,
        value: T,
    ) -> Result<(), AllocFailed<T>> {
        let index = self.values.len();
        if let Err(AllocFailed { value }) = self.values.push(ValueAt { start, value }) {
            return Err(AllocFailed { value: value.value });
        }
        if self.indices.insert(alloc, IndexAt { start, index }).is_ok() {
            return Ok(());
        }
        let Some(ValueAt { value, .. }) = self.values.pop() else {
            unreachable!()
        };
        Err(AllocFailed { value })
    }

    /// Removes the value at a start, and returns it. It does not allocate.
    pub(super) fn remove(&mut self, start: u64) -> Option<T> {
        let index = self.indices.remove(start)?.index;
        let ValueAt { value, .. } = self.values.swap_remove(index);
        renumber(&mut self.indices, &self.values, index);
        Some(value)
    }

    /// Inserts the value of each range at its start. An error changes nothing, and returns the values.
    pub(super) fn insert_all(
        &mut self,
        alloc: Global,
        ranges: &[RangeInclusive],
        values: Vec<T>,
    ) -> Result<(), AllocFailed<Vec<T>>> {
        let mut left = values;
        while let Some(value) = left.pop() {
            let at = left.len();
            if let Err(failed) = self.insert(alloc, ranges[at].start(), value) {
                let Ok(()) = left.push(failed.value) else {
                    // The value was in the list before.
                    unreachable!()
                };
                self.remove_all(&ranges[at + 1..], &mut left);
                return Err(AllocFailed { value: left });
            }
        }
        Ok(())
    }

    /// Removes the values of ranges that were inserted together, and appends them to a list that has the capacity.
    fn remove_all(&mut self, ranges: &[RangeInclusive], values: &mut Vec<T>) {
        for range in ranges {
            let Some(value) = self.remove(range.start()) else {
                unreachable!()
            };
            let Ok(()) = values.push(value) else {
                unreachable!()
            };
        }
    }

    /// Moves the value at a start to another start, where there is none, or to the same start. An error changes
    /// nothing, and is possible only for another start.
    pub(super) fn move_to(&mut self, alloc: Global, from: u64, to: u64) -> Result<(), AllocError> {
        if from == to {
            return Ok(());
        }
        let Some(entry) = self.indices.get(from) else {
            unreachable!()
        };
        let index = entry.index;
        self.indices.insert(alloc, IndexAt { start: to, index })?;
        self.indices.remove(from);
        self.values[index].start = to;
        Ok(())
    }

    /// Returns the entries by ascending starts, and the values at their indices.
    pub(super) fn iter(&self) -> (Iter<'_, IndexAt>, &[ValueAt<T>]) {
        (self.indices.iter(), &self.values)
    }
}

impl<T: Clone> ValueTable<T> {
    /// Returns a copy, with copies of the values.
    pub(super) fn try_clone(&self, alloc: Global) -> Result<ValueTable<T>, AllocError> {
        let indices = self.indices.try_clone(alloc)?;
        let values = self.values.clone()?;
        Ok(ValueTable { indices, values })
    }
}
