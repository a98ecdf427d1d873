// Written by bindings/erase from crates/vm_range_map/src/valued_list.rt: do not edit.

//! The list that is given to a call, with a value for each item.

use crate::rattle::Vec;
use crate::rattle::{AllocError, AllocFailed, Global};

/// Ranges or requests, with a value for each.
///
/// Its model is the pair of both lists.
#[derive(Debug)]
pub struct ValuedList<K, T> {
    pub(in crate::proved::vm_range_map) items: Vec<K>,
    pub(in crate::proved::vm_range_map) values: Vec<T>,
}

impl<K, T> ValuedList<K, T> {
    /// Creates an empty list with this capacity.
    ///
    /// # Errors
    ///
    /// - `AllocError` if an allocation fails.
    pub fn with_capacity(alloc: Global, capacity: usize) -> Result<Self, AllocError> {
        let items = Vec::with_capacity(alloc, capacity)?;
        let values = Vec::with_capacity(alloc, capacity)?;
        Ok(ValuedList { items, values })
    }

    /// Appends an item with its value.
    ///
    /// # Errors
    ///
    /// - `AllocFailed` with the value if an allocation fails. The list is unchanged.
    pub fn push(&mut self, item: K, value: T) -> Result<(), AllocFailed<T>> {
        if self.items.push(item).is_err() {
            return Err(AllocFailed { value });
        }
        if let Err(failed) = self.values.push(value) {
            self.items.pop();
            return Err(failed);
        }
        Ok(())
    }

    /// Returns the items, and their values in the same order.
    pub fn into_lists(self) -> (Vec<K>, Vec<T>) {
        (self.items, self.values)
    }
}
