// Written by bindings/erase from crates/vm_range_map/src/range_map/several.rt: do not edit.

//! Calls with a list of ranges or of requests, and a value for each.

use super::value_table::ValueTable;
use super::RangeMap;
use crate::proved::vm_addresses::{AddressAllocator, Constraint, Error, RangeInclusive};
use crate::proved::vm_range_map::refused::RefusedList;
use crate::proved::vm_range_map::valued_list::ValuedList;
use crate::rattle::Vec;
use crate::rattle::{AllocFailed, Global};
use core::result::Result;

impl<T> RangeMap<T> {
    /// Creates a map of the `size` addresses starting at `base`, with these ranges allocated. They must be in
    /// ascending order.
    ///
    /// # Errors
    ///
    /// An error returns the list. In this order:
    /// - The errors of `AddressAllocator::with_held`, in the order of its documentation. Only that of a range has an
    ///   index.
    /// - `OutOfMemory` if an allocation for the values fails.
    pub fn with_held(
        alloc: Global,
        base: u64,
        size: u64,
        held: ValuedList<RangeInclusive, T>,
    ) -> Result<Self, RefusedList<RangeInclusive, T>> {
        let addresses = match AddressAllocator::with_held(alloc, base, size, &held.items) {
            Ok(addresses) => addresses,
            Err(error) => return Err(RefusedList { error, list: held }),
        };
        let ValuedList { items, values } = held;
        let mut table = ValueTable::new(alloc);
        if let Err(AllocFailed { value: values }) = table.insert_all(alloc, &items, values) {
            let error = Error::OutOfMemory.into();
            let list = ValuedList { items, values };
            return Err(RefusedList { error, list });
        }
        Ok(RangeMap {
            addresses,
            values: table,
        })
    }

    /// Allocates a range for each request, in their order, and returns the ranges. Each range is where
    /// [`allocate`](Self::allocate) places it after the requests before it, and gets the value of its request.
    ///
    /// # Errors
    ///
    /// An error returns the list. It leaves ranges and values unchanged, and the tree of
    /// [`addresses`](Self::addresses) can have another shape. In this order:
    /// - The errors of `AddressAllocator::allocate_all`, in the order of its documentation.
    /// - `OutOfMemory` without an index if an allocation for the values fails.
    pub fn allocate_all(
        &mut self,
        alloc: Global,
        list: ValuedList<Constraint, T>,
    ) -> Result<Vec<RangeInclusive>, RefusedList<Constraint, T>> {
        let mut ranges = match self.addresses.allocate_all(alloc, &list.items) {
            Ok(ranges) => ranges,
            Err(error) => return Err(RefusedList { error, list }),
        };
        let ValuedList { items, values } = list;
        if let Err(AllocFailed { value: values }) = self.values.insert_all(alloc, &ranges, values) {
            self.addresses.free_all(&mut ranges);
            let error = Error::OutOfMemory.into();
            let list = ValuedList { items, values };
            return Err(RefusedList { error, list });
        }
        Ok(ranges)
    }
}
