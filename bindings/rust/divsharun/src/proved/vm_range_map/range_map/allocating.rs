// Written by bindings/erase from crates/vm_range_map/src/range_map/allocating.rt: do not edit.

//! Allocations: a range for a request, with a value.

use super::RangeMap;
use crate::proved::vm_addresses::{AllocPolicy, Constraint, Error, RangeInclusive};
use crate::proved::vm_range_map::refused::Refused;
use crate::rattle::Global;
use core::result::Result;

impl<T> RangeMap<T> {
    /// Allocates `size` free addresses that start at a multiple of `alignment`, and returns their range. The range
    /// gets the value.
    ///
    /// `policy` chooses the addresses as in `AddressAllocator::allocate`.
    ///
    /// # Errors
    ///
    /// An error returns the value. It leaves ranges and values unchanged, and each error but the last one the same
    /// tree. In this order:
    /// - The errors of `AddressAllocator::allocate`, in the order of its documentation.
    /// - `OutOfMemory` if an allocation for the values fails. The range is freed again, and the tree of
    ///   [`addresses`](Self::addresses) can have another shape. Then its height and its later counts can differ.
    pub fn allocate(
        &mut self,
        alloc: Global,
        size: u64,
        alignment: u64,
        policy: AllocPolicy,
        value: T,
    ) -> Result<RangeInclusive, Refused<T>> {
        match Constraint::new(size, alignment, policy) {
            Ok(request) => self.allocate_constraint(alloc, request, value),
            Err(error) => Err(Refused { error, value }),
        }
    }

    /// Allocates a range like [`allocate`](Self::allocate), for a request that was made before. If the request has
    /// a window, the range lies in the window.
    ///
    /// # Errors
    ///
    /// An error returns the value. It leaves ranges and values unchanged, and each error but the last one the same
    /// tree. In this order:
    /// - The errors of `AddressAllocator::allocate_constraint`, in the order of its documentation.
    /// - `OutOfMemory` if an allocation for the values fails. The range is freed again, as by
    ///   [`allocate`](Self::allocate).
    pub fn allocate_constraint(
        &mut self,
        alloc: Global,
        request: Constraint,
        value: T,
    ) -> Result<RangeInclusive, Refused<T>> {
        let range = match self.addresses.allocate_constraint(alloc, request) {
            Ok(range) => range,
            Err(error) => return Err(Refused { error, value }),
        };
        if let Err(refused) = self.values.insert(alloc, range.start(), value) {
            // Freeing an allocated range always succeeds.
            let _ = self.addresses.free(&range);
            return Err(Refused {
                error: Error::OutOfMemory,
                value: refused.value,
            });
        }
        Ok(range)
    }
}
