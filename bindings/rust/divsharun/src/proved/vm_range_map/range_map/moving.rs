// Written by bindings/erase from crates/vm_range_map/src/range_map/moving.rt: do not edit.

//! The move of an allocated range to the place of a request. Its value moves too.

use super::RangeMap;
use crate::proved::vm_addresses::{Constraint, RangeInclusive, Result};
use crate::rattle::Global;

impl<T> RangeMap<T> {
    /// Moves an allocated range to the place of a request, and returns the range there. It keeps its value.
    ///
    /// The range can overlap the one before, as by `AddressAllocator::move_constraint`.
    ///
    /// # Errors
    ///
    /// An error leaves ranges and values unchanged, and each error but the last one the same tree. In this order:
    /// - The errors of `AddressAllocator::move_constraint`, in the order of its documentation.
    /// - `OutOfMemory` if an allocation for the values fails. It is possible only if the start changes.
    pub fn move_constraint(
        &mut self,
        alloc: Global,
        range: &RangeInclusive,
        request: Constraint,
    ) -> Result<RangeInclusive> {
        let begun = self.addresses.begin_move(alloc, range, request)?;
        let to = begun.range();
        if let Err(refused) = self.values.move_to(alloc, range.start(), to.start()) {
            self.addresses.cancel_move(begun);
            return Err(refused.into());
        }
        self.addresses.finish_move(alloc, range, begun);
        Ok(to)
    }
}
