// Written by bindings/erase from crates/vm_devices/src/device_manager/moving.rt: do not edit.

//! The move of a device to the place of a request.

use super::DeviceManager;
use crate::proved::vm_addresses::{Constraint, Error, RangeInclusive, Result};
use crate::rattle::Global;

impl DeviceManager {
    /// Moves a device to the place of a request, and returns its range there. It keeps its id.
    ///
    /// The range can overlap the one before, as by `AddressAllocator::move_constraint`.
    ///
    /// # Errors
    ///
    /// An error leaves ids, ranges and devices unchanged, and each error but the last one the same tree. In
    /// this order:
    /// - `NeverAllocated(id)` if no device has the id.
    /// - The errors of `AddressAllocator::move_constraint`, in the order of its documentation.
    /// - `OutOfMemory` if an allocation for the table of devices fails. It is possible only if the start changes.
    pub fn move_constraint(
        &mut self,
        alloc: Global,
        id: u32,
        request: Constraint,
    ) -> Result<RangeInclusive> {
        let Some(before) = self.slot(id) else {
            return Err(Error::NeverAllocated(id));
        };
        let begun = self.mmio_allocator.begin_move(alloc, &before, request)?;
        let range = begun.range();
        if let Err(refused) = self.slots.insert(alloc, id, range) {
            self.mmio_allocator.cancel_move(begun);
            return Err(refused.into());
        }
        self.mmio_allocator.finish_move(alloc, &before, begun);
        Ok(range)
    }
}
