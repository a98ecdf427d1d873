// Written by bindings/erase from crates/vm_devices/src/device_manager/reserving.rt: do not edit.

//! Reservations: an id and a range for a new device, both or neither.

use super::device_table::DeviceTable;
use super::DeviceManager;
use crate::proved::vm_addresses::{AllocPolicy, Constraint, RangeInclusive, Result};
use crate::proved::vm_devices::device_slot::DeviceSlot;
use crate::proved::vm_ids::{IdAllocator, IdRequest};
use crate::rattle::Global;

impl DeviceManager {
    /// Reserves the lowest free id and `size` free addresses for a new device, and returns both.
    ///
    /// The addresses start at a multiple of `align`, and `policy` chooses them as in
    /// `AddressAllocator::allocate`.
    ///
    /// # Errors
    ///
    /// An error leaves ids, ranges and devices unchanged, and each error but the last one the same tree. In
    /// this order:
    /// - `Overflow` if all ids are allocated and their range ends at `u32::MAX`.
    /// - `ResourceNotAvailable` if all ids are allocated and their range ends below `u32::MAX`.
    /// - The errors of `AddressAllocator::allocate`, in the order of its documentation.
    /// - `OutOfMemory` if an allocation for the table of devices fails. The range is freed again, and the
    ///   tree of [`addresses`](Self::addresses) can have another shape. Then its height and its later
    ///   counts can differ.
    pub fn reserve(
        &mut self,
        alloc: Global,
        size: u64,
        align: u64,
        policy: AllocPolicy,
    ) -> Result<DeviceSlot> {
        let id = self.id_allocator.peek(IdRequest::Lowest)?;
        let request = Constraint::new(size, align, policy)?;
        self.reserve_range(alloc, id, request)
    }

    /// Reserves an id and a range like [`reserve`](Self::reserve), for a request that was made before.
    /// If the request has a window, the range lies in the window.
    ///
    /// # Errors
    ///
    /// Those of [`reserve_with_id`](Self::reserve_with_id) for the lowest id.
    pub fn reserve_constraint(&mut self, alloc: Global, request: Constraint) -> Result<DeviceSlot> {
        self.reserve_with_id(alloc, IdRequest::Lowest, request)
    }

    /// Reserves an id and a range for a new device, each for its request, and returns both.
    ///
    /// A saved value lists each free id below the highest one that was ever allocated. So it can be too long
    /// for the memory after a reservation of a high id.
    ///
    /// # Errors
    ///
    /// An error leaves ids, ranges and devices unchanged, and each error but the last one the same tree. In
    /// this order:
    /// - The errors of `IdAllocator::peek`.
    /// - The errors of `AddressAllocator::allocate_constraint`, in the order of its documentation.
    /// - `OutOfMemory` if an allocation for the table of devices or for skipped ids fails. The range is
    ///   freed again, as by [`reserve`](Self::reserve).
    pub fn reserve_with_id(
        &mut self,
        alloc: Global,
        id: IdRequest,
        request: Constraint,
    ) -> Result<DeviceSlot> {
        let id = self.id_allocator.peek(id)?;
        self.reserve_range(alloc, id, request)
    }

    /// Makes a device of a free id and of a range for the request. An error leaves ids, ranges and
    /// devices unchanged.
    fn reserve_range(&mut self, alloc: Global, id: u32, request: Constraint) -> Result<DeviceSlot> {
        let range = self.mmio_allocator.allocate_constraint(alloc, request)?;
        if let Err(refused) = enter(alloc, &mut self.id_allocator, &mut self.slots, id, range) {
            // Freeing an allocated range always succeeds.
            let _ = self.mmio_allocator.free(&range);
            return Err(refused);
        }
        Ok(DeviceSlot { id, range })
    }
}

/// Inserts a device into the table, and allocates its id. An error changes nothing.
fn enter(
    alloc: Global,
    ids: &mut IdAllocator,
    slots: &mut DeviceTable,
    id: u32,
    range: RangeInclusive,
) -> Result<()> {
    slots.insert(alloc, id, range)?;
    if let Err(refused) = ids.allocate_exact(id) {
        slots.remove(id);
        return Err(refused);
    }
    Ok(())
}
