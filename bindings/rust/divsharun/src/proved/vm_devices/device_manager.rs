// Written by bindings/erase from crates/vm_devices/src/device_manager.rt: do not edit.

//! The manager of devices.
//!
//! Ids, ranges and the table of devices change together or not at all. Calls that can fail are
//! first. The calls after them, and the call that undoes an allocation, always succeed.

use crate::proved::vm_addresses::{AddressAllocator, Error, RangeInclusive, Result};
use crate::proved::vm_ids::IdAllocator;
use crate::rattle::Global;

mod comparing;
mod device_table;
mod moving;
mod queries;
mod reserving;
mod saved;

use self::device_table::DeviceTable;
pub use self::device_table::{Devices, DevicesIn};
pub use self::saved::read_devices::{ReadDevices, SAVED_VERSION};

/// Reserves an id and a range of addresses for each device, both or neither.
///
/// No two devices share an id or an address.
///
/// It fits devices of one id and one range each, such as those of virtio-mmio. A PCI function has
/// several BARs and interrupt vectors: `AddressAllocator::allocate_all` and
/// `IdAllocator::allocate_ids` allocate these, each all or none.
#[derive(Debug)]
pub struct DeviceManager {
    id_allocator: IdAllocator,
    mmio_allocator: AddressAllocator,
    // The range of each device, by its id.
    slots: DeviceTable,
}

impl DeviceManager {
    /// Creates a manager without devices. It has the ids from `id_lo` to `id_hi`, both included,
    /// and the `size` addresses starting at `base`.
    ///
    /// # Errors
    ///
    /// In this order:
    /// - `InvalidRange(id_lo, id_hi)` if `id_hi` is below `id_lo`.
    /// - `Underflow` if `size` is 0.
    /// - `Overflow` if the last address would be past `u64::MAX`.
    /// - `OutOfMemory` if an allocation fails.
    pub fn new(alloc: Global, id_lo: u32, id_hi: u32, base: u64, size: u64) -> Result<Self> {
        let id_allocator = IdAllocator::new(alloc, id_lo, id_hi)?;
        let mmio_allocator = AddressAllocator::new(alloc, base, size)?;
        Ok(DeviceManager {
            id_allocator,
            mmio_allocator,
            slots: DeviceTable::new(),
        })
    }

    /// Returns a copy. It has equal allocators, the same tree of addresses and the same devices.
    ///
    /// # Errors
    ///
    /// - `OutOfMemory` if an allocation fails.
    pub fn try_clone(&self, alloc: Global) -> Result<Self> {
        let id_allocator = self.id_allocator.try_clone(alloc)?;
        let mmio_allocator = self.mmio_allocator.try_clone(alloc)?;
        let slots = self.slots.try_clone(alloc)?;
        Ok(DeviceManager {
            id_allocator,
            mmio_allocator,
            slots,
        })
    }

    /// Releases a device: frees its id and its range.
    ///
    /// # Errors
    ///
    /// An error changes nothing, and leaves the same tree. In this order:
    /// - `NeverAllocated(id)` if no device has the id.
    /// - `OutOfMemory` if an allocation of memory fails.
    pub fn release(&mut self, id: u32) -> Result<()> {
        let Some(range) = self.slot(id) else {
            return Err(Error::NeverAllocated(id));
        };
        // Only this call can fail (out of memory), so it is first.
        self.id_allocator.free_id(id)?;
        let _ = self.mmio_allocator.free(&range);
        self.slots.remove(id);
        Ok(())
    }

    /// Returns the range of the device with this id, or `None` if no device has it.
    ///
    /// It does not allocate.
    pub fn slot(&self, id: u32) -> Option<RangeInclusive> {
        self.slots.get(id)
    }
}
