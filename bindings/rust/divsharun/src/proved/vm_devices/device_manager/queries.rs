// Written by bindings/erase from crates/vm_devices/src/device_manager/queries.rt: do not edit.

//! Queries of the devices: an iterator, their number, the device at an address, and both
//! allocators.

use super::device_table::{Devices, DevicesIn};
use super::DeviceManager;
use crate::proved::vm_addresses::AddressAllocator;
use crate::proved::vm_devices::device_slot::DeviceSlot;
use crate::proved::vm_ids::IdAllocator;

impl DeviceManager {
    /// Returns an iterator over the devices, by ascending ids.
    ///
    /// It does not allocate.
    pub fn devices(&self) -> Devices<'_> {
        self.slots.iter(self.device_count())
    }

    /// Returns an iterator over the devices with ids from `first` to `last`, both included, by ascending ids.
    ///
    /// It descends one path of a tree for each end, and does not allocate.
    pub fn devices_in(&self, first: u32, last: u32) -> DevicesIn<'_> {
        self.slots.iter_in(first, last)
    }

    /// Returns the number of devices.
    ///
    /// It does not visit the devices, and does not allocate.
    pub fn device_count(&self) -> u64 {
        self.id_allocator.held_count()
    }

    /// Returns the device whose range contains the address, or `None` if no device has it.
    ///
    /// It descends one path of the tree, looks the range up in a table, and does not allocate.
    pub fn device_at(&self, address: u64) -> Option<DeviceSlot> {
        let range = self.mmio_allocator.held_at(address)?;
        let id = self.slots.id_at(range.start())?;
        Some(DeviceSlot { id, range })
    }

    /// Returns the allocator of the addresses, to read.
    pub fn addresses(&self) -> &AddressAllocator {
        &self.mmio_allocator
    }

    /// Returns the allocator of the ids, to read.
    pub fn ids(&self) -> &IdAllocator {
        &self.id_allocator
    }
}
