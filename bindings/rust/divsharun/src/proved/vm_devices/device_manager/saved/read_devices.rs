// Written by bindings/erase from crates/vm_devices/src/device_manager/saved/read_devices.rt: do not edit.

//! Creates a manager of both allocators and its devices, which are read one by one.

use crate::proved::vm_addresses::AddressAllocator;
use crate::proved::vm_devices::device_manager::device_table::DeviceTable;
use crate::proved::vm_devices::device_manager::DeviceManager;
use crate::proved::vm_devices::device_slot::DeviceSlot;
use crate::proved::vm_ids::IdAllocator;
use crate::proved::vm_ranges::{Condition, SavedError};
use crate::rattle::Global;
use crate::rattle::Vec;

/// The version of a saved manager.
pub const SAVED_VERSION: u64 = 1;

/// The devices of a saved manager that were read so far, in the order of their ids.
///
/// Its model is the list of these devices.
pub struct ReadDevices {
    devices: Vec<DeviceSlot>,
}

impl ReadDevices {
    /// Creates a list without devices. It does not allocate.
    pub fn new(alloc: Global) -> Self {
        ReadDevices {
            devices: Vec::new(alloc),
        }
    }

    /// Appends the device that was read next.
    ///
    /// The device can be untrusted input.
    ///
    /// # Errors
    ///
    /// An error changes nothing. In this order:
    /// - `Violated(Order)` if the id is not above the ids of the devices before it.
    /// - `OutOfMemory` if an allocation fails.
    pub fn push(&mut self, device: DeviceSlot) -> Result<(), SavedError> {
        if !self.can_be_next(&device) {
            return Err(SavedError::Violated(Condition::Order));
        }
        self.devices.push(device)?;
        Ok(())
    }

    /// Returns `true` if the id of the device is above the ids of the devices before it.
    fn can_be_next(&self, device: &DeviceSlot) -> bool {
        match self.devices.last() {
            Some(last) => last.id < device.id,
            None => true,
        }
    }
}

impl DeviceManager {
    /// Creates a manager of the parts of a saved one: its version, its ids, its space and its
    /// devices.
    ///
    /// The parts can be untrusted input. They are checked one after the other, so `OutOfMemory` is
    /// possible for all parts of version 1. An error drops the ids and the space.
    ///
    /// # Errors
    ///
    /// In this order:
    /// - `Violated(Version)` if the version is not 1.
    /// - `Violated(Devices)` if one of these is true:
    ///   - The id or the range of a device is not allocated.
    ///   - An allocated id or range has no device.
    ///   - Two devices have the same range.
    /// - `OutOfMemory` if an allocation fails.
    pub fn from_devices(
        alloc: Global,
        version: u64,
        ids: IdAllocator,
        space: AddressAllocator,
        devices: &ReadDevices,
    ) -> Result<Self, SavedError> {
        if version != SAVED_VERSION {
            return Err(SavedError::Violated(Condition::Version));
        }
        let slots = pair_devices(alloc, &ids, &space, &devices.devices)?;
        Ok(DeviceManager {
            id_allocator: ids,
            mmio_allocator: space,
            slots,
        })
    }
}

/// Returns the table of the devices. Returns `Violated(Devices)` if they do not pair the allocated
/// ids with the allocated ranges.
fn pair_devices(
    alloc: Global,
    ids: &IdAllocator,
    space: &AddressAllocator,
    devices: &[DeviceSlot],
) -> Result<DeviceTable, SavedError> {
    let count = devices.len() as u64;
    let (held_ids, held_ranges) = (ids.held_count(), space.held_count());
    if held_ids != count || held_ranges != count {
        return Err(SavedError::Violated(Condition::Devices));
    }
    let mut table = DeviceTable::new();
    for device in devices {
        if !can_be_inserted(ids, space, &table, device) {
            return Err(SavedError::Violated(Condition::Devices));
        }
        table.insert(alloc, device.id, device.range)?;
    }
    Ok(table)
}

/// Returns `true` if the id and the range of the device are allocated, and no device of the table has
/// the same start.
fn can_be_inserted(
    ids: &IdAllocator,
    space: &AddressAllocator,
    table: &DeviceTable,
    device: &DeviceSlot,
) -> bool {
    ids.is_allocated(device.id)
        && space.holds(&device.range)
        && table.id_at(device.range.start()).is_none()
}
