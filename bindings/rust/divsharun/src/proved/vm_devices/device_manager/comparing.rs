// Written by bindings/erase from crates/vm_devices/src/device_manager/comparing.rt: do not edit.

//! Equality of managers.

use super::DeviceManager;

impl PartialEq for DeviceManager {
    /// Returns `true` if both managers have equal allocators and the same devices.
    ///
    /// It stops at the first difference and does not allocate.
    fn eq(&self, other: &DeviceManager) -> bool {
        self.has_allocators_of(other) && self.devices().eq(other.devices())
    }
}

impl Eq for DeviceManager {}

impl DeviceManager {
    /// Returns `true` if both managers have equal allocators.
    fn has_allocators_of(&self, other: &DeviceManager) -> bool {
        self.id_allocator == other.id_allocator && self.mmio_allocator == other.mmio_allocator
    }
}
