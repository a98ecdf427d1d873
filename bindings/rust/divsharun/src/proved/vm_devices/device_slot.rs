// Written by bindings/erase from crates/vm_devices/src/device_slot.rt: do not edit.

//! The id and the range of a device.
use crate::proved::vm_addresses::RangeInclusive;
use crate::proved::vm_list::Keyed;

/// The id and the range of addresses of a device.
#[derive(Clone, Copy, Debug, PartialEq, Eq)]
pub struct DeviceSlot {
    pub id: u32,
    pub range: RangeInclusive,
}

impl Keyed for DeviceSlot {
    /// Returns the id.
    fn key(&self) -> u64 {
        u64::from(self.id)
    }
}
