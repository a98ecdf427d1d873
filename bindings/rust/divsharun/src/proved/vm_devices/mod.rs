// Written by bindings/erase from crates/vm_devices/src/lib.rt: do not edit.

//! Devices of a virtual machine. Each has an id and a range of addresses, both or neither.

mod device_manager;
mod device_slot;

pub use device_manager::{DeviceManager, Devices, DevicesIn, ReadDevices, SAVED_VERSION};
pub use device_slot::DeviceSlot;
