// Written by bindings/erase from crates/vm_devices/src/device_manager/saved.rt: do not edit.

//! The saved value of a manager: its version, both allocators, and the list of its devices.

pub(super) mod read_devices;
