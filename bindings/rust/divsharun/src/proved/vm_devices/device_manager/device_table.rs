// Written by bindings/erase from crates/vm_devices/src/device_manager/device_table.rt: do not edit.

//! The table of the devices. It finds a range by its id, and an id by the start of its range.

use crate::proved::vm_addresses::RangeInclusive;
use crate::proved::vm_devices::device_slot::DeviceSlot;
use crate::proved::vm_list::{Iter, Keyed, KeyedList};
use crate::rattle::{AllocError, Global};

/// The start of the range of a device, and the id of the device.
#[derive(Clone, Copy, Debug)]
struct DeviceStart {
    start: u64,
    id: u32,
}

impl Keyed for DeviceStart {
    /// Returns the start.
    fn key(&self) -> u64 {
        self.start
    }
}

/// The range of each device by its id, and the id of each device by the start of its range.
///
/// Its model is the map by ids.
#[derive(Debug)]
pub(super) struct DeviceTable {
    slots: KeyedList<DeviceSlot>,
    starts: KeyedList<DeviceStart>,
}

impl DeviceTable {
    /// Creates a table without devices. It does not allocate.
    pub(super) fn new() -> DeviceTable {
        DeviceTable {
            slots: KeyedList::new(),
            starts: KeyedList::new(),
        }
    }

    /// Returns a copy.
    pub(super) fn try_clone(&self, alloc: Global) -> Result<DeviceTable, AllocError> {
        let slots = self.slots.try_clone(alloc)?;
        let starts = self.starts.try_clone(alloc)?;
        Ok(DeviceTable { slots, starts })
    }

    /// Returns the range of the device with this id, or `None` if there is none.
    pub(super) fn get(&self, id: u32) -> Option<RangeInclusive> {
        let slot = self.slots.get(u64::from(id))?;
        Some(slot.range)
    }

    /// Returns an iterator over the devices, by ascending ids. `count` is their number.
    pub(super) fn iter(&self, count: u64) -> Devices<'_> {
        let devices = DevicesIn {
            slots: self.slots.iter(),
        };
        Devices {
            devices,
            left: count as usize,
        }
    }

    /// Returns an iterator over the devices with ids from `first` to `last`, by ascending ids.
    pub(super) fn iter_in(&self, first: u32, last: u32) -> DevicesIn<'_> {
        DevicesIn {
            slots: self.slots.iter_between(first.into(), last.into()),
        }
    }

    /// Returns the id of the device whose range starts at `start`, or `None` if there is none.
    pub(super) fn id_at(&self, start: u64) -> Option<u32> {
        let at = self.starts.get(start)?;
        Some(at.id)
    }

    /// Inserts a device, or changes its range. An error changes nothing, and is possible only for another start.
    pub(super) fn insert(
        &mut self,
        alloc: Global,
        id: u32,
        range: RangeInclusive,
    ) -> Result<(), AllocError> {
        let slot = DeviceSlot { id, range };
        match self.get(id) {
            Some(before) => self.replace(alloc, before.start(), slot),
            None => self.add(alloc, slot),
        }
    }

    /// Inserts a device with a new id. An error changes nothing.
    fn add(&mut self, alloc: Global, slot: DeviceSlot) -> Result<(), AllocError> {
        let start = slot.range.start();
        let at = DeviceStart { start, id: slot.id };
        self.starts.insert(alloc, at)?;
        if let Err(failed) = self.slots.insert(alloc, slot) {
            self.starts.remove(start);
            return Err(failed.into());
        }
        Ok(())
    }

    /// Changes the range of a device, which starts at `before`. An error changes nothing, and is possible only for
    /// another start.
    fn replace(&mut self, alloc: Global, before: u64, slot: DeviceSlot) -> Result<(), AllocError> {
        let start = slot.range.start();
        if before != start {
            let at = DeviceStart { start, id: slot.id };
            self.starts.insert(alloc, at)?;
            self.starts.remove(before);
        }
        self.slots.set(slot);
        Ok(())
    }

    /// Removes the device with this id, if there is one.
    pub(super) fn remove(&mut self, id: u32) {
        if let Some(slot) = self.slots.remove(u64::from(id)) {
            self.starts.remove(slot.range.start());
        }
    }
}

/// An iterator over the devices with ids from an id to an id, by ascending ids, or backwards. It does not allocate.
///
/// Its model is the list of the devices that it has not returned yet.
#[derive(Clone)]
pub struct DevicesIn<'a> {
    slots: Iter<'a, DeviceSlot>,
}

impl<'a> Iterator for DevicesIn<'a> {
    type Item = DeviceSlot;

    /// Returns the device with the lowest id that is left.
    fn next(&mut self) -> Option<DeviceSlot> {
        self.slots.next().copied()
    }
}

impl<'a> DoubleEndedIterator for DevicesIn<'a> {
    /// Returns the device with the highest id that is left.
    fn next_back(&mut self) -> Option<DeviceSlot> {
        self.slots.next_back().copied()
    }
}

/// An iterator over the devices, by ascending ids, or backwards. It does not allocate.
///
/// Its model is the list of the devices that it has not returned yet.
#[derive(Clone)]
pub struct Devices<'a> {
    devices: DevicesIn<'a>,
    // The number of devices that were not returned.
    left: usize,
}

impl<'a> Iterator for Devices<'a> {
    type Item = DeviceSlot;

    /// Returns the device with the lowest id that is left.
    fn next(&mut self) -> Option<DeviceSlot> {
        let device = self.devices.next()?;
        self.left -= 1;
        Some(device)
    }

    /// Returns the number of devices that are left, as both bounds.
    fn size_hint(&self) -> (usize, Option<usize>) {
        (self.left, Some(self.left))
    }
}

impl<'a> DoubleEndedIterator for Devices<'a> {
    /// Returns the device with the highest id that is left.
    fn next_back(&mut self) -> Option<DeviceSlot> {
        let device = self.devices.next_back()?;
        self.left -= 1;
        Some(device)
    }
}

impl<'a> ExactSizeIterator for Devices<'a> {
    /// Returns the number of devices that are left. It takes constant time.
    fn len(&self) -> usize {
        self.left
    }
}
