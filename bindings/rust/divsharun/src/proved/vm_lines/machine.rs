// Written by bindings/erase from crates/vm_lines/src/machine.rt: do not edit.

//! The space, the ids and the devices of a session, and the effect of each command on them.

use crate::proved::vm_addresses::{AddressAllocator, AllocPolicy, RangeInclusive, Result};
use crate::proved::vm_commands::Command;
use crate::proved::vm_devices::DeviceManager;
use crate::proved::vm_ids::IdAllocator;
use crate::proved::vm_lines::reply::{device_reply, done_reply, id_reply, range_reply, Reply};
use crate::rattle::Global;

/// The space, the ids and the devices that the lines so far have created.
pub(in crate::proved::vm_lines) struct Machine {
    space: Option<AddressAllocator>,
    ids: Option<IdAllocator>,
    devices: Option<DeviceManager>,
}

impl Machine {
    /// Creates a machine without space, ids and devices.
    pub(in crate::proved::vm_lines) fn new() -> Machine {
        Machine {
            space: None,
            ids: None,
            devices: None,
        }
    }

    /// Executes a command.
    pub(in crate::proved::vm_lines) fn answer(&mut self, alloc: Global, command: Command) -> Reply {
        match command {
            Command::Space { base, size } => self.make_space(alloc, base, size),
            Command::First { size, alignment } => {
                self.allocate(alloc, size, alignment, AllocPolicy::FirstMatch)
            }
            Command::Last { size, alignment } => {
                self.allocate(alloc, size, alignment, AllocPolicy::LastMatch)
            }
            Command::Exact {
                size,
                alignment,
                start,
            } => self.allocate(alloc, size, alignment, AllocPolicy::ExactMatch(start)),
            Command::Free { start, end } => self.free(start, end),
            Command::Ids {
                range_base,
                range_end,
            } => self.make_ids(alloc, range_base, range_end),
            Command::Id => self.allocate_id(),
            Command::Unid { id } => self.free_id(id),
            Command::Has { id } => self.has_id(id),
            Command::Manager {
                id_lo,
                id_hi,
                base,
                size,
            } => self.make_manager(alloc, id_lo, id_hi, base, size),
            Command::Device { size, alignment } => self.reserve(alloc, size, alignment),
            Command::Undevice { id } => self.release_device(id),
            Command::Malformed => Reply::NotInLanguage,
        }
    }

    /// Creates a space, which replaces the old one. An error keeps the old one.
    fn make_space(&mut self, alloc: Global, base: u64, size: u64) -> Reply {
        replace_if_ok(AddressAllocator::new(alloc, base, size), &mut self.space)
    }

    /// Allocates `size` addresses by a policy.
    fn allocate(&mut self, alloc: Global, size: u64, alignment: u64, policy: AllocPolicy) -> Reply {
        let Some(space) = &mut self.space else {
            return Reply::NoSpace;
        };
        range_reply(space.allocate(alloc, size, alignment, policy))
    }

    /// Frees a range.
    fn free(&mut self, start: u64, end: u64) -> Reply {
        let Some(space) = &mut self.space else {
            return Reply::NoSpace;
        };
        done_reply(free_range(space, start, end))
    }

    /// Creates ids, which replace the old ones. An error keeps the old ones.
    fn make_ids(&mut self, alloc: Global, range_base: u32, range_end: u32) -> Reply {
        replace_if_ok(
            IdAllocator::new(alloc, range_base, range_end),
            &mut self.ids,
        )
    }

    /// Allocates the lowest free id.
    fn allocate_id(&mut self) -> Reply {
        let Some(ids) = &mut self.ids else {
            return Reply::NoIds;
        };
        id_reply(ids.allocate_id())
    }

    /// Frees an id.
    fn free_id(&mut self, id: u32) -> Reply {
        let Some(ids) = &mut self.ids else {
            return Reply::NoIds;
        };
        id_reply(ids.free_id(id))
    }

    /// Checks whether an id is allocated.
    fn has_id(&self, id: u32) -> Reply {
        let Some(ids) = &self.ids else {
            return Reply::NoIds;
        };
        Reply::Held(ids.is_allocated(id))
    }

    /// Creates a manager, which replaces the old one. An error keeps the old one.
    fn make_manager(
        &mut self,
        alloc: Global,
        id_lo: u32,
        id_hi: u32,
        base: u64,
        size: u64,
    ) -> Reply {
        let made = DeviceManager::new(alloc, id_lo, id_hi, base, size);
        replace_if_ok(made, &mut self.devices)
    }

    /// Reserves a device with the lowest free id and the lowest free addresses.
    fn reserve(&mut self, alloc: Global, size: u64, alignment: u64) -> Reply {
        let Some(devices) = &mut self.devices else {
            return Reply::NoManager;
        };
        device_reply(devices.reserve(alloc, size, alignment, AllocPolicy::FirstMatch))
    }

    /// Releases a device.
    fn release_device(&mut self, id: u32) -> Reply {
        let Some(devices) = &mut self.devices else {
            return Reply::NoManager;
        };
        done_reply(devices.release(id))
    }
}

/// Replaces a part by the new one. An error keeps the old one.
#[inline(always)]
fn replace_if_ok<T>(made: Result<T>, part: &mut Option<T>) -> Reply {
    match made {
        Ok(new) => {
            *part = Some(new);
            Reply::Done
        }
        Err(error) => Reply::Failed(error),
    }
}

/// Frees the range from `start` to `end`. Returns `InvalidRange(start, end)` if there is no range
/// with these ends.
fn free_range(space: &mut AddressAllocator, start: u64, end: u64) -> Result<()> {
    let range = RangeInclusive::new(start, end)?;
    space.free(&range)
}
