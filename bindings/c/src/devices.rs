// SPDX-License-Identifier: Apache-2.0 OR BSD-3-Clause
//! The device manager: an id and a range for each device.

use crate::handle::{found, Handle};
use crate::ids::{dvs_id_allocator, write_range};
use crate::lists::fill;
use crate::objects::{calls, object_calls, visits};
use crate::proved::vm_addresses::{AllocPolicy, Constraint, Error};
use crate::proved::vm_devices::{DeviceManager, DeviceSlot};
use crate::proved::vm_ids::IdRequest;
use crate::ranges::dvs_address_allocator;
use crate::rattle::Global;
use crate::requests::{answered, in_the_way, no_range};
use crate::texts::{read_devices, save_devices};
use crate::{dvs_range, dvs_refusal, CallError, In, Out};

/// A device manager behind a C pointer.
pub type dvs_device_manager = Handle<DeviceManager>;

/// The resources of a device.
#[repr(C)]
pub struct dvs_device {
    range: dvs_range,
    id: u32,
}

impl From<DeviceSlot> for dvs_device {
    fn from(DeviceSlot { id, range }: DeviceSlot) -> Self {
        let range = range.into();
        dvs_device { range, id }
    }
}

fn reserve(
    manager: &mut DeviceManager,
    size: u64,
    alignment: u64,
    policy: AllocPolicy,
    wants_details: bool,
) -> Result<dvs_device, CallError> {
    let reserved = manager.reserve(Global, size, alignment, policy);
    answered(reserved, wants_details, || {
        let request = Constraint::new(size, alignment, policy).ok()?;
        details(manager, IdRequest::Lowest, request)
    })
}

/// Returns the details of a refused device. If there is no id for it, no range is in the way.
fn details(manager: &DeviceManager, id: IdRequest, request: Constraint) -> Option<dvs_refusal> {
    manager.ids().peek(id).ok()?;
    no_range(request, manager.addresses())
}

object_calls! {
    dvs_device_manager: dvs_device_manager_destroy, dvs_device_manager_copy,
        dvs_device_manager_equal, dvs_device_manager_save by save_devices,
        dvs_device_manager_read, dvs_device_manager_read_within by read_devices
}

calls! {
    takes dvs_device_manager_new(first_id: u32, last_id: u32, base: u64, size: u64)
        -> made: *mut dvs_device_manager [refusal] {
        Handle::new(DeviceManager::new(Global, first_id, last_id, base, size)?)?
    }
    changes dvs_device_reserve_first(manager: In<dvs_device_manager>, size: u64, alignment: u64)
        -> device: dvs_device [refusal] {
        reserve(manager, size, alignment, AllocPolicy::FirstMatch, refusal.is_some())?
    }
    changes dvs_device_reserve_last(manager: In<dvs_device_manager>, size: u64, alignment: u64)
        -> device: dvs_device [refusal] {
        reserve(manager, size, alignment, AllocPolicy::LastMatch, refusal.is_some())?
    }
    changes dvs_device_reserve_exact(
        manager: In<dvs_device_manager>, size: u64, alignment: u64, start: u64
    ) -> device: dvs_device [refusal] {
        reserve(manager, size, alignment, AllocPolicy::ExactMatch(start), refusal.is_some())?
    }
    // An id without a device has the error of `dvs_device_release`.
    reads dvs_device_slot(manager: In<dvs_device_manager>, id: u32) -> range: dvs_range [refusal] {
        manager.slot(id).ok_or(Error::NeverAllocated(id))?.into()
    }
    reads dvs_device_at(manager: In<dvs_device_manager>, address: u64) -> device: dvs_device {
        found(manager.device_at(address))?
    }
    reads dvs_device_manager_space(manager: In<dvs_device_manager>) -> ends: dvs_range {
        manager.addresses().space().into()
    }
    reads dvs_device_list(
        manager: In<dvs_device_manager>, from: u32, devices: *mut dvs_device, capacity: usize
    ) -> count: usize {
        // SAFETY: the array is as the header requires.
        unsafe { fill(manager.devices_in(from, u32::MAX), devices, capacity) }?
    }
    reads dvs_device_count(manager: In<dvs_device_manager>) -> count: u64 { manager.device_count() }
    changes dvs_device_release(manager: In<dvs_device_manager>, id: u32) [refusal] {
        manager.release(id)?
    }
    changes dvs_device_reserve(manager: In<dvs_device_manager>; request)
        -> device: dvs_device [refusal] {
        let reserved = manager.reserve_constraint(Global, request);
        answered(reserved, refusal.is_some(), || details(manager, IdRequest::Lowest, request))?
    }
    changes dvs_device_reserve_with_id(
        manager: In<dvs_device_manager>, first_id: u32, last_id: u32; request
    ) -> device: dvs_device [refusal] {
        let id = IdRequest::LowestIn(first_id, last_id);
        let reserved = manager.reserve_with_id(Global, id, request);
        answered(reserved, refusal.is_some(), || details(manager, id, request))?
    }
    changes dvs_device_move(manager: In<dvs_device_manager>, id: u32; request)
        -> range: dvs_range [refusal] {
        let moved = manager.move_constraint(Global, id, request);
        let details = || {
            let range = manager.slot(id)?;
            in_the_way(request, manager.addresses().move_conflict(&range, request))
        };
        answered(moved, refusal.is_some(), details)?
    }
    reads dvs_device_conflict(manager: In<dvs_device_manager>; request) -> conflict: dvs_refusal {
        in_the_way(request, manager.addresses().conflict(request)).unwrap_or_default()
    }
    reads dvs_device_manager_ids(manager: In<dvs_device_manager>, first: Out<u32>) -> last: u32 {
        write_range(manager.ids(), first)?
    }
    reads dvs_device_manager_copy_addresses(manager: In<dvs_device_manager>)
        -> copied: *mut dvs_address_allocator {
        Handle::new(manager.addresses().try_clone(Global)?)?
    }
    reads dvs_device_manager_copy_ids(manager: In<dvs_device_manager>)
        -> copied: *mut dvs_id_allocator {
        Handle::new(manager.ids().try_clone(Global)?)?
    }
}

visits! {
    dvs_device_visit(manager: dvs_device_manager) of dvs_device { manager.devices() }
}
