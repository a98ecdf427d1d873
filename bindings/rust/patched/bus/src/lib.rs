// SPDX-License-Identifier: Apache-2.0 OR BSD-3-Clause
//! A crate that allocates from the allocator of its caller.
use vm_allocator::{AddressAllocator, AllocPolicy, RangeInclusive, Result};

/// Allocates the window of a device.
pub fn plug(space: &mut AddressAllocator) -> Result<RangeInclusive> {
    space.allocate(0x1000, 0x1000, AllocPolicy::FirstMatch)
}
