// SPDX-License-Identifier: Apache-2.0 OR BSD-3-Clause
//! The example of the repository's README.md.
use divsharun::{AddressAllocator, AllocPolicy, DeviceManager, RangeInclusive, Result};

fn main() -> Result<()> {
    // The MMIO gap of x86, in which the I/O APIC, the local APICs and the firmware are allocated.
    let taken = [
        RangeInclusive::from_start_len(0xfec0_0000, 0x1000)?,
        RangeInclusive::from_start_len(0xfee0_0000, 0x10_0000)?,
        RangeInclusive::from_start_len(0xffc0_0000, 0x40_0000)?,
    ];
    let mut mmio = AddressAllocator::with_held(0xd000_0000, 0x3000_0000, &taken)?;
    let bar = mmio.allocate(0x4000, 0x4000, AllocPolicy::FirstMatch)?;
    println!("bar {bar:#}");
    mmio.free(&bar)?;

    // An id and a range for each device: both or neither.
    let mut devices = DeviceManager::new(5, 23, 0xc000_0000, 0x1000_0000)?;
    let disk = devices.reserve(0x1000, 0x1000, AllocPolicy::LastMatch)?;
    println!("disk: interrupt {}, window {:#}", disk.id, disk.range);
    devices.release(disk.id)
}
