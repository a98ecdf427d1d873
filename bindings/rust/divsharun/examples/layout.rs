// SPDX-License-Identifier: Apache-2.0 OR BSD-3-Clause
//! Prints the address space of a machine like `/proc/iomem`, with the names of its devices:
//!
//!     c000-c01f : held
//!     c020-cfff : gap
//!
//!     d0000000-d0000fff : gap
//!     d0001000-d0001fff : virtio-net
//!     d0002000-d7ffffff : gap
//!     d8000000-d8000fff : held
//!     d8001000-deffffff : gap
//!     df000000-dfffffff : vga

use divsharun::{AddressAllocator, AllocPolicy, Result};

fn main() -> Result<()> {
    let mut ports = AddressAllocator::new(0xc000, 0x1000)?;
    ports.allocate(0x20, 0x20, AllocPolicy::FirstMatch)?;
    println!("{}\n", ports.layout());

    let mut mmio = AddressAllocator::new(0xd000_0000, 0x1000_0000)?;
    let disk = mmio.allocate(0x1000, 0x1000, AllocPolicy::FirstMatch)?;
    let network = mmio.allocate(0x1000, 0x1000, AllocPolicy::FirstMatch)?;
    let card = mmio.allocate(0x100_0000, 0x100_0000, AllocPolicy::LastMatch)?;
    mmio.allocate(0x1000, 0x1000, AllocPolicy::ExactMatch(0xd800_0000))?;
    mmio.free(&disk)?;
    println!(
        "{}",
        mmio.layout()
            .named([(network, "virtio-net"), (card, "vga")])
    );
    Ok(())
}
