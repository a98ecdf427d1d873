// SPDX-License-Identifier: Apache-2.0 OR BSD-3-Clause
//! Short recipes for a monitor. `monitor.rs` has most of them together.

use std::sync::{Arc, Mutex};
use std::thread;
use vm_allocator::{
    AddressAllocator, AllocPolicy, Conflict, Constraint, IdAllocator, RangeInclusive, Result,
};

const PAGE: u64 = 0x1000;
const MIB: u64 = 1 << 20;
const GIB: u64 = 1 << 30;

/// A 32-bit BAR must be below 4 GiB, and a 64-bit BAR can be above it.
fn bars(space: &mut AddressAllocator) -> Result<()> {
    let request = Constraint::new(MIB, MIB, AllocPolicy::FirstMatch)?;
    let of_32_bits = space.allocate_constraint(request.within(..4 * GIB)?)?;
    let of_64_bits = space.allocate_constraint(request.within(4 * GIB..)?)?;
    assert!(of_32_bits.end() < 4 * GIB && of_64_bits.start() >= 4 * GIB);
    Ok(())
}

/// The windows of a host bridge are one space, with a hole for the interrupt controllers.
fn host_bridge() -> Result<()> {
    let windows = [
        RangeInclusive::new(0xc000_0000, 0xfebf_ffff)?,
        RangeInclusive::new(4 * GIB, 256 * GIB - 1)?,
    ];
    let mut space = AddressAllocator::with_free(&windows)?;
    let bar = space.allocate(GIB, GIB, AllocPolicy::FirstMatch)?;
    assert!(windows[1].contains(&bar));
    Ok(())
}

/// The window of a bridge is a range of the space, and an allocator for the devices behind it.
fn bridge_window(space: &mut AddressAllocator) -> Result<()> {
    let window = space.allocate(32 * MIB, MIB, AllocPolicy::FirstMatch)?;
    let mut behind = AddressAllocator::over(window);
    let bar = behind.allocate(PAGE, PAGE, AllocPolicy::FirstMatch)?;
    assert!(window.contains(&bar));
    // The bridge is unplugged together with its devices.
    space.free(&window)
}

/// A device gets all of its BARs, or none.
fn hot_plug(space: &mut AddressAllocator) -> Result<()> {
    let bar = |size| Constraint::new(size, size, AllocPolicy::FirstMatch);
    let before = space.clone();
    assert!(space.allocate_all(&[bar(MIB)?, bar(1 << 40)?]).is_err());
    assert_eq!(*space, before);
    assert_eq!(space.allocate_all(&[bar(MIB)?, bar(PAGE)?])?.len(), 2);
    Ok(())
}

/// The guest programs another start of a 32-bit BAR, which must be free, aligned and below 4 GiB. Then
/// the BAR gets another size.
fn moved_bar(space: &mut AddressAllocator) -> Result<()> {
    let request = |size, policy| Constraint::new(size, size, policy)?.within(..4 * GIB);
    let bar = space.allocate_constraint(request(PAGE, AllocPolicy::FirstMatch)?)?;
    let programmed = request(PAGE, AllocPolicy::ExactMatch(0xe000_0000))?;
    let moved = space.move_constraint(&bar, programmed)?;
    assert!(space.holds(&moved) && !space.holds(&bar));
    assert_eq!(space.conflict(programmed), Some(Conflict::Allocated(moved)));

    // It grows in place, because the addresses behind it are free.
    let resized = space.move_constraint(
        &moved,
        request(MIB, AllocPolicy::ExactMatch(moved.start()))?,
    )?;
    assert_eq!((resized.start(), resized.len()), (moved.start(), MIB));
    Ok(())
}

/// Some interrupts have a fixed number or a short range.
fn fixed_interrupts() -> Result<()> {
    let mut interrupts = IdAllocator::new(5, 23)?;
    assert_eq!(interrupts.allocate_exact(9)?, 9);
    assert_eq!(interrupts.allocate_in(16..=23)?, 16);
    assert_eq!(interrupts.allocate_id()?, 5);
    Ok(())
}

/// MSI needs blocks of vectors, aligned to their lengths. The addresses of an allocator can be vectors.
fn blocks_of_vectors() -> Result<()> {
    let mut vectors = AddressAllocator::new(32, 224)?;
    vectors.allocate(1, 1, AllocPolicy::FirstMatch)?;
    let block = vectors.allocate(16, 16, AllocPolicy::FirstMatch)?;
    assert_eq!((block.start(), block.end()), (48, 63));
    Ok(())
}

/// A snapshot is restored. The strict reader reads what this crate saved.
#[cfg(feature = "serde")]
fn snapshot(space: &AddressAllocator) {
    type Saved = vm_allocator::Strict<AddressAllocator>;

    let text = serde_json::to_string(space).expect("it is written");
    let restored: Saved = serde_json::from_str(&text).expect("it is read");
    assert_eq!(*restored, *space);

    // A missing tree is an error.
    let lost = r#"{"address_space":{"start":0,"end":9},"interval_tree":{"root":null}}"#;
    assert!(serde_json::from_str::<Saved>(lost).is_err());
}

#[cfg(not(feature = "serde"))]
fn snapshot(space: &AddressAllocator) {
    assert_eq!(space.clone(), *space);
}

/// Threads share an allocator behind a lock.
fn threads(space: AddressAllocator) -> Result<()> {
    let space = Arc::new(Mutex::new(space));
    let worker = Arc::clone(&space);
    let plugged = thread::spawn(move || {
        let mut space = worker.lock().expect("no call panics");
        space.allocate(PAGE, PAGE, AllocPolicy::LastMatch)
    });
    let bar = plugged.join().expect("no call panics")?;
    assert!(space.lock().expect("no call panics").holds(&bar));
    Ok(())
}

fn main() -> Result<()> {
    let mut space = AddressAllocator::new(3 * GIB, 253 * GIB)?;
    bars(&mut space)?;
    host_bridge()?;
    bridge_window(&mut space)?;
    hot_plug(&mut space)?;
    moved_bar(&mut space)?;
    fixed_interrupts()?;
    blocks_of_vectors()?;
    snapshot(&space);
    threads(space)
}
