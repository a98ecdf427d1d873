// SPDX-License-Identifier: Apache-2.0 OR BSD-3-Clause
//! The resources of a virtual machine monitor: one space for the BARs of devices and for memory,
//! interrupts, and slots for memory.
//!
//! A 32-bit BAR has a window below 4 GiB, and a 64-bit BAR has a window above it. A device gets its
//! interrupt and all of its BARs, or nothing. Two threads plug and unplug devices at the same time,
//! and everything is saved and restored. The dependency has the name `vm-allocator`, as in a project
//! that switched.

use std::sync::{Arc, Mutex, PoisonError};
use std::thread;
use vm_allocator::{
    AddressAllocator, AllocPolicy, Constraint, Error, IdAllocator, RangeInclusive, Result,
};
use Bar::{Of32Bits, Of64Bits};

const PAGE: u64 = 0x1000;
const MIB: u64 = 1 << 20;
const GIB: u64 = 1 << 30;

/// A BAR of a device by its size, which is a power of two.
#[derive(Clone, Copy, Debug)]
enum Bar {
    Of32Bits(u64),
    Of64Bits(u64),
}

impl Bar {
    /// Returns the request for the BAR, aligned to its size and at least to a page.
    fn request(self, policy: AllocPolicy) -> Result<Constraint> {
        let request = |size: u64| Constraint::new(size, PAGE.max(size), policy);
        match self {
            Of32Bits(size) => request(size)?.within(..4 * GIB),
            Of64Bits(size) => request(size)?.within(4 * GIB..),
        }
    }
}

#[derive(Debug)]
struct PciDevice {
    interrupt: u32,
    kinds: Vec<Bar>,
    /// The range of the BAR of each kind.
    bars: Vec<RangeInclusive>,
}

#[derive(Debug)]
struct MemoryModule {
    slot: u32,
    range: RangeInclusive,
}

#[derive(Clone, Debug, PartialEq)]
struct Resources {
    addresses: AddressAllocator,
    interrupts: IdAllocator,
    memory_slots: IdAllocator,
}

impl Resources {
    /// Creates the resources. The interrupt controllers, the firmware and the first memory have
    /// ranges already. The range of the local APICs is also that of MSI.
    fn new() -> Result<Self> {
        let io_apic = RangeInclusive::from_start_len(0xfec0_0000, PAGE)?;
        let local_apics = RangeInclusive::from_start_len(0xfee0_0000, MIB)?;
        let firmware = RangeInclusive::from_start_len(0xffc0_0000, 4 * MIB)?;
        let memory = RangeInclusive::from_start_len(4 * GIB, 60 * GIB)?;
        let taken = [io_apic, local_apics, firmware, memory];
        Ok(Resources {
            addresses: AddressAllocator::with_held(3 * GIB, 253 * GIB, &taken)?,
            interrupts: IdAllocator::new(24, 191)?,
            memory_slots: IdAllocator::new(0, 508)?,
        })
    }

    /// Plugs in a device. It gets an interrupt and all of its BARs, or nothing.
    fn plug(&mut self, kinds: &[Bar]) -> Result<PciDevice> {
        let request = |kind: &Bar| kind.request(AllocPolicy::FirstMatch);
        let requests: Vec<_> = kinds.iter().map(request).collect::<Result<_>>()?;
        self.interrupts.peek_id()?;
        let bars = self.addresses.allocate_all(&requests)?;
        // An interrupt is free, so this succeeds.
        let interrupt = self.interrupts.allocate_id()?;
        let kinds = kinds.to_vec();
        Ok(PciDevice {
            interrupt,
            kinds,
            bars,
        })
    }

    /// Frees everything that a device has.
    fn unplug(&mut self, device: &PciDevice) -> Result<()> {
        for bar in &device.bars {
            self.addresses.free(bar)?;
        }
        self.interrupts.free_id(device.interrupt).map(drop)
    }

    /// Moves a BAR of a device to the start that the guest programs. The BAR stays unchanged if its new
    /// range is misaligned, not free, or on the wrong side of 4 GiB.
    fn move_bar(&mut self, device: &mut PciDevice, index: usize, start: u64) -> Result<()> {
        let request = device.kinds[index].request(AllocPolicy::ExactMatch(start))?;
        let bar = &mut device.bars[index];
        *bar = self.addresses.move_constraint(bar, request)?;
        Ok(())
    }

    /// Makes a BAR of a device larger or smaller, in place if that is possible. The BAR stays unchanged if no
    /// range fits.
    fn resize_bar(&mut self, device: &mut PciDevice, index: usize, kind: Bar) -> Result<()> {
        let bar = &mut device.bars[index];
        let in_place = kind.request(AllocPolicy::ExactMatch(bar.start()));
        let policy = match in_place.map(|request| self.addresses.move_conflict(bar, request)) {
            Ok(None) => AllocPolicy::ExactMatch(bar.start()),
            _ => AllocPolicy::FirstMatch,
        };
        *bar = self.addresses.move_constraint(bar, kind.request(policy)?)?;
        device.kinds[index] = kind;
        Ok(())
    }

    /// Plugs in memory, at an address that the guest knows.
    fn plug_memory(&mut self, start: u64, size: u64) -> Result<MemoryModule> {
        let policy = AllocPolicy::ExactMatch(start);
        self.memory_slots.peek_id()?;
        let range = self.addresses.allocate(size, 128 * MIB, policy)?;
        // A slot is free, so this succeeds.
        let slot = self.memory_slots.allocate_id()?;
        Ok(MemoryModule { slot, range })
    }

    /// Unplugs the end of a memory module, so that `size` bytes are left.
    fn shrink_memory(&mut self, module: &mut MemoryModule, size: u64) -> Result<()> {
        let policy = AllocPolicy::ExactMatch(module.range.start());
        let request = Constraint::new(size, 128 * MIB, policy)?;
        module.range = self.addresses.move_constraint(&module.range, request)?;
        Ok(())
    }

    /// Frees everything that a memory module has.
    fn unplug_memory(&mut self, module: &MemoryModule) -> Result<()> {
        self.addresses.free(&module.range)?;
        self.memory_slots.free_id(module.slot).map(drop)
    }
}

/// The resources, shared by the threads of the monitor.
#[derive(Clone)]
struct Shared(Arc<Mutex<Resources>>);

impl Shared {
    /// Does something with the resources, one thread at a time.
    fn with<T>(&self, action: impl FnOnce(&mut Resources) -> Result<T>) -> Result<T> {
        // No call of the allocators panics, so they are valid. If the monitor panicked within `plug`,
        // the BARs of a device can be allocated without an interrupt.
        action(&mut self.0.lock().unwrap_or_else(PoisonError::into_inner))
    }
}

/// The saved state of a stopped machine.
#[cfg(feature = "serde")]
type Snapshot = String;
#[cfg(not(feature = "serde"))]
type Snapshot = Resources;

#[cfg(feature = "serde")]
fn save(resources: &Resources) -> Snapshot {
    let Resources {
        addresses,
        interrupts,
        memory_slots,
    } = resources;
    serde_json::to_string(&(addresses, interrupts, memory_slots)).expect("resources are written")
}

#[cfg(feature = "serde")]
fn restore(snapshot: Snapshot) -> Resources {
    let (addresses, interrupts, memory_slots): (vm_allocator::Strict<_>, _, _) =
        serde_json::from_str(&snapshot).expect("what was written is read");
    Resources {
        addresses: addresses.into_inner(),
        interrupts,
        memory_slots,
    }
}

#[cfg(not(feature = "serde"))]
fn save(resources: &Resources) -> Snapshot {
    resources.clone()
}

#[cfg(not(feature = "serde"))]
fn restore(snapshot: Snapshot) -> Resources {
    snapshot
}

/// Plugs in a graphics card, unplugs it and plugs it in again, and tries one that does not fit.
fn plug_cards(shared: &Shared) -> Result<PciDevice> {
    let bars = [
        Of32Bits(16 * MIB),
        Of32Bits(PAGE),
        Of64Bits(16 * GIB),
        Of64Bits(32 * MIB),
    ];
    let card = shared.with(|resources| resources.plug(&bars))?;
    println!("plugged in: {}", names_of(&card));

    // The last BAR does not fit, so the card gets none.
    let too_large = [Of32Bits(MIB), Of64Bits(GIB), Of64Bits(256 * GIB)];
    let before = shared.with(|resources| Ok(resources.clone()))?;
    let refusal = shared.with(|resources| resources.plug(&too_large));
    println!("refused: {:?}", refusal.map(|_| ()));
    shared.with(|resources| {
        assert_eq!(*resources, before);
        // A guest accesses an address, and the monitor looks for the BAR that contains it.
        let bar = resources.addresses.held_at(card.bars[0].start() + 0x10);
        assert_eq!(bar, Some(card.bars[0]));
        resources.unplug(&card)
    })?;

    let mut again = shared.with(|resources| resources.plug(&bars))?;
    assert_eq!(again.bars, card.bars);
    println!("plugged in again, with the same ranges");

    // The guest programs the second BAR. First another BAR is in the way, then the start is misaligned,
    // and then it is above 4 GiB, where it is free.
    for (start, error) in [
        (card.bars[0].start(), Error::ResourceNotAvailable),
        (0xe000_0800, Error::UnalignedAddress),
        (200 * GIB, Error::ResourceNotAvailable),
    ] {
        let moved = shared.with(|resources| resources.move_bar(&mut again, 1, start));
        assert_eq!((moved, again.bars[1]), (Err(error), card.bars[1]));
    }
    let is_free = |resources: &mut Resources| Ok(resources.addresses.gap_at(200 * GIB).is_some());
    assert_eq!(shared.with(is_free), Ok(true));
    shared.with(|resources| resources.move_bar(&mut again, 1, 0xe000_0000))?;
    println!("moved to {}", again.bars[1]);

    // The driver resizes the third BAR.
    shared.with(|resources| resources.resize_bar(&mut again, 2, Of64Bits(32 * GIB)))?;
    println!("resized to {}", again.bars[2]);
    Ok(again)
}

/// Returns the BARs of a device in hexadecimal.
fn names_of(device: &PciDevice) -> String {
    let bars: Vec<_> = device.bars.iter().map(ToString::to_string).collect();
    bars.join(", ")
}

/// Plugs in sixteen network devices from each of two threads.
fn plug_by_two_threads(shared: &Shared) -> Result<Vec<PciDevice>> {
    let workers = [0, 1].map(|_| {
        let shared = shared.clone();
        thread::spawn(move || -> Result<Vec<PciDevice>> {
            let bars = [Of32Bits(PAGE), Of64Bits(MIB / 2)];
            let plug = || shared.with(|resources| resources.plug(&bars));
            (0..16).map(|_| plug()).collect()
        })
    });
    let mut devices = Vec::new();
    for worker in workers {
        devices.extend(worker.join().expect("no worker panics")?);
    }
    Ok(devices)
}

/// Returns `true` if the devices share no address and no interrupt.
fn are_apart(devices: &[PciDevice]) -> bool {
    let mut bars: Vec<_> = devices.iter().flat_map(|device| &device.bars).collect();
    bars.sort();
    let mut interrupts: Vec<_> = devices.iter().map(|device| device.interrupt).collect();
    interrupts.sort();
    bars.windows(2).all(|pair| !pair[0].overlaps(pair[1]))
        && interrupts.windows(2).all(|pair| pair[0] != pair[1])
}

fn main() -> Result<()> {
    let shared = Shared(Arc::new(Mutex::new(Resources::new()?)));
    let card = plug_cards(&shared)?;
    let mut memory = shared.with(|resources| resources.plug_memory(128 * GIB, 8 * GIB))?;
    println!("memory: {} in slot {}", memory.range, memory.slot);
    let twice = shared.with(|resources| resources.plug_memory(128 * GIB, 8 * GIB));
    assert!(matches!(twice, Err(Error::InvalidStateTransition(range, _)) if range == memory.range));

    // A module that overlaps this one does not fit, and the monitor names what is in its way.
    let (start, size) = (132 * GIB, 8 * GIB);
    let refusal = shared.with(|resources| resources.plug_memory(start, size));
    assert!(matches!(refusal, Err(Error::ResourceNotAvailable)));
    let asked = RangeInclusive::from_start_len(start, size)?;
    shared.with(|resources| {
        let in_the_way: Vec<_> = resources.addresses.held_ranges_in(asked).collect();
        assert_eq!(in_the_way, [memory.range]);
        Ok(())
    })?;

    // The guest unplugs the upper half of the first module, and then the other one fits.
    shared.with(|resources| resources.shrink_memory(&mut memory, 4 * GIB))?;
    let other = shared.with(|resources| resources.plug_memory(start, size))?;

    let mut devices = plug_by_two_threads(&shared)?;
    devices.push(card);
    println!("{} devices, apart: {}", devices.len(), are_apart(&devices));

    let snapshot = shared.with(|resources| Ok(save(resources)))?;
    let mut restored = restore(snapshot);
    for device in &devices {
        restored.unplug(device)?;
    }
    for module in [&memory, &other] {
        restored.unplug_memory(module)?;
    }
    // Everything is free now, except what `new` allocated.
    assert_eq!(restored.addresses, Resources::new()?.addresses);
    println!("restored and emptied, then:");
    println!("{}", restored.addresses.layout());
    Ok(())
}
