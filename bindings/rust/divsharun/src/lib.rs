// SPDX-License-Identifier: Apache-2.0 OR BSD-3-Clause
//! Allocators of address ranges and ids for the devices of a virtual machine: MMIO and PIO windows,
//! PCI BARs, interrupts and memory slots.
//!
//! The API is that of the crate `vm-allocator` 0.1.4. Its core is proved: allocated ranges never
//! overlap, a request gets a range of its alignment, and an error changes no range.
//!
//! - [`AddressAllocator`] allocates ranges of 64-bit addresses from one space.
//! - [`IdAllocator`] allocates 32-bit ids from a range, the lowest free id first.
//! - [`DeviceManager`] gives each device an id and a range. If it cannot have both, it gets
//!   neither.
//! - [`RangeMap`] allocates ranges like an address allocator, and keeps a value with each range.
//!
//! ```rust
//! use divsharun::{AddressAllocator, AllocPolicy, Constraint, IdAllocator, RangeInclusive, Result};
//!
//! // The gap below 4 GiB, with what is there on x86 allocated from the start: the I/O APIC, the local
//! // APICs with MSI, and the firmware.
//! let taken = [
//!     RangeInclusive::from_start_len(0xfec0_0000, 0x1000)?,
//!     RangeInclusive::from_start_len(0xfee0_0000, 0x10_0000)?,
//!     RangeInclusive::from_start_len(0xffc0_0000, 0x40_0000)?,
//! ];
//! let mut mmio = AddressAllocator::with_held(0xd000_0000, 0x3000_0000, &taken)?;
//! let mut interrupts = IdAllocator::new(5, 23)?;
//!
//! let window = mmio.allocate(0x1000, 0x1000, AllocPolicy::FirstMatch)?;
//! assert_eq!((window.start(), window.len()), (0xd000_0000, 0x1000));
//! assert_eq!(interrupts.allocate_id()?, 5);
//!
//! mmio.free(&window)?;
//!
//! // A request can have a window, in which its range must lie.
//! let request = Constraint::new(0x1000, 0x1000, AllocPolicy::LastMatch)?;
//! assert_eq!(mmio.allocate_constraint(request.within(..=0xdfff_ffff)?)?.start(), 0xdfff_f000);
//! # Ok::<(), divsharun::Error>(())
//! ```
//!
//! # Switching from `vm-allocator`
//!
//! Change one line of Cargo.toml, as the README shows. No line of Rust changes.
//!
//! Results differ where that crate has bugs. `docs/DIFFERENCES.md` in the repository lists each
//! difference. `vm-allocator` has these items, and all others are new:
//!
//! - of an [`AddressAllocator`]: [`new`](AddressAllocator::new),
//!   [`allocate`](AddressAllocator::allocate), [`free`](AddressAllocator::free),
//!   [`base`](AddressAllocator::base) and [`end`](AddressAllocator::end);
//! - of an [`IdAllocator`]: [`new`](IdAllocator::new), [`allocate_id`](IdAllocator::allocate_id),
//!   [`is_allocated`](IdAllocator::is_allocated) and [`free_id`](IdAllocator::free_id);
//! - of a [`Constraint`]: [`new`](Constraint::new), [`align`](Constraint::align) and
//!   [`size`](Constraint::size);
//! - of a [`RangeInclusive`]: [`new`](RangeInclusive::new), [`len`](RangeInclusive::len),
//!   [`overlaps`](RangeInclusive::overlaps), [`contains`](RangeInclusive::contains),
//!   [`start`](RangeInclusive::start) and [`end`](RangeInclusive::end);
//! - [`AllocPolicy`], [`DEFAULT_CONSTRAINT_ALIGN`], [`Error`] and [`Result`].
//!
//! # Out of memory
//!
//! If memory runs out, the process ends, as with Rust's collections: a program with `std` aborts, and
//! one without it panics. To handle the error instead, use the `try_` variants, for example
//! [`AddressAllocator::try_allocate`], [`IdAllocator::try_free_id`] and
//! [`DeviceManager::try_reserve`]. All calls that allocate have one, except the counted ones. They
//! return a [`TryError`], and then the same ranges and ids are allocated as before. Both kinds can be
//! called on the same object.
//!
//! With serde, it is an error of the format if memory runs out. A view that `try_saved` returns
//! is saved without allocating memory. The memory of a format is its own: serde_json ends the process
//! if memory for its text runs out.
//!
//! Freeing a range, [`IdAllocator::allocate_id`], comparisons and queries do not allocate.
//!
//! # Costs
//!
//! Let k be the number of allocated ranges. Allocating, moving and freeing a range takes time of the
//! order of log k, and so do `peek`, `conflict`, `move_conflict`, `holds`, `held_at` and `gap_at`. An alignment can make the
//! search for a range visit more gaps. A walk within a range takes time of the order of log k, plus the
//! number of ranges and gaps in it. Calls on one id, device or range of a map take logarithmic time, also
//! if they skip ids. An allocation in a map can also move its values, in linear time. Counts, ends and
//! `longest_gap` take constant time. `height` and `last` of an iterator take logarithmic time, and `count` of
//! an iterator with an exact length constant time. Other calls of allocators, managers and maps take at most
//! linear time.
//!
//! The allocated ranges and gaps are in leaves of 280 bytes, with 12 to 32 of them in each leaf. A tree that
//! is one leaf can have fewer. Other trees have inner nodes of 464 bytes, with 5 to 16 children each, and at
//! least 2 in the root. Allocating or moving a range allocates nothing if its leaf has room. Otherwise it
//! allocates a leaf, a node for each full node right above the leaf, one for a new root if all are full, and
//! a list of these nodes. A move to a part of the gap that it leaves always allocates a leaf, and a list of
//! nodes for the highest tree of these ranges. `allocate_all` also allocates three lists, and two more if a
//! request fails. A copy allocates all leaves and nodes, `with_held` also a list, and `with_free` two. Reserving or moving a device, freeing, skipping or copying ids, and keeping, moving or
//! copying the values of a map can allocate.
//!
//! # Threads
//!
//! All types are `Send` and `Sync`, and a map is if its values are. Calls that change an allocator take
//! `&mut self`, so threads share it behind a lock:
//!
//! ```rust
//! use divsharun::{AddressAllocator, AllocPolicy, RangeInclusive, Result};
//! use std::sync::{Arc, Mutex};
//! use std::thread;
//!
//! let mmio = Arc::new(Mutex::new(AddressAllocator::new(0xd000_0000, 0x2ec0_0000)?));
//! let workers: Vec<_> = (0..4)
//!     .map(|_| {
//!         let mmio = Arc::clone(&mmio);
//!         thread::spawn(move || -> Result<RangeInclusive> {
//!             let mut mmio = mmio.lock().expect("no call panics");
//!             mmio.allocate(0x1000, 0x1000, AllocPolicy::FirstMatch)
//!         })
//!     })
//!     .collect();
//! for worker in workers {
//!     worker.join().expect("no call panics")?;
//! }
//! assert_eq!(mmio.lock().expect("no call panics").held_count(), 4);
//! # Ok::<(), divsharun::Error>(())
//! ```
//!
//! # What is proved
//!
//! The allocators and managers are proved for every input, for the sources in Rattle. The private module
//! `proved` is generated from these sources by removing their contracts. `docs/PROVED.md` in the
//! repository lists what is trusted. These parts are written by hand and tested:
//!
//! - the private module `rattle`, which replaces Rattle's library;
//! - conversions, [`layout`](AddressAllocator::layout) with its picture,
//!   [`contains_address`](RangeInclusive::contains_address),
//!   [`intersection`](RangeInclusive::intersection) and texts;
//! - the readers and writers of formats.
//!
//! # Features
//!
//! Without features, the crate has no dependency, and it does not need `std`.
//!
//! - `serde` implements `Serialize` and `Deserialize` for [`RangeInclusive`], [`NodeState`],
//!   [`AddressAllocator`], [`IdAllocator`], [`DeviceManager`], [`DeviceSlot`], [`AllocPolicy`],
//!   [`Constraint`], and a [`RangeMap`] of values that have them.
//! - `std`, a default feature, adds the module `replay` and the program `divsharun-replay`.
//!
//! # Saved values
//!
//! `Strict<AddressAllocator>` reads what this crate saved, and a missing subtree is an error. It can be a
//! field, or be in an `Option`, a list or a map.
//!
//! The `Deserialize` of an [`AddressAllocator`] repairs the trees that bugs of `vm-allocator` led to. It
//! reads missing nodes as gaps, so allocated ranges can be missing without an error.
//!
//! A monitor that knows its ranges can check the result of either reader:
//! `AddressAllocator::with_held(base, size, &sorted)? == space`.
//!
//! Ranges, states, address allocators and id allocators have the fields of `vm-allocator` in the same
//! order. So either crate reads what the other wrote, in every format that writes `None`. TOML leaves it
//! out, so a tree, and ids without a next one, cannot be read from it. A [`Constraint`] is saved with its
//! window, and read only if [`Constraint::new`] accepts it.
//!
//! The tree of an address allocator is written balanced. Its shape depends only on the space and the
//! allocated ranges, so equal address allocators have the same bytes. A [`DeviceManager`] is saved as
//! its version, both allocators, and its devices in ascending order of ids.
//!
//! A [`RangeMap`] is saved as its `base`, its `size` and a list `ranges`, in ascending order. Each item has
//! a `range` and its `value`. The reader allocates each range, in any order. Its error is that of the range
//! that cannot be allocated.
//!
//! Proved code accepts the nodes, ids and devices of a value if and only if they are valid. Any other
//! value is an error of the format. An address allocator is valid under these conditions:
//!
//! - The fields are those that this crate writes, and each number fits its type.
//! - The keys of the nodes, in order, ascend, share no address and are inside the space.
//! - At most 6,293,134,512 keys are allocated, and none of these ends at `u64::MAX`.
//!
//! The height of a node can be any `u64`, and the tree can be unbalanced, empty, or have gaps and
//! free neighbours. The allocated keys become the allocated ranges of a new tree. `Strict`, and the
//! reader of the space of a [`DeviceManager`], accept fewer values: heights must be correct, and the
//! tree must be balanced, without gaps and free neighbours.
//!
//! Nodes that are nested more than 50 deep are an error before they are checked.
//!
//! An address allocator is written from a list of its blocks, and read into a list of its allocated
//! ranges, in 16 bytes for each. The ids of an allocator are read without another list, and devices
//! into a list of them, in 24 bytes for each. A list of ranges has at most an eighth more capacity
//! than it needs, and one of devices at most twice as much. A reader of nodes also keeps less than
//! 8 KiB for a list of the nodes that it is in.
//!
//! An error names the unknown, missing or duplicate field or the unknown variant, or the condition
//! that the value violates.
//!
//! ```rust
//! # #[cfg(feature = "serde")]
//! # fn main() -> Result<(), Box<dyn std::error::Error>> {
//! use divsharun::{AddressAllocator, AllocPolicy, Strict};
//!
//! let mut mmio = AddressAllocator::new(0xd000_0000, 0x2ec0_0000)?;
//! let bar = mmio.allocate(0x1000, 0x1000, AllocPolicy::FirstMatch)?;
//! let saved = serde_json::to_string(&mmio)?;
//! let read: Strict<AddressAllocator> = serde_json::from_str(&saved)?;
//! assert_eq!(*read, AddressAllocator::with_held(0xd000_0000, 0x2ec0_0000, &[bar])?);
//!
//! let unknown = saved.replace("Free", "Clear");
//! assert!(serde_json::from_str::<Strict<AddressAllocator>>(&unknown).is_err());
//! # Ok(())
//! # }
//! # #[cfg(not(feature = "serde"))]
//! # fn main() {}
//! ```
#![cfg_attr(not(test), no_std)]
// The documentation on docs.rs shows which feature an item needs.
#![cfg_attr(docsrs, feature(doc_cfg))]
#![forbid(unsafe_code)]
#![deny(missing_docs)]
#![warn(clippy::must_use_candidate, clippy::return_self_not_must_use)]

extern crate alloc;
#[cfg(feature = "std")]
extern crate std;

mod address_allocator;
mod conflict;
mod constraint;
mod convert;
mod device_manager;
mod error;
mod id_allocator;
mod layout;
mod pad;
// The eraser writes it. Without `serde`, nothing reaches the calls for saved objects, and without
// `std`, nothing reaches those that only `vm_lines` makes.
#[cfg_attr(not(all(feature = "serde", feature = "std")), allow(dead_code))]
mod proved;
mod range;
mod range_map;
mod rattle;
#[cfg(feature = "std")]
pub mod replay;
#[cfg(feature = "serde")]
mod saved;
mod svg;
#[cfg(test)]
mod tests;
mod traits;

pub use address_allocator::{AddressAllocator, Gaps, GapsIn, HeldRanges, HeldRangesIn};
pub use conflict::Conflict;
pub use constraint::{Constraint, Window};
pub use device_manager::{DeviceManager, DeviceSlot, Devices, DevicesIn};
pub use error::{Error, ListError, Result, TryError, ValueError};
pub use id_allocator::{HeldIds, HeldIdsIn, IdAllocator};
pub use layout::{Block, Blocks, Layout};
pub use proved::vm_ids::IdRequest;
pub use proved::vm_ranges::{AllocPolicy, NodeState, DEFAULT_CONSTRAINT_ALIGN};
pub use range::{ParseRangeError, RangeInclusive};
pub use range_map::{RangeMap, ValuedRanges, ValuedRangesIn};
#[cfg(feature = "serde")]
pub use saved::{Saved, Strict};

/// Runs the examples of the README as doctests.
#[cfg(doctest)]
#[doc = include_str!("../README.md")]
mod readme {}
