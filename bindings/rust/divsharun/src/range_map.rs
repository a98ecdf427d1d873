// SPDX-License-Identifier: Apache-2.0 OR BSD-3-Clause
use crate::address_allocator::part_of;
use crate::convert::{refused_items, with_items};
use crate::error::{AllResult, HeldResult, TryAllResult, TryHeldResult};
use crate::error::{TryResult, TryValueResult, ValueResult};
use crate::proved::vm_addresses::{self, AddressAllocator};
use crate::proved::vm_range_map as proved;
use crate::rattle::{self, Global};
use crate::traits::{allocator, iterate, twins, DebugList};
use crate::{AllocPolicy, Conflict, Constraint, Gaps, RangeInclusive, Result, Window};
use alloc::vec::Vec;
use core::fmt;

/// Allocates ranges of addresses from one space, and keeps a value with each allocated range, such as
/// the device on a bus.
///
/// Ranges are allocated, moved and freed as by an
/// [`AddressAllocator`](crate::AddressAllocator). A range keeps its value when it moves.
///
/// Two maps are equal if and only if they have the same space and the same ranges with equal values.
///
/// # Example
///
/// ```rust
/// use divsharun::{AllocPolicy, Error, RangeMap};
///
/// let mut bus = RangeMap::new(0xd000_0000, 0x2ec0_0000)?;
/// let disk = bus.allocate(0x1000, 0x1000, AllocPolicy::FirstMatch, "disk")?;
/// bus.allocate(0x1000, 0x1000, AllocPolicy::FirstMatch, "net")?;
///
/// // The guest accesses this address.
/// assert_eq!(bus.get(0xd000_0010), Some((disk, &"disk")));
/// assert_eq!(bus.get(0xd000_2000), None);
///
/// assert_eq!(bus.free(&disk)?, "disk");
/// assert_eq!(bus.free(&disk), Err(Error::ResourceNotAvailable));
/// # Ok::<(), Error>(())
/// ```
pub struct RangeMap<T>(pub(crate) proved::RangeMap<T>);

impl<T> RangeMap<T> {
    twins! {
        /// Creates a map of the `size` addresses starting at `base`. All of them are free.
        ///
        /// # Errors
        ///
        /// In this order:
        /// - `Underflow` if `size` is 0.
        /// - `Overflow` if the last address would be past `u64::MAX`.
        ///
        /// # Example
        ///
        /// ```rust
        /// use divsharun::{Error, RangeMap};
        ///
        /// let ports: RangeMap<&str> = RangeMap::new(0, 0x1_0000)?;
        /// assert_eq!(ports.held_count(), 0);
        /// assert_eq!(RangeMap::<&str>::new(u64::MAX, 2), Err(Error::Overflow));
        /// # Ok::<(), Error>(())
        /// ```
        pub fn new(base: u64, size: u64) -> Result<Self> {
            Ok(RangeMap(proved::RangeMap::new(Global, base, size)?))
        }

        /// # Example
        ///
        /// ```rust
        /// use divsharun::{Error, RangeMap, TryError};
        ///
        /// let bus: RangeMap<u32> = RangeMap::try_new(0xe000_0000, 0x1000_0000)?;
        /// assert_eq!(bus.space().len(), 0x1000_0000);
        /// let empty = RangeMap::<u32>::try_new(0xe000_0000, 0);
        /// assert_eq!(empty, Err(TryError::Refused(Error::Underflow)));
        /// # Ok::<(), TryError>(())
        /// ```
        pub fn try_new -> TryResult;
    }

    twins! {
        /// Creates a map of the `size` addresses starting at `base`, with these ranges allocated. They must
        /// be in ascending order.
        ///
        /// The map is equal to one that allocated the ranges by `ExactMatch`.
        ///
        /// # Errors
        ///
        /// An error returns the list.
        /// - The error of [`AddressAllocator::with_held`](crate::AddressAllocator::with_held).
        ///
        /// # Example
        ///
        /// ```rust
        /// use divsharun::{Conflict, Error, RangeInclusive, RangeMap};
        ///
        /// let [rom, ram] = [(0x1000, 0x1fff), (0x3000, 0x3fff)]
        ///     .map(|(start, end)| RangeInclusive::new(start, end).expect("a range"));
        /// let bus = RangeMap::with_held(0, 0x4000, vec![(rom, "rom"), (ram, "ram")])?;
        /// assert_eq!(bus.get(0x3010), Some((ram, &"ram")));
        ///
        /// let list = vec![(ram, "ram"), (rom, "rom")];
        /// let refused = RangeMap::with_held(0, 0x4000, list.clone()).unwrap_err();
        /// assert_eq!((refused.error.index, refused.value), (Some(1), list));
        /// assert_eq!(refused.error.error, Error::ResourceNotAvailable);
        /// assert_eq!(refused.error.conflict, Some(Conflict::NotAfter(ram)));
        /// # Ok::<(), Error>(())
        /// ```
        #[doc(alias = "from_iter")]
        pub fn with_held(base: u64, size: u64, held: Vec<(RangeInclusive, T)>) -> HeldResult<T> {
            let space = vm_addresses::RangeInclusive::from_start_len(base, size).ok();
            let made = with_items(
                space,
                (held, |range| range.0, RangeInclusive),
                |_, held| proved::RangeMap::with_held(Global, base, size, held),
                |space, held, index| AddressAllocator::list_conflict(&space?, held, index),
            );
            Ok(RangeMap(made?))
        }

        pub fn try_with_held -> TryHeldResult;

        /// Allocates a range for each request, in their order, and returns the ranges. Each range gets the
        /// value of its request, and is where [`allocate_constraint`](Self::allocate_constraint) places it
        /// after the requests before it.
        ///
        /// # Errors
        ///
        /// An error returns the list. It allocates no range, and all later calls have the same results.
        /// - The error of [`AddressAllocator::allocate_all`](crate::AddressAllocator::allocate_all).
        ///
        /// # Example
        ///
        /// ```rust
        /// use divsharun::{AllocPolicy, Constraint, Error, RangeMap};
        ///
        /// let mut bus = RangeMap::new(0xd000_0000, 0x4000)?;
        /// let registers = Constraint::new(0x1000, 0x1000, AllocPolicy::FirstMatch)?;
        /// let buffer = Constraint::new(0x2000, 0x2000, AllocPolicy::LastMatch)?;
        /// let bars = bus.allocate_all(vec![(registers, "registers"), (buffer, "buffer")])?;
        /// assert_eq!(bus.get(0xd000_2000), Some((bars[1], &"buffer")));
        ///
        /// // Only one of these two fits.
        /// let list = vec![(registers, "disk"), (registers, "net")];
        /// let refused = bus.allocate_all(list.clone()).unwrap_err();
        /// assert_eq!((refused.error.index, refused.value), (Some(1), list));
        /// assert_eq!(refused.error.error, Error::ResourceNotAvailable);
        /// assert_eq!(bus.held_count(), 2);
        /// # Ok::<(), Error>(())
        /// ```
        pub fn allocate_all(&mut self, requests: Vec<(Constraint, T)>) -> AllResult<T> {
            // Nothing can fail after the allocation of the ranges.
            let Ok(ranges) = rattle::Vec::with_capacity(Global, requests.len()) else {
                return Err(refused_items(requests));
            };
            let mut ranges = Vec::from(ranges);
            let allocated = with_items(
                &mut self.0,
                (requests, |request| request.0, Constraint),
                |map, requests| map.allocate_all(Global, requests),
                |map, requests, index| {
                    let (earlier, request) = (requests.get(..index)?, *requests.get(index)?);
                    let mut space = map.addresses().try_clone(Global).ok()?;
                    space.conflict_after(Global, earlier, request).ok()?
                },
            )?;
            ranges.extend(allocated.iter().map(|range| RangeInclusive(*range)));
            Ok(ranges)
        }

        /// `OutOfMemory` has no index if memory for a list or for a value runs out.
        pub fn try_allocate_all -> TryAllResult;
    }

    twins! {
        /// Allocates `size` free addresses that start at a multiple of `alignment`, keeps `value` with their
        /// range, and returns the range. `policy` chooses the range as in
        /// [`AddressAllocator::allocate`](crate::AddressAllocator::allocate).
        ///
        /// # Errors
        ///
        /// An error returns `value` and changes nothing.
        /// - `InvalidSize`, `InvalidAlignment`, `UnalignedAddress`, `Overflow`, `ResourceNotAvailable` or
        ///   `InvalidStateTransition`, as for
        ///   [`AddressAllocator::allocate`](crate::AddressAllocator::allocate).
        ///
        /// # Example
        ///
        /// ```rust
        /// use divsharun::{AllocPolicy, Error, RangeMap};
        ///
        /// let mut bus = RangeMap::new(0xc000_0000, 0x3ec0_0000)?;
        /// let frames = bus.allocate(0x100_0000, 0x100_0000, AllocPolicy::FirstMatch, "frames")?;
        /// assert_eq!(frames.start(), 0xc000_0000);
        ///
        /// let exact = AllocPolicy::ExactMatch(frames.start());
        /// let refused = bus.allocate(0x1000, 0x1000, exact, "net").unwrap_err();
        /// assert_eq!((refused.error, refused.value), (Error::ResourceNotAvailable, "net"));
        /// assert_eq!(bus.get(frames.start()), Some((frames, &"frames")));
        /// # Ok::<(), Error>(())
        /// ```
        #[doc(alias("alloc", "insert"))]
        pub fn allocate(
            &mut self,
            size: u64,
            alignment: u64,
            policy: AllocPolicy,
            value: T,
        ) -> ValueResult<T> {
            Ok(RangeInclusive(self.0.allocate(Global, size, alignment, policy, value)?))
        }

        pub fn try_allocate -> TryValueResult;

        /// Allocates a range like [`allocate`](Self::allocate), for a request that was made before. If the
        /// request has a [window](Constraint::within), the range lies in it.
        ///
        /// # Errors
        ///
        /// An error returns `value` and changes nothing.
        /// - `Overflow`, `ResourceNotAvailable` or `InvalidStateTransition`, as for
        ///   [`AddressAllocator::allocate_constraint`](crate::AddressAllocator::allocate_constraint).
        ///
        /// # Example
        ///
        /// ```rust
        /// use divsharun::{AllocPolicy, Constraint, RangeMap};
        ///
        /// let mut bus = RangeMap::new(0xc000_0000, 0x2_0000_0000)?;
        /// let bar = Constraint::new(0x1000, 0x1000, AllocPolicy::LastMatch)?;
        /// let disk = bus.allocate_constraint(bar.within(..=0xffff_ffff)?, "disk")?;
        /// assert_eq!(disk.start(), 0xffff_f000);
        /// # Ok::<(), divsharun::Error>(())
        /// ```
        pub fn allocate_constraint(&mut self, request: Constraint, value: T) -> ValueResult<T> {
            Ok(RangeInclusive(self.0.allocate_constraint(Global, request.0, value)?))
        }

        pub fn try_allocate_constraint -> TryValueResult;
    }

    twins! {
        /// Moves an allocated range to the place of a request, and returns the range there. It keeps its
        /// value. The range can overlap the one before.
        ///
        /// # Errors
        ///
        /// An error changes nothing.
        /// - The error of
        ///   [`AddressAllocator::move_constraint`](crate::AddressAllocator::move_constraint).
        ///
        /// # Example
        ///
        /// ```rust
        /// use divsharun::{AllocPolicy, Constraint, Error, RangeMap};
        ///
        /// let mut bus = RangeMap::new(0xfe00_0000, 0x20_0000)?;
        /// let net = bus.allocate(0x4000, 0x4000, AllocPolicy::FirstMatch, "net")?;
        /// // The guest programs its BAR.
        /// let bar = Constraint::new(0x4000, 0x4000, AllocPolicy::ExactMatch(0xfe10_0000))?;
        /// let moved = bus.move_constraint(&net, bar)?;
        /// assert_eq!(bus.get(0xfe10_0000), Some((moved, &"net")));
        /// assert_eq!(bus.move_constraint(&net, bar), Err(Error::ResourceNotAvailable));
        /// # Ok::<(), Error>(())
        /// ```
        #[doc(alias = "resize")]
        pub fn move_constraint(
            &mut self,
            range: &RangeInclusive,
            request: Constraint,
        ) -> Result<RangeInclusive> {
            Ok(RangeInclusive(self.0.move_constraint(Global, &range.0, request.0)?))
        }

        pub fn try_move_constraint -> TryResult;
    }

    /// Frees an allocated range, and returns its value. It does not allocate memory, and always succeeds
    /// for an allocated range.
    ///
    /// # Errors
    ///
    /// An error changes nothing.
    /// - `ResourceNotAvailable` if exactly this range is not allocated. A part of an allocated range
    ///   cannot be freed.
    ///
    /// # Example
    ///
    /// ```rust
    /// use divsharun::{AllocPolicy, Error, RangeInclusive, RangeMap};
    ///
    /// let mut bus = RangeMap::new(0xd000_0000, 0x1000_0000)?;
    /// let bar = bus.allocate(0x4000, 0x4000, AllocPolicy::FirstMatch, "net")?;
    /// let page = RangeInclusive::from_start_len(bar.start(), 0x1000)?;
    /// assert_eq!(bus.free(&page), Err(Error::ResourceNotAvailable));
    /// assert_eq!(bus.free(&bar), Ok("net"));
    /// # Ok::<(), Error>(())
    /// ```
    #[doc(alias("release", "remove"))]
    pub fn free(&mut self, range: &RangeInclusive) -> Result<T> {
        Ok(self.0.free(&range.0)?)
    }

    /// Returns the allocated range that contains an address, and its value, or `None` if the address is
    /// free or outside the space.
    ///
    /// It walks one path of the tree, looks up one entry of a table, and does not allocate.
    ///
    /// # Example
    ///
    /// ```rust
    /// use divsharun::{AllocPolicy, RangeMap};
    ///
    /// let mut ports = RangeMap::new(0, 0x1_0000)?;
    /// let serial = ports.allocate(8, 8, AllocPolicy::ExactMatch(0x2f8), "serial")?;
    /// assert_eq!(ports.get(0x2ff), Some((serial, &"serial")));
    /// assert_eq!(ports.get(0x300), None);
    /// # Ok::<(), divsharun::Error>(())
    /// ```
    #[doc(alias("find", "held_at"))]
    #[must_use]
    pub fn get(&self, address: u64) -> Option<(RangeInclusive, &T)> {
        let (range, value) = self.0.get(address)?;
        Some((RangeInclusive(range), value))
    }

    /// Returns the allocated range that contains an address, and its value to change it, or `None` if the
    /// address is free or outside the space.
    ///
    /// # Example
    ///
    /// ```rust
    /// use divsharun::{AllocPolicy, RangeMap};
    ///
    /// let mut ports = RangeMap::new(0, 0x1_0000)?;
    /// let serial = ports.allocate(8, 8, AllocPolicy::FirstMatch, 0)?;
    /// if let Some((_, accesses)) = ports.get_mut(5) {
    ///     *accesses += 1;
    /// }
    /// assert_eq!(ports.get(0), Some((serial, &1)));
    /// # Ok::<(), divsharun::Error>(())
    /// ```
    #[must_use]
    pub fn get_mut(&mut self, address: u64) -> Option<(RangeInclusive, &mut T)> {
        let range = self.0.addresses().held_at(address)?;
        let value = self.0.get_mut(range.start())?;
        Some((RangeInclusive(range), value))
    }

    /// Returns an iterator over the allocated ranges with their values, in ascending order.
    ///
    /// The length of the iterator is exact, and it does not allocate.
    ///
    /// # Example
    ///
    /// ```rust
    /// use divsharun::{AllocPolicy, RangeMap};
    ///
    /// let mut bus = RangeMap::new(0xd000_0000, 0x2ec0_0000)?;
    /// let net = bus.allocate(0x1000, 0x1000, AllocPolicy::LastMatch, "net")?;
    /// let disk = bus.allocate(0x1000, 0x1000, AllocPolicy::LastMatch, "disk")?;
    /// assert!(bus.iter().eq([(disk, &"disk"), (net, &"net")]));
    /// # Ok::<(), divsharun::Error>(())
    /// ```
    #[must_use]
    pub fn iter(&self) -> ValuedRanges<'_, T> {
        ValuedRanges(self.0.iter())
    }

    /// Returns an iterator over the allocated ranges that have an address in common with a window, with
    /// their values, in ascending order.
    ///
    /// The window is a range of `u64` or a [`RangeInclusive`]. Each range is returned whole. It walks one
    /// path of the tree for each end of the window, looks each value up, and does not allocate.
    ///
    /// # Example
    ///
    /// ```rust
    /// use divsharun::{AllocPolicy, RangeMap};
    ///
    /// let mut bus = RangeMap::new(0xd000_0000, 0x2ec0_0000)?;
    /// let disk = bus.allocate(0x4000, 0x4000, AllocPolicy::FirstMatch, "disk")?;
    /// let net = bus.allocate(0x4000, 0x4000, AllocPolicy::FirstMatch, "net")?;
    /// assert!(bus.held_ranges_in(0xd000_3000..0xd000_8000).rev().eq([(net, &"net"), (disk, &"disk")]));
    /// assert_eq!(bus.held_ranges_in(0xd000_8000..).next(), None);
    /// # Ok::<(), divsharun::Error>(())
    /// ```
    #[must_use]
    pub fn held_ranges_in(&self, window: impl Window) -> ValuedRangesIn<'_, T> {
        ValuedRangesIn(self.0.held_ranges_in(&part_of(self.space(), window).0))
    }

    /// Returns an iterator over the gaps in ascending order, as by
    /// [`AddressAllocator::gaps`](crate::AddressAllocator::gaps).
    ///
    /// # Example
    ///
    /// ```rust
    /// use divsharun::{AllocPolicy, RangeMap};
    ///
    /// let mut ports = RangeMap::new(0, 0x100)?;
    /// ports.allocate(0x10, 1, AllocPolicy::ExactMatch(0x40), "video")?;
    /// let gaps: Vec<_> = ports.gaps().map(|gap| gap.to_string()).collect();
    /// assert_eq!(gaps, ["0-3f", "50-ff"]);
    /// # Ok::<(), divsharun::Error>(())
    /// ```
    #[doc(alias("free_ranges", "holes"))]
    #[must_use]
    pub fn gaps(&self) -> Gaps<'_> {
        Gaps(self.0.addresses().gaps())
    }

    /// Returns the reason why the range of an `ExactMatch` request is not free, or `None` if it is free, as
    /// by [`AddressAllocator::conflict`](crate::AddressAllocator::conflict).
    ///
    /// # Example
    ///
    /// ```rust
    /// use divsharun::{AllocPolicy, Conflict, Constraint, RangeMap};
    ///
    /// let mut ports = RangeMap::new(0, 0x1_0000)?;
    /// let serial = ports.allocate(8, 8, AllocPolicy::ExactMatch(0x3f8), "serial")?;
    ///
    /// let video = Constraint::new(0x30, 0x10, AllocPolicy::ExactMatch(0x3d0))?;
    /// let refused = ports.allocate_constraint(video, "video").unwrap_err();
    /// assert_eq!(ports.conflict(video), Some(Conflict::Allocated(serial)));
    ///
    /// ports.free(&serial)?;
    /// assert_eq!(ports.conflict(video), None);
    /// ports.allocate_constraint(video, refused.value)?;
    /// # Ok::<(), divsharun::Error>(())
    /// ```
    #[must_use]
    pub fn conflict(&self, request: Constraint) -> Option<Conflict> {
        self.0.addresses().conflict(request.0).map(Into::into)
    }

    /// Returns the reason why the range of an `ExactMatch` request is not free if `range` is free, as by
    /// [`AddressAllocator::move_conflict`](crate::AddressAllocator::move_conflict). So `range` is never the
    /// reason. Returns `None` if exactly `range` is not allocated.
    ///
    /// # Example
    ///
    /// ```rust
    /// use divsharun::{AllocPolicy, Conflict, Constraint, RangeMap};
    ///
    /// let mut bus = RangeMap::new(0xd000_0000, 0x1000_0000)?;
    /// let bar = bus.allocate(0x4000, 0x4000, AllocPolicy::FirstMatch, "net")?;
    /// let next = bus.allocate(0x4000, 0x4000, AllocPolicy::FirstMatch, "disk")?;
    ///
    /// let larger = Constraint::new(0x8000, 0x8000, AllocPolicy::ExactMatch(bar.start()))?;
    /// assert!(bus.move_constraint(&bar, larger).is_err());
    /// assert_eq!(bus.move_conflict(&bar, larger), Some(Conflict::Allocated(next)));
    /// # Ok::<(), divsharun::Error>(())
    /// ```
    #[must_use]
    pub fn move_conflict(&self, range: &RangeInclusive, request: Constraint) -> Option<Conflict> {
        let conflict = self.0.addresses().move_conflict(&range.0, request.0);
        conflict.map(Into::into)
    }

    /// Returns the number of allocated ranges in constant time.
    ///
    /// # Example
    ///
    /// ```rust
    /// use divsharun::{AllocPolicy, RangeMap};
    ///
    /// let mut bus = RangeMap::new(0xa00_0000, 0x4000)?;
    /// while bus.allocate(0x200, 0x200, AllocPolicy::FirstMatch, ()).is_ok() {}
    /// assert_eq!(bus.held_count(), 32);
    /// # Ok::<(), divsharun::Error>(())
    /// ```
    #[doc(alias("is_empty", "len"))]
    #[must_use]
    pub fn held_count(&self) -> u64 {
        self.0.addresses().held_count()
    }

    /// Returns the space: the range of all addresses, free or allocated.
    ///
    /// # Example
    ///
    /// ```rust
    /// use divsharun::RangeMap;
    ///
    /// let bus: RangeMap<()> = RangeMap::new(0xe000_0000, 0x1ec0_0000)?;
    /// assert_eq!(bus.space().to_string(), "e0000000-febfffff");
    /// # Ok::<(), divsharun::Error>(())
    /// ```
    #[must_use]
    pub fn space(&self) -> RangeInclusive {
        RangeInclusive(self.0.space())
    }

    /// Returns a copy, or an error if memory runs out. A clone of a value that allocates memory can still
    /// end the process.
    ///
    /// # Errors
    ///
    /// - `OutOfMemory` if memory for a node, for an index or for the list of the values runs out.
    pub fn try_clone(&self) -> TryResult<Self>
    where
        T: Clone,
    {
        Ok(RangeMap(self.0.try_clone(Global)?))
    }
}

allocator! {
    RangeMap<T>, ValuedRanges of (RangeInclusive, &'a T), "the allocated ranges with their values"
}

impl<T: PartialEq> PartialEq for RangeMap<T> {
    fn eq(&self, other: &Self) -> bool {
        self.0 == other.0
    }
}

impl<T: Eq> Eq for RangeMap<T> {}

/// Writes the space, and the ranges with their values.
impl<T: fmt::Debug> fmt::Debug for RangeMap<T> {
    fn fmt(&self, f: &mut fmt::Formatter<'_>) -> fmt::Result {
        f.debug_struct("RangeMap")
            .field("space", &self.space())
            .field("ranges", &DebugList(|| self.iter()))
            .finish()
    }
}

/// An iterator over the allocated ranges of a [`RangeMap`] with their values, in ascending order or from
/// both ends. Its length is exact.
///
/// It is created by [`iter`](RangeMap::iter).
pub struct ValuedRanges<'a, T>(proved::ValuedRanges<'a, T>);

/// An iterator over the allocated ranges of a [`RangeMap`] that have an address in common with a window,
/// with their values, in ascending order or from both ends.
///
/// It is created by [`held_ranges_in`](RangeMap::held_ranges_in).
pub struct ValuedRangesIn<'a, T>(proved::ValuedRangesIn<'a, T>);

iterate! {
    ValuedRanges<T>, ValuedRangesIn<T>: (RangeInclusive, &'a T),
    |_ranges, found| (RangeInclusive(found.0), found.1)
}

impl<T> ExactSizeIterator for ValuedRanges<'_, T> {}

impl<T> Clone for ValuedRanges<'_, T> {
    fn clone(&self) -> Self {
        ValuedRanges(self.0.clone())
    }
}

impl<T> Clone for ValuedRangesIn<'_, T> {
    fn clone(&self) -> Self {
        ValuedRangesIn(self.0.clone())
    }
}
