// SPDX-License-Identifier: Apache-2.0 OR BSD-3-Clause
use crate::convert::{list_error, out_of_memory};
use crate::error::{ListResult, TryListResult, TryResult};
use crate::proved::vm_addresses as proved;
use crate::rattle::{self, Global};
use crate::traits::{allocator, iterate, twins, DebugList};
use crate::{
    AllocPolicy, Conflict, Constraint, Error, Layout, ListError, RangeInclusive, Result, Window,
};
use alloc::vec::Vec;
use core::fmt;

/// Allocates ranges of addresses from one space.
///
/// Allocated ranges never overlap, each is inside the space, and none contains `u64::MAX`. A range
/// is inclusive. Sizes and alignments are numbers of addresses.
///
/// Two allocators are equal if and only if they have the same space and the same allocated ranges.
/// The calls that led to them do not matter. They are ordered by space, and then by their blocks,
/// which are the allocated ranges and the gaps. Blocks are compared by start, end and state.
///
/// # Example
///
/// ```rust
/// use divsharun::{AddressAllocator, AllocPolicy, Error};
///
/// // The gap below 4 GiB.
/// let mut mmio = AddressAllocator::new(0xd000_0000, 0x2ec0_0000)?;
/// let window = mmio.allocate(0x1000, 0x1000, AllocPolicy::FirstMatch)?;
/// let other = mmio.allocate(0x1000, 0x1000, AllocPolicy::FirstMatch)?;
/// assert!(!window.overlaps(&other));
///
/// mmio.free(&window)?;
/// assert_eq!(mmio.free(&window), Err(Error::ResourceNotAvailable));
/// assert_eq!(mmio.held_ranges().collect::<Vec<_>>(), [other]);
/// # Ok::<(), Error>(())
/// ```
#[derive(PartialEq, Eq, PartialOrd, Ord)]
pub struct AddressAllocator(pub(crate) proved::AddressAllocator);

impl AddressAllocator {
    twins! {
        /// Creates an allocator for the `size` addresses starting at `base`. All of them are free.
        ///
        /// # Errors
        ///
        /// In this order:
        /// - `Underflow` if `size` is 0.
        /// - `Overflow` if the last address would be past `u64::MAX`.
        ///
        /// # Example
        ///
        /// ```rust
        /// use divsharun::{AddressAllocator, Error};
        ///
        /// // The ports of x86.
        /// let ports = AddressAllocator::new(0, 0x1_0000)?;
        /// assert_eq!((ports.base(), ports.end()), (0, 0xffff));
        /// assert_eq!(AddressAllocator::new(u64::MAX, 2), Err(Error::Overflow));
        /// # Ok::<(), Error>(())
        /// ```
        pub fn new(base: u64, size: u64) -> Result<Self> {
            Ok(Self(proved::AddressAllocator::new(Global, base, size)?))
        }

        /// # Example
        ///
        /// ```rust
        /// use divsharun::{AddressAllocator, Error, TryError};
        ///
        /// let mmio = AddressAllocator::try_new(0xe000_0000, 0x1000_0000)?;
        /// assert_eq!(mmio.free_len(), 0x1000_0000);
        /// assert_eq!(
        ///     AddressAllocator::try_new(0xe000_0000, 0),
        ///     Err(TryError::Refused(Error::Underflow))
        /// );
        /// # Ok::<(), TryError>(())
        /// ```
        pub fn try_new -> TryResult;
    }

    /// Creates an allocator for the addresses of a range, such as the window of a bridge. All of them
    /// are free.
    ///
    /// # Example
    ///
    /// ```rust
    /// use divsharun::{AddressAllocator, AllocPolicy};
    ///
    /// let mut mmio = AddressAllocator::new(0xc000_0000, 0x3ec0_0000)?;
    /// let window = mmio.allocate(0x200_0000, 0x10_0000, AllocPolicy::FirstMatch)?;
    /// let mut bridge = AddressAllocator::over(window);
    /// assert_eq!(bridge.space(), window);
    ///
    /// let bar = bridge.allocate(0x1000, 0x1000, AllocPolicy::FirstMatch)?;
    /// assert!(window.contains(&bar));
    /// # Ok::<(), divsharun::Error>(())
    /// ```
    #[must_use]
    pub fn over(space: RangeInclusive) -> Self {
        Self::try_over(space).unwrap_or_else(|_| out_of_memory())
    }

    /// Creates an allocator like [`over`](Self::over), but returns an error if memory runs out.
    ///
    /// # Errors
    ///
    /// - `OutOfMemory` if memory for the node runs out.
    pub fn try_over(space: RangeInclusive) -> TryResult<Self> {
        Self::try_new(space.start(), space.len())
    }

    twins! {
        /// Creates an allocator for the `size` addresses starting at `base`, with these ranges
        /// allocated. They must be in ascending order.
        ///
        /// The allocator is equal to one that allocated the ranges by `ExactMatch`. Its tree has
        /// the minimum height. The time is linear in the number of ranges.
        ///
        /// # Errors
        ///
        /// In this order. Only the error of a range that cannot be allocated has an index.
        /// - `Underflow` if `size` is 0.
        /// - `Overflow` if the last address would be past `u64::MAX`.
        /// - For the first range that cannot be allocated:
        ///   - `ResourceNotAvailable` if it does not start after the end of the range before it.
        ///   - `Overflow` if it starts at `u64::MAX`.
        ///   - `ResourceNotAvailable` if it is outside the space.
        ///   - `Overflow` if it ends at `u64::MAX`.
        /// - `Overflow` if there are 2^49 or more ranges and gaps.
        ///
        /// # Example
        ///
        /// ```rust
        /// use divsharun::{AddressAllocator, AllocPolicy, Conflict, Error, ListError, RangeInclusive};
        ///
        /// let [low, high] = [(0x1000, 0x1fff), (0x3000, 0x3fff)]
        ///     .map(|(start, end)| RangeInclusive::new(start, end).expect("a range"));
        /// let mut ports = AddressAllocator::with_held(0, 0x4000, &[low, high])?;
        /// assert!(ports.held_ranges().eq([low, high]));
        ///
        /// assert_eq!(ports.allocate(0x1000, 1, AllocPolicy::LastMatch)?.start(), 0x2000);
        /// assert_eq!(
        ///     AddressAllocator::with_held(0, 0x4000, &[high, low]),
        ///     Err(ListError {
        ///         index: Some(1),
        ///         error: Error::ResourceNotAvailable,
        ///         conflict: Some(Conflict::NotAfter(high)),
        ///     })
        /// );
        /// # Ok::<(), Error>(())
        /// ```
        pub fn with_held(base: u64, size: u64, held: &[RangeInclusive]) -> ListResult<Self> {
            let space = proved::RangeInclusive::from_start_len(base, size);
            of_ranges(held, space.ok(), |held| {
                proved::AddressAllocator::with_held(Global, base, size, held)
            })
        }

        /// `OutOfMemory` has no index.
        ///
        /// # Example
        ///
        /// ```rust
        /// use divsharun::{AddressAllocator, Conflict, Error, ListError, RangeInclusive, TryError};
        ///
        /// let held = [RangeInclusive::new(0x1000, 0x1fff)?];
        /// assert_eq!(AddressAllocator::try_with_held(0, 0x4000, &held)?.held_count(), 1);
        /// assert_eq!(
        ///     AddressAllocator::try_with_held(0, 0x1800, &held),
        ///     Err(ListError {
        ///         index: Some(0),
        ///         error: TryError::Refused(Error::ResourceNotAvailable),
        ///         conflict: Some(Conflict::OutsideSpace(RangeInclusive::new(0, 0x17ff)?)),
        ///     })
        /// );
        /// # Ok::<(), TryError>(())
        /// ```
        pub fn try_with_held -> TryListResult;

        /// Creates an allocator in which exactly these ranges are free. They must be in ascending order,
        /// and share no address.
        ///
        /// The space is from the first address of the first range to the last address of the last one. Each
        /// hole between the ranges is an allocated range, and can be freed. Ranges without a hole between
        /// them are one gap. The tree has the minimum height. The time is linear in the number of ranges.
        ///
        /// # Errors
        ///
        /// In this order. Only the error of a range has an index.
        /// - `Underflow` if there is no range.
        /// - `ResourceNotAvailable` for the first range that does not start after the end of the range before
        ///   it.
        /// - `InvalidRange(0, u64::MAX)` if the space would have all 2^64 addresses.
        /// - `Overflow` if there are 2^48 or more holes.
        ///
        /// # Example
        ///
        /// ```rust
        /// use divsharun::{AddressAllocator, AllocPolicy, Conflict, Error, ListError, RangeInclusive};
        ///
        /// // The windows of a host bridge.
        /// let low = RangeInclusive::new(0xc000_0000, 0xfebf_ffff)?;
        /// let high = RangeInclusive::new(0x1_0000_0000, 0x7f_ffff_ffff)?;
        /// let mut mmio = AddressAllocator::with_free(&[low, high])?;
        /// assert!(mmio.gaps().eq([low, high]));
        ///
        /// let bar = mmio.allocate(0x4000_0000, 0x4000_0000, AllocPolicy::FirstMatch)?;
        /// assert_eq!(bar.start(), high.start());
        /// assert_eq!(
        ///     AddressAllocator::with_free(&[high, low]),
        ///     Err(ListError {
        ///         index: Some(1),
        ///         error: Error::ResourceNotAvailable,
        ///         conflict: Some(Conflict::NotAfter(high)),
        ///     })
        /// );
        /// # Ok::<(), Error>(())
        /// ```
        pub fn with_free(free: &[RangeInclusive]) -> ListResult<Self> {
            // The space starts with the first range, so a range is never outside it.
            let space = free.first().map(|first| first.0);
            of_ranges(free, space, |free| {
                proved::AddressAllocator::with_free(Global, free)
            })
        }

        /// `OutOfMemory` has no index.
        pub fn try_with_free -> TryListResult;

        /// Allocates `size` free addresses that start at a multiple of `alignment`, and returns their
        /// range: the lowest for `FirstMatch`, the highest for `LastMatch`, and the range at `start` for
        /// `ExactMatch(start)`.
        ///
        /// # Errors
        ///
        /// An error changes nothing. In this order:
        /// - `InvalidSize(0)` if `size` is 0.
        /// - `InvalidAlignment` if `alignment` is not a power of two.
        /// - For `ExactMatch(start)`:
        ///   - `UnalignedAddress` if `start` is not a multiple of `alignment`.
        ///   - `Overflow` if `start` is `u64::MAX`.
        ///   - `ResourceNotAvailable` if `start` is outside the space.
        ///   - `Overflow` if the range would end past `u64::MAX`.
        ///   - `InvalidStateTransition`, with the range and `Allocated`, if exactly this range is
        ///     already allocated.
        /// - `ResourceNotAvailable` if there is no such range.
        /// - `Overflow` if the chosen range ends at `u64::MAX`, even if another range is free.
        /// - `Overflow` if it fills only a part of its gap and at least 6,293,134,512 ranges are
        ///   allocated.
        ///
        /// # Example
        ///
        /// ```rust
        /// use divsharun::{AddressAllocator, AllocPolicy, Error};
        ///
        /// let mut mmio = AddressAllocator::new(0xc000_0000, 0x3ec0_0000)?;
        /// let registers = mmio.allocate(0x1000, 0x1000, AllocPolicy::FirstMatch)?;
        /// let frames = mmio.allocate(0x100_0000, 0x100_0000, AllocPolicy::FirstMatch)?;
        /// assert_eq!((registers.start(), frames.start()), (0xc000_0000, 0xc100_0000));
        ///
        /// let exact = AllocPolicy::ExactMatch(frames.start());
        /// assert_eq!(mmio.allocate(0x1000, 0x1000, exact), Err(Error::ResourceNotAvailable));
        /// # Ok::<(), Error>(())
        /// ```
        #[doc(alias("alloc", "reserve_range"))]
        pub fn allocate(
            &mut self,
            size: u64,
            alignment: u64,
            policy: AllocPolicy,
        ) -> Result<RangeInclusive> {
            Ok(RangeInclusive(self.0.allocate(Global, size, alignment, policy)?))
        }

        /// A range that fills its gap needs no memory.
        pub fn try_allocate -> TryResult;

        /// Allocates a range like [`allocate`](Self::allocate), for a request that was made before.
        ///
        /// If the request has a [window](Constraint::within), the range lies in it. `FirstMatch` chooses
        /// the lowest range in the window, and `LastMatch` the highest.
        ///
        /// # Errors
        ///
        /// An error changes nothing. In this order:
        /// - For `ExactMatch(start)`:
        ///   - `Overflow` if `start` is `u64::MAX`.
        ///   - `ResourceNotAvailable` if `start` is outside the space or outside the window.
        ///   - `Overflow` if the range would end past `u64::MAX`.
        ///   - `InvalidStateTransition`, with the range and `Allocated`, if exactly this range is
        ///     already allocated, even if it ends past the window.
        /// - `ResourceNotAvailable` if no range fits, or the window and the space have no address in
        ///   common.
        /// - `Overflow` if the chosen range ends at `u64::MAX`, even if another range is free. A window
        ///   that ends below `u64::MAX` avoids this.
        /// - `Overflow` if the range fills only a part of its gap and the number of allocated ranges is at the
        ///   limit of [`allocate`](Self::allocate).
        ///
        /// # Example
        ///
        /// ```rust
        /// use divsharun::{AddressAllocator, AllocPolicy, Constraint, Error, RangeInclusive};
        ///
        /// let mut mmio = AddressAllocator::new(0xd000_0000, 0x3000)?;
        /// let registers = Constraint::new(0x1000, 0x1000, AllocPolicy::LastMatch)?;
        /// assert_eq!(mmio.allocate_constraint(registers)?.start(), 0xd000_2000);
        ///
        /// let window = RangeInclusive::new(0xd000_0000, 0xd000_0fff)?;
        /// let inside = registers.within(window)?;
        /// assert_eq!(mmio.allocate_constraint(inside)?, window);
        /// assert_eq!(mmio.allocate_constraint(inside), Err(Error::ResourceNotAvailable));
        /// # Ok::<(), Error>(())
        /// ```
        pub fn allocate_constraint(&mut self, request: Constraint) -> Result<RangeInclusive> {
            Ok(RangeInclusive(self.0.allocate_constraint(Global, request.0)?))
        }

        /// A range that fills its gap needs no memory.
        pub fn try_allocate_constraint -> TryResult;
    }

    /// Returns the range that [`allocate_constraint`](Self::allocate_constraint) would allocate now, and changes
    /// nothing. So a configuration can be checked before it is begun.
    ///
    /// It searches the tree as `allocate_constraint` does, and does not allocate memory.
    ///
    /// # Errors
    ///
    /// Those of [`allocate_constraint`](Self::allocate_constraint), in the same order: `Overflow`,
    /// `ResourceNotAvailable` and `InvalidStateTransition`.
    ///
    /// # Example
    ///
    /// ```rust
    /// use divsharun::{AddressAllocator, AllocPolicy, Constraint, Error};
    ///
    /// let mut mmio = AddressAllocator::new(0xd000_0000, 0x1_0000)?;
    /// mmio.allocate(0x1000, 0x1000, AllocPolicy::FirstMatch)?;
    ///
    /// let bar = Constraint::new(0x8000, 0x8000, AllocPolicy::FirstMatch)?;
    /// assert_eq!(mmio.peek(bar)?.start(), 0xd000_8000);
    /// assert_eq!(mmio.peek(bar), mmio.allocate_constraint(bar));
    /// assert_eq!(mmio.peek(bar), Err(Error::ResourceNotAvailable));
    /// # Ok::<(), Error>(())
    /// ```
    pub fn peek(&self, request: Constraint) -> Result<RangeInclusive> {
        Ok(RangeInclusive(self.0.peek(request.0)?))
    }

    /// Returns the reason why the range of an `ExactMatch` request is not free, or `None` if it is free.
    ///
    /// It returns the first of these reasons:
    /// - [`OutsideSpace`](Conflict::OutsideSpace) if the range is not in the space.
    /// - [`OutsideWindow`](Conflict::OutsideWindow) if it is not in the window of the request.
    /// - [`Allocated`](Conflict::Allocated) if an allocated range has an address in common with it.
    ///
    /// For the other policies it returns `OutsideSpace` if the window and the space have no address in
    /// common, and otherwise `None`.
    ///
    /// # Example
    ///
    /// ```rust
    /// use divsharun::{AddressAllocator, AllocPolicy, Conflict, Constraint};
    ///
    /// let mut ports = AddressAllocator::new(0, 0x1_0000)?;
    /// let serial = ports.allocate(8, 8, AllocPolicy::ExactMatch(0x3f8))?;
    ///
    /// let video = Constraint::new(0x30, 0x10, AllocPolicy::ExactMatch(0x3d0))?;
    /// assert_eq!(ports.conflict(video), Some(Conflict::Allocated(serial)));
    ///
    /// ports.free(&serial)?;
    /// assert_eq!(ports.conflict(video), None);
    /// # Ok::<(), divsharun::Error>(())
    /// ```
    #[must_use]
    pub fn conflict(&self, request: Constraint) -> Option<Conflict> {
        self.0.conflict(request.0).map(Into::into)
    }

    /// Returns the reason why the range of an `ExactMatch` request is not free if `key` is free, like
    /// [`conflict`](Self::conflict). So `key` is never the reason. Returns `None` if exactly `key` is not
    /// allocated.
    ///
    /// # Example
    ///
    /// ```rust
    /// use divsharun::{AddressAllocator, AllocPolicy, Conflict, Constraint};
    ///
    /// let mut mmio = AddressAllocator::new(0xd000_0000, 0x1000_0000)?;
    /// let bar = mmio.allocate(0x4000, 0x4000, AllocPolicy::FirstMatch)?;
    /// let next = mmio.allocate(0x4000, 0x4000, AllocPolicy::FirstMatch)?;
    ///
    /// let larger = Constraint::new(0x8000, 0x8000, AllocPolicy::ExactMatch(bar.start()))?;
    /// assert_eq!(mmio.move_conflict(&bar, larger), Some(Conflict::Allocated(next)));
    /// mmio.free(&next)?;
    /// assert_eq!(mmio.move_conflict(&bar, larger), None);
    /// assert_eq!(mmio.move_constraint(&bar, larger)?.len(), 0x8000);
    /// # Ok::<(), divsharun::Error>(())
    /// ```
    #[must_use]
    pub fn move_conflict(&self, key: &RangeInclusive, request: Constraint) -> Option<Conflict> {
        self.0.move_conflict(&key.0, request.0).map(Into::into)
    }

    twins! {
        /// Moves an allocated range to the place of a request, and returns the range there. A guest does
        /// this when it programs a BAR, and a monitor when it resizes one.
        ///
        /// It frees `key` and allocates a range for the request like
        /// [`allocate_constraint`](Self::allocate_constraint), or changes nothing. So the range can overlap
        /// `key`.
        ///
        /// # Errors
        ///
        /// An error changes nothing. In this order:
        /// - `ResourceNotAvailable` if exactly `key` is not allocated.
        /// - `Overflow`, `ResourceNotAvailable` or `InvalidStateTransition`, if `allocate_constraint` returns
        ///   that error if `key` is free.
        ///
        /// # Example
        ///
        /// ```rust
        /// use divsharun::{AddressAllocator, AllocPolicy, Constraint, Error};
        ///
        /// // A 32-bit BAR, aligned to its size.
        /// let bar = |size, policy| Constraint::new(size, size, policy)?.within(..=0xffff_ffff);
        /// let mut mmio = AddressAllocator::new(0xd000_0000, 0x1_0000_0000)?;
        /// let range = mmio.allocate_constraint(bar(0x4000, AllocPolicy::FirstMatch)?)?;
        ///
        /// // The guest programs a start that is aligned, then one that is not, and one above 4 GiB.
        /// let moved = mmio.move_constraint(&range, bar(0x4000, AllocPolicy::ExactMatch(0xd800_0000))?)?;
        /// assert_eq!((moved.start(), moved.len()), (0xd800_0000, 0x4000));
        /// assert_eq!(bar(0x4000, AllocPolicy::ExactMatch(0xd800_2000)), Err(Error::UnalignedAddress));
        /// let above = bar(0x4000, AllocPolicy::ExactMatch(0x1_0000_0000))?;
        /// assert_eq!(mmio.move_constraint(&moved, above), Err(Error::ResourceNotAvailable));
        ///
        /// // The monitor makes it longer in place.
        /// let larger = bar(0x1_0000, AllocPolicy::ExactMatch(moved.start()))?;
        /// assert_eq!(mmio.move_constraint(&moved, larger)?.end(), 0xd800_ffff);
        /// assert_eq!(mmio.held_count(), 1);
        /// # Ok::<(), Error>(())
        /// ```
        #[doc(alias = "resize")]
        pub fn move_constraint(
            &mut self,
            key: &RangeInclusive,
            request: Constraint,
        ) -> Result<RangeInclusive> {
            Ok(RangeInclusive(self.0.move_constraint(Global, &key.0, request.0)?))
        }

        /// A range that fills its gap needs no memory.
        pub fn try_move_constraint -> TryResult;

        /// Moves an allocated range to another start, and returns the range there.
        ///
        /// This is [`move_constraint`](Self::move_constraint) for as many addresses at `start`, at alignment
        /// 1 and without a window. So it does not check the alignment and the window of the first request.
        ///
        /// # Errors
        ///
        /// An error changes nothing. In this order:
        /// - `ResourceNotAvailable` if exactly this range is not allocated.
        /// - `Overflow` if `start` is `u64::MAX`.
        /// - `ResourceNotAvailable` if `start` is outside the space.
        /// - `Overflow` if the new range would end past `u64::MAX`.
        /// - `InvalidStateTransition` if exactly the new range is already allocated, and is not `key`.
        /// - `ResourceNotAvailable` if an address of the new range is allocated to another range than `key`.
        /// - `Overflow` if the new range ends at `u64::MAX`.
        /// - `Overflow` if the new range fills only a part of its gap, and without `key` the number of allocated
        ///   ranges is at the limit of [`allocate`](Self::allocate).
        ///
        /// # Example
        ///
        /// ```rust
        /// use divsharun::{AddressAllocator, AllocPolicy, Error};
        ///
        /// let mut mmio = AddressAllocator::new(0xd000_0000, 0x1000_0000)?;
        /// let bar = mmio.allocate(0x4000, 0x4000, AllocPolicy::FirstMatch)?;
        /// let moved = mmio.move_range(&bar, 0xd800_0000)?;
        /// assert_eq!((moved.start(), moved.len()), (0xd800_0000, 0x4000));
        /// assert!(!mmio.holds(&bar));
        ///
        /// // The new range can overlap the old one, but no other range.
        /// let moved = mmio.move_range(&moved, 0xd800_2000)?;
        /// let next = mmio.allocate(0x2000, 0x2000, AllocPolicy::ExactMatch(0xd800_0000))?;
        /// assert_eq!(mmio.move_range(&moved, next.start()), Err(Error::ResourceNotAvailable));
        /// # Ok::<(), Error>(())
        /// ```
        pub fn move_range(&mut self, key: &RangeInclusive, start: u64) -> Result<RangeInclusive> {
            Ok(RangeInclusive(self.0.move_range(Global, &key.0, start)?))
        }

        /// A range that fills its gap needs no memory.
        pub fn try_move_range -> TryResult;

        /// Allocates a range for each request, in their order, and returns the ranges. Each request can
        /// have its own window. Each range is where [`allocate_constraint`](Self::allocate_constraint)
        /// places it after the requests before it.
        ///
        /// # Errors
        ///
        /// - `Overflow`, `ResourceNotAvailable` or `InvalidStateTransition`, with the index of a request, if
        ///   `allocate_constraint` returns that error for it. The first request that fails decides.
        ///
        /// An error allocates no range, and all later calls have the same results. The shape of the tree can
        /// differ, and so the [`height`](Self::height) and the counts of later calls.
        ///
        /// # Example
        ///
        /// ```rust
        /// use divsharun::{AddressAllocator, AllocPolicy, Constraint, Error, ListError};
        ///
        /// let mut mmio = AddressAllocator::new(0xd000_0000, 0x4000)?;
        /// let registers = Constraint::new(0x1000, 0x1000, AllocPolicy::FirstMatch)?;
        /// let buffer = Constraint::new(0x2000, 0x2000, AllocPolicy::LastMatch)?;
        /// let bars = mmio.allocate_all(&[registers, buffer])?;
        /// assert_eq!((bars[0].start(), bars[1].start()), (0xd000_0000, 0xd000_2000));
        ///
        /// // Only one of these two fits.
        /// assert_eq!(
        ///     mmio.allocate_all(&[registers, registers]),
        ///     Err(ListError { index: Some(1), error: Error::ResourceNotAvailable, conflict: None })
        /// );
        /// assert!(mmio.held_ranges().eq(bars));
        /// # Ok::<(), Error>(())
        /// ```
        pub fn allocate_all(&mut self, requests: &[Constraint]) -> ListResult<Vec<RangeInclusive>> {
            let mut allocate = || {
                // Nothing can fail after the allocation of the ranges.
                let mut ranges = Vec::from(rattle::Vec::with_capacity(Global, requests.len())?);
                let requests = converted(requests, |request| request.0)?;
                let allocated = self.0.allocate_all(Global, &requests)?;
                ranges.extend(allocated.iter().map(|range| RangeInclusive(*range)));
                Ok(ranges)
            };
            allocate().map_err(|failure: proved::ListError| {
                list_error(failure, |index| {
                    let earlier = converted(requests.get(..index)?, |request| request.0).ok()?;
                    let request = requests.get(index)?.0;
                    self.0.conflict_after(Global, &earlier, request).ok()?
                })
            })
        }

        /// `OutOfMemory` has the index of the request that needs memory for a node, and no index if
        /// a list needs it.
        pub fn try_allocate_all -> TryListResult;
    }

    /// Allocates a range like [`allocate`](Self::allocate), and also returns the number of tree
    /// nodes that the call entered.
    ///
    /// Let h be the [`height`](Self::height) before the call. The count is at most h for
    /// `ExactMatch`, and at most h(v + 1) for `FirstMatch` and `LastMatch`. Here v is the lesser of
    /// two numbers:
    /// - the gaps that are long enough but misaligned (0 if `alignment` is 1);
    /// - the gaps that have a multiple of `alignment` but are too short after it.
    ///
    /// # Errors
    ///
    /// Those of [`allocate`](Self::allocate), in the same order: `InvalidSize`, `InvalidAlignment`,
    /// `UnalignedAddress`, `Overflow`, `ResourceNotAvailable` and `InvalidStateTransition`.
    ///
    /// # Example
    ///
    /// ```rust
    /// use divsharun::{AddressAllocator, AllocPolicy};
    ///
    /// let mut mmio = AddressAllocator::new(0xd000_0000, 0x1000_0000)?;
    /// for _ in 0..100 {
    ///     mmio.allocate(0x1000, 0x1000, AllocPolicy::FirstMatch)?;
    /// }
    /// let (height, exact) = (mmio.height(), AllocPolicy::ExactMatch(0xd800_0000));
    /// let (range, entered) = mmio.allocate_counted(0x1000, 0x1000, exact);
    /// assert_eq!(range?.start(), 0xd800_0000);
    /// assert!(entered <= height);
    /// # Ok::<(), divsharun::Error>(())
    /// ```
    pub fn allocate_counted(
        &mut self,
        size: u64,
        alignment: u64,
        policy: AllocPolicy,
    ) -> (Result<RangeInclusive>, u64) {
        let (answer, count) = self.0.allocate_counted(Global, size, alignment, policy);
        (answer.map(RangeInclusive).map_err(Error::from), count)
    }

    /// Allocates a range like [`allocate_constraint`](Self::allocate_constraint), and also returns
    /// the number of tree nodes that the call entered.
    ///
    /// Without a window, the bounds are those of [`allocate_counted`](Self::allocate_counted). With a
    /// window, the count is at most h for `ExactMatch`, and at most h(v + 2) for `FirstMatch` and
    /// `LastMatch`. Here h is the [`height`](Self::height) before the call, and v is the lesser of
    /// two numbers:
    /// - the gaps whose part in the window is long enough but misaligned (0 if the alignment is 1);
    /// - the gaps whose part in the window has a multiple of the alignment but is too short after
    ///   it.
    ///
    /// # Errors
    ///
    /// Those of [`allocate_constraint`](Self::allocate_constraint), in the same order: `Overflow`,
    /// `ResourceNotAvailable` and `InvalidStateTransition`.
    ///
    /// # Example
    ///
    /// ```rust
    /// use divsharun::{AddressAllocator, AllocPolicy, Constraint};
    ///
    /// let mut ports = AddressAllocator::new(0, 0x1000)?;
    /// let request = Constraint::new(0x10, 1, AllocPolicy::FirstMatch)?.within(0x400..=0x7ff)?;
    /// let (range, entered) = ports.allocate_constraint_counted(request);
    /// assert_eq!((range?.start(), ports.height()), (0x400, 1));
    /// // The space was one gap, so its tree had a height of 1.
    /// assert!(entered <= 2);
    /// # Ok::<(), divsharun::Error>(())
    /// ```
    pub fn allocate_constraint_counted(
        &mut self,
        request: Constraint,
    ) -> (Result<RangeInclusive>, u64) {
        let (answer, count) = self.0.allocate_constraint_counted(Global, request.0);
        (answer.map(RangeInclusive).map_err(Error::from), count)
    }

    /// Frees an allocated range. It does not allocate.
    ///
    /// # Errors
    ///
    /// - `ResourceNotAvailable` if exactly this range is not allocated. A part of an allocated
    ///   range cannot be freed.
    ///
    /// An error changes nothing.
    ///
    /// # Example
    ///
    /// ```rust
    /// use divsharun::{AddressAllocator, AllocPolicy, Error, RangeInclusive};
    ///
    /// let mut mmio = AddressAllocator::new(0xd000_0000, 0x1000_0000)?;
    /// let bar = mmio.allocate(0x4000, 0x4000, AllocPolicy::FirstMatch)?;
    /// let page = RangeInclusive::from_start_len(bar.start(), 0x1000)?;
    /// assert_eq!(mmio.free(&page), Err(Error::ResourceNotAvailable));
    ///
    /// mmio.free(&bar)?;
    /// assert_eq!(mmio.held_at(bar.start()), None);
    /// # Ok::<(), Error>(())
    /// ```
    #[doc(alias("release", "remove"))]
    pub fn free(&mut self, key: &RangeInclusive) -> Result<()> {
        Ok(self.0.free(&key.0)?)
    }

    /// Frees a range like [`free`](Self::free), and also returns the number of tree nodes that the
    /// call entered. The count is at most 3h, where h is the [`height`](Self::height) before the
    /// call.
    ///
    /// # Errors
    ///
    /// - `ResourceNotAvailable` if exactly this range is not allocated.
    ///
    /// # Example
    ///
    /// ```rust
    /// use divsharun::{AddressAllocator, AllocPolicy};
    ///
    /// // Memory that is plugged in above 4 GiB.
    /// let mut memory = AddressAllocator::new(0x1_0000_0000, 0x4000_0000)?;
    /// let module = memory.allocate(0x800_0000, 0x800_0000, AllocPolicy::LastMatch)?;
    /// let height = memory.height();
    /// let (freed, entered) = memory.free_counted(&module);
    /// assert_eq!((freed, memory.held_count()), (Ok(()), 0));
    /// assert!(entered <= 3 * height);
    /// # Ok::<(), divsharun::Error>(())
    /// ```
    pub fn free_counted(&mut self, key: &RangeInclusive) -> (Result<()>, u64) {
        let (answer, count) = self.0.free_counted(&key.0);
        (answer.map_err(Error::from), count)
    }

    /// Returns the first address of the space.
    ///
    /// # Example
    ///
    /// ```rust
    /// use divsharun::AddressAllocator;
    ///
    /// // The ports behind a PCI bridge.
    /// let ports = AddressAllocator::new(0xc000, 0x1000)?;
    /// assert_eq!(ports.base(), 0xc000);
    /// # Ok::<(), divsharun::Error>(())
    /// ```
    #[must_use]
    pub fn base(&self) -> u64 {
        self.0.base()
    }

    /// Returns the last address of the space.
    ///
    /// # Example
    ///
    /// ```rust
    /// use divsharun::AddressAllocator;
    ///
    /// // The window ends right below the I/O APIC.
    /// let mmio = AddressAllocator::new(0xe000_0000, 0x1ec0_0000)?;
    /// assert_eq!(mmio.end() + 1, 0xfec0_0000);
    /// # Ok::<(), divsharun::Error>(())
    /// ```
    #[must_use]
    pub fn end(&self) -> u64 {
        self.0.end()
    }

    /// Returns the space: the range of all addresses, free or allocated.
    ///
    /// # Example
    ///
    /// ```rust
    /// use divsharun::{AddressAllocator, RangeInclusive};
    ///
    /// let mmio = AddressAllocator::new(0xe000_0000, 0x1ec0_0000)?;
    /// let firmware = RangeInclusive::from_start_len(0xffc0_0000, 0x40_0000)?;
    /// assert_eq!(mmio.space().to_string(), "e0000000-febfffff");
    /// assert!(!mmio.space().overlaps(&firmware));
    /// # Ok::<(), divsharun::Error>(())
    /// ```
    #[must_use]
    pub fn space(&self) -> RangeInclusive {
        RangeInclusive(self.0.space())
    }

    /// Returns an iterator over the allocated ranges, like [`held_ranges`](Self::held_ranges).
    ///
    /// # Example
    ///
    /// ```rust
    /// use divsharun::{AddressAllocator, AllocPolicy};
    ///
    /// // A serial port and a clock.
    /// let mut ports = AddressAllocator::new(0, 0x1_0000)?;
    /// ports.allocate(8, 8, AllocPolicy::ExactMatch(0x3f8))?;
    /// ports.allocate(2, 1, AllocPolicy::ExactMatch(0x70))?;
    /// let lengths: Vec<_> = ports.iter().map(|range| range.len()).collect();
    /// assert_eq!(lengths, [2, 8]);
    /// # Ok::<(), divsharun::Error>(())
    /// ```
    #[must_use]
    pub fn iter(&self) -> HeldRanges<'_> {
        self.held_ranges()
    }

    /// Returns an iterator over the allocated ranges in ascending order. Its length is exact, and it
    /// does not allocate.
    ///
    /// # Example
    ///
    /// ```rust
    /// use divsharun::{AddressAllocator, AllocPolicy};
    ///
    /// let mut mmio = AddressAllocator::new(0xa00_0000, 0x4000)?;
    /// let high = mmio.allocate(0x200, 0x200, AllocPolicy::ExactMatch(0xa00_3e00))?;
    /// let low = mmio.allocate(0x200, 0x200, AllocPolicy::FirstMatch)?;
    /// let mut ranges = mmio.held_ranges();
    /// assert_eq!((ranges.next(), ranges.next(), ranges.next()), (Some(low), Some(high), None));
    /// # Ok::<(), divsharun::Error>(())
    /// ```
    #[doc(alias = "allocated_ranges")]
    #[must_use]
    pub fn held_ranges(&self) -> HeldRanges<'_> {
        HeldRanges(self.0.held_ranges())
    }

    /// Returns an iterator over the allocated ranges that have an address in common with a window, in
    /// ascending order.
    ///
    /// The window is a range of `u64` or a [`RangeInclusive`]. Each range is returned whole. If the window
    /// is in the space, it is free if and only if there is no item. It walks one path of the tree for each
    /// end of the window and does not allocate.
    ///
    /// # Example
    ///
    /// The ranges that are in the way of an `ExactMatch` request:
    ///
    /// ```rust
    /// use divsharun::{AddressAllocator, AllocPolicy, Error, RangeInclusive};
    ///
    /// let mut mmio = AddressAllocator::new(0xd000_0000, 0x2ec0_0000)?;
    /// let device = mmio.allocate(0x1000, 0x1000, AllocPolicy::ExactMatch(0xd000_3000))?;
    /// let window = RangeInclusive::new(0xd000_0000, 0xd000_ffff)?;
    /// let exact = AllocPolicy::ExactMatch(window.start());
    /// let failed = mmio.allocate(window.len(), 1, exact);
    /// assert_eq!(failed, Err(Error::ResourceNotAvailable));
    /// assert!(mmio.held_ranges_in(window).eq([device]));
    /// # Ok::<(), divsharun::Error>(())
    /// ```
    #[doc(alias("is_free", "overlapping"))]
    #[must_use]
    pub fn held_ranges_in(&self, window: impl Window) -> HeldRangesIn<'_> {
        HeldRangesIn(self.0.held_ranges_in(&part_of(self.space(), window).0))
    }

    /// Returns `true` if exactly this range is allocated. A part of an allocated range is not.
    ///
    /// It walks one path of the tree and does not allocate.
    ///
    /// # Example
    ///
    /// ```rust
    /// use divsharun::{AddressAllocator, AllocPolicy, RangeInclusive};
    ///
    /// let mut ports = AddressAllocator::new(0, 0x1_0000)?;
    /// let serial = ports.allocate(8, 8, AllocPolicy::ExactMatch(0x2f8))?;
    /// assert!(ports.holds(&serial));
    /// assert!(!ports.holds(&RangeInclusive::new(0x2f8, 0x2fb)?));
    /// # Ok::<(), divsharun::Error>(())
    /// ```
    #[doc(alias("contains", "is_allocated"))]
    #[must_use]
    pub fn holds(&self, key: &RangeInclusive) -> bool {
        self.0.holds(&key.0)
    }

    /// Returns the allocated range that contains the address, or `None` if there is none.
    ///
    /// It walks one path of the tree and does not allocate.
    ///
    /// # Example
    ///
    /// ```rust
    /// use divsharun::{AddressAllocator, AllocPolicy};
    ///
    /// let mut mmio = AddressAllocator::new(0xd000_0000, 0x2ec0_0000)?;
    /// let window = mmio.allocate(0x1000, 0x1000, AllocPolicy::FirstMatch)?;
    /// // The guest accesses this address.
    /// assert_eq!(mmio.held_at(0xd000_0010), Some(window));
    /// assert_eq!(mmio.held_at(0xd000_1000), None);
    /// # Ok::<(), divsharun::Error>(())
    /// ```
    #[doc(alias("find", "get"))]
    #[must_use]
    pub fn held_at(&self, address: u64) -> Option<RangeInclusive> {
        self.0.held_at(address).map(RangeInclusive)
    }

    /// Returns an iterator over the gaps in ascending order. A gap is a run of free addresses with
    /// no free address next to it.
    ///
    /// The length of the iterator is exact, and it does not allocate.
    ///
    /// # Example
    ///
    /// ```rust
    /// use divsharun::{AddressAllocator, AllocPolicy};
    ///
    /// let mut ports = AddressAllocator::new(0, 0x100)?;
    /// ports.allocate(0x10, 1, AllocPolicy::ExactMatch(0x40))?;
    /// let gaps: Vec<_> = ports.gaps().map(|gap| gap.to_string()).collect();
    /// assert_eq!(gaps, ["0-3f", "50-ff"]);
    /// assert_eq!((ports.longest_gap(), ports.free_len()), (0xb0, 0xf0));
    /// # Ok::<(), divsharun::Error>(())
    /// ```
    #[doc(alias("free_ranges", "holes"))]
    #[must_use]
    pub fn gaps(&self) -> Gaps<'_> {
        Gaps(self.0.gaps())
    }

    /// Returns an iterator over the gaps that have an address in common with a window, in ascending
    /// order.
    ///
    /// The window is a range of `u64` or a [`RangeInclusive`]. Each gap is returned whole. It walks one
    /// path of the tree for each end of the window and does not allocate.
    ///
    /// # Example
    ///
    /// ```rust
    /// use divsharun::{AddressAllocator, AllocPolicy};
    ///
    /// let mut ports = AddressAllocator::new(0, 0x100)?;
    /// ports.allocate(0x10, 1, AllocPolicy::ExactMatch(0x40))?;
    /// ports.allocate(0x10, 1, AllocPolicy::ExactMatch(0x60))?;
    /// let gaps: Vec<_> = ports.gaps_in(0x48..0x60).map(|gap| gap.to_string()).collect();
    /// assert_eq!(gaps, ["50-5f"]);
    /// assert_eq!(ports.gaps_in(0x48..).count(), 2);
    /// # Ok::<(), divsharun::Error>(())
    /// ```
    #[must_use]
    pub fn gaps_in(&self, window: impl Window) -> GapsIn<'_> {
        GapsIn(self.0.gaps_in(&part_of(self.space(), window).0))
    }

    /// Returns the gap that contains the address, or `None` if the address is allocated or outside
    /// the space.
    ///
    /// It walks one path of the tree and does not allocate.
    ///
    /// # Example
    ///
    /// ```rust
    /// use divsharun::{AddressAllocator, AllocPolicy};
    ///
    /// let mut ports = AddressAllocator::new(0, 0x100)?;
    /// ports.allocate(0x10, 1, AllocPolicy::ExactMatch(0x40))?;
    /// assert_eq!(ports.gap_at(0x50).map(|gap| gap.to_string()), Some("50-ff".to_string()));
    /// assert_eq!(ports.gap_at(0x4f), None);
    /// # Ok::<(), divsharun::Error>(())
    /// ```
    #[must_use]
    pub fn gap_at(&self, address: u64) -> Option<RangeInclusive> {
        self.0.gap_at(address).map(RangeInclusive)
    }

    /// Returns the length of the longest gap, or 0 if there is none. It reads one node.
    ///
    /// At alignment 1 and without a window, `FirstMatch` and `LastMatch` return `ResourceNotAvailable` if
    /// and only if the size is more than this length.
    ///
    /// # Example
    ///
    /// ```rust
    /// use divsharun::{AddressAllocator, AllocPolicy, Error};
    ///
    /// let mut mmio = AddressAllocator::new(0xd000_0000, 0x1000_0000)?;
    /// mmio.allocate(0x1000, 0x1000, AllocPolicy::ExactMatch(0xd400_0000))?;
    /// let longest = mmio.longest_gap();
    /// assert_eq!(longest, 0xbff_f000);
    ///
    /// let request = mmio.allocate(longest + 1, 1, AllocPolicy::FirstMatch);
    /// assert_eq!(request, Err(Error::ResourceNotAvailable));
    /// assert_eq!(mmio.allocate(longest, 1, AllocPolicy::FirstMatch)?.start(), 0xd400_1000);
    /// # Ok::<(), Error>(())
    /// ```
    #[doc(alias = "largest_gap")]
    #[must_use]
    pub fn longest_gap(&self) -> u64 {
        self.0.longest_gap()
    }

    /// Returns the longest part of a gap that lies in a window, or `None` if no address of the window is free.
    /// If several are as long, it returns the lowest of them.
    ///
    /// The window is a range of `u64` or a [`RangeInclusive`]. A request at alignment 1 fits in the window if
    /// and only if its size is at most the length of this part. The call goes through the ranges and gaps of
    /// the window and does not allocate.
    ///
    /// # Example
    ///
    /// ```rust
    /// use divsharun::{AddressAllocator, AllocPolicy, RangeInclusive};
    ///
    /// let mut mmio = AddressAllocator::new(0xd000_0000, 0x1000_0000)?;
    /// mmio.allocate(0x1000, 0x1000, AllocPolicy::ExactMatch(0xd400_0000))?;
    /// let longest = mmio.longest_gap_in(..0xd500_0000);
    /// assert_eq!(longest, Some(RangeInclusive::new(0xd000_0000, 0xd3ff_ffff)?));
    /// assert_eq!(mmio.longest_gap_in(0xd400_0000..0xd400_1000), None);
    /// # Ok::<(), divsharun::Error>(())
    /// ```
    #[must_use]
    pub fn longest_gap_in(&self, window: impl Window) -> Option<RangeInclusive> {
        let part = part_of(self.space(), window);
        self.0.longest_gap_in(&part.0).map(RangeInclusive)
    }

    /// Returns the number of gaps.
    ///
    /// It takes constant time and does not allocate.
    ///
    /// # Example
    ///
    /// ```rust
    /// use divsharun::{AddressAllocator, AllocPolicy};
    ///
    /// let mut ports = AddressAllocator::new(0, 0x100)?;
    /// assert_eq!(ports.gap_count(), 1);
    /// ports.allocate(0x10, 1, AllocPolicy::ExactMatch(0x40))?;
    /// assert_eq!(ports.gap_count(), 2);
    /// assert_eq!(ports.gaps().len(), 2);
    /// # Ok::<(), divsharun::Error>(())
    /// ```
    #[must_use]
    pub fn gap_count(&self) -> u64 {
        self.0.gap_count()
    }

    /// Returns the number of free addresses.
    ///
    /// It takes constant time and does not allocate.
    ///
    /// # Example
    ///
    /// ```rust
    /// use divsharun::{AddressAllocator, AllocPolicy};
    ///
    /// let mut mmio = AddressAllocator::new(0xfeb0_0000, 0x10_0000)?;
    /// for size in [0x1000, 0x8000] {
    ///     mmio.allocate(size, size, AllocPolicy::FirstMatch)?;
    /// }
    /// assert_eq!(mmio.free_len(), 0xf_7000);
    /// # Ok::<(), divsharun::Error>(())
    /// ```
    #[doc(alias("free_space", "available"))]
    #[must_use]
    pub fn free_len(&self) -> u64 {
        self.0.free_len()
    }

    /// Returns the number of allocated ranges.
    ///
    /// It takes constant time and does not allocate.
    ///
    /// # Example
    ///
    /// ```rust
    /// use divsharun::{AddressAllocator, AllocPolicy};
    ///
    /// // As many virtio-mmio devices as fit.
    /// let mut mmio = AddressAllocator::new(0xa00_0000, 0x4000)?;
    /// while mmio.allocate(0x200, 0x200, AllocPolicy::FirstMatch).is_ok() {}
    /// assert_eq!(mmio.held_count(), 32);
    /// # Ok::<(), divsharun::Error>(())
    /// ```
    #[doc(alias("allocated_count", "is_empty", "len"))]
    #[must_use]
    pub fn held_count(&self) -> u64 {
        self.0.held_count()
    }

    /// Returns the height of the tree: the number of nodes on its longest path, at most 48. A leaf is a
    /// node, and has up to 32 allocated ranges and gaps.
    ///
    /// All leaves are at the same depth. Let h be the height with k allocated ranges. If h is above 1,
    /// 24 * 5^(h - 2) is at most 2k + 1.
    ///
    /// # Example
    ///
    /// ```rust
    /// use divsharun::{AddressAllocator, AllocPolicy};
    ///
    /// let mut mmio = AddressAllocator::new(0xd000_0000, 0x1000_0000)?;
    /// assert_eq!(mmio.height(), 1);
    /// for _ in 0..1000 {
    ///     mmio.allocate(0x1000, 0x1000, AllocPolicy::FirstMatch)?;
    /// }
    /// // 24 * 5^3 is 3000, which is more than 2001.
    /// assert!(mmio.height() <= 4);
    /// # Ok::<(), divsharun::Error>(())
    /// ```
    #[must_use]
    pub fn height(&self) -> u64 {
        self.0.height()
    }

    /// Returns a view of the allocated ranges and the gaps between them, which prints them like
    /// `/proc/iomem`.
    ///
    /// # Example
    ///
    /// ```rust
    /// use divsharun::{AddressAllocator, AllocPolicy};
    ///
    /// let mut ports = AddressAllocator::new(0, 0x400)?;
    /// ports.allocate(8, 8, AllocPolicy::LastMatch)?;
    /// assert_eq!(ports.layout().to_string(), "0000-03f7 : gap\n03f8-03ff : held");
    /// # Ok::<(), divsharun::Error>(())
    /// ```
    #[must_use]
    pub fn layout(&self) -> Layout<'_> {
        Layout::of(self)
    }

    /// Returns a copy, or an error if memory runs out.
    ///
    /// # Errors
    ///
    /// - `OutOfMemory` if memory for a node runs out. The nodes copied so far are freed.
    pub fn try_clone(&self) -> TryResult<Self> {
        Ok(AddressAllocator(self.0.try_clone(Global)?))
    }
}

/// Returns the part of a window in a space, or an address outside the space if there is none.
pub(crate) fn part_of(space: RangeInclusive, window: impl Window) -> RangeInclusive {
    let (low, high) = window.limits();
    let part = RangeInclusive::new(low.max(space.start()), high.min(space.end()));
    let outside = space.end().wrapping_add(1);
    part.or(RangeInclusive::new(outside, outside))
        .expect("one address is a range")
}

/// Creates an allocator of a list of ranges. The error of a range has its conflict in a space.
fn of_ranges<E: From<proved::Error>>(
    ranges: &[RangeInclusive],
    space: Option<proved::RangeInclusive>,
    create: impl FnOnce(
        &[proved::RangeInclusive],
    ) -> core::result::Result<proved::AddressAllocator, proved::ListError>,
) -> core::result::Result<AddressAllocator, ListError<E>> {
    let no_conflict = |_| None::<Conflict>;
    let ranges = converted(ranges, |range| range.0);
    let ranges = ranges.map_err(|error| list_error(error, no_conflict))?;
    let conflict = |index| proved::AddressAllocator::list_conflict(&space?, &ranges, index);
    let created = create(&ranges).map(AddressAllocator);
    created.map_err(|failure| list_error(failure, conflict))
}

/// Returns a list of converted items.
fn converted<T, P>(items: &[T], convert: impl Fn(&T) -> P) -> proved::Result<Vec<P>> {
    let mut list = Vec::from(rattle::Vec::with_capacity(Global, items.len())?);
    list.extend(items.iter().map(convert));
    Ok(list)
}

/// Writes the space, the number of allocated ranges and these ranges, and not the tree.
impl fmt::Debug for AddressAllocator {
    fn fmt(&self, f: &mut fmt::Formatter<'_>) -> fmt::Result {
        ShortDebug(&self.0).fmt(f)
    }
}

/// The `Debug` of an allocator of the proved code, without its tree.
pub(crate) struct ShortDebug<'a>(pub(crate) &'a proved::AddressAllocator);

impl fmt::Debug for ShortDebug<'_> {
    fn fmt(&self, f: &mut fmt::Formatter<'_>) -> fmt::Result {
        f.debug_struct("AddressAllocator")
            .field("base", &self.0.base())
            .field("end", &self.0.end())
            .field("held_count", &self.0.held_count())
            .field("held_ranges", &DebugList(|| self.0.held_ranges()))
            .finish()
    }
}

/// An iterator over the allocated ranges of an [`AddressAllocator`], in ascending order or from
/// both ends. Its length is exact.
///
/// It is created by [`held_ranges`](AddressAllocator::held_ranges) and
/// [`iter`](AddressAllocator::iter).
///
/// # Example
///
/// ```rust
/// use divsharun::{AddressAllocator, AllocPolicy};
///
/// let mut space = AddressAllocator::new(0, 0x1000)?;
/// let last = space.allocate(0x10, 1, AllocPolicy::LastMatch)?;
/// let first = space.allocate(0x10, 1, AllocPolicy::FirstMatch)?;
/// assert_eq!(space.held_ranges().len(), 2);
/// assert!(space.held_ranges().eq([first, last]));
/// assert!(space.held_ranges().rev().eq([last, first]));
/// # Ok::<(), divsharun::Error>(())
/// ```
#[derive(Clone)]
pub struct HeldRanges<'a>(proved::Ranges<'a>);

/// An iterator over the allocated ranges of an [`AddressAllocator`] that have an address in common
/// with a range, in ascending order or from both ends.
///
/// It is created by [`held_ranges_in`](AddressAllocator::held_ranges_in).
#[derive(Clone)]
pub struct HeldRangesIn<'a>(proved::RangesIn<'a>);

/// An iterator over the gaps of an [`AddressAllocator`], in ascending order or from both ends. Its
/// length is exact.
///
/// It is created by [`gaps`](AddressAllocator::gaps).
#[derive(Clone)]
pub struct Gaps<'a>(pub(crate) proved::Ranges<'a>);

/// An iterator over the gaps of an [`AddressAllocator`] that have an address in common with a
/// range, in ascending order or from both ends.
///
/// It is created by [`gaps_in`](AddressAllocator::gaps_in).
#[derive(Clone)]
pub struct GapsIn<'a>(proved::RangesIn<'a>);

iterate! {
    HeldRanges, Gaps, HeldRangesIn, GapsIn: RangeInclusive, |_ranges, range| RangeInclusive(range)
}
allocator!(AddressAllocator, HeldRanges of RangeInclusive, "the allocated ranges");

impl ExactSizeIterator for HeldRanges<'_> {}

impl ExactSizeIterator for Gaps<'_> {}
