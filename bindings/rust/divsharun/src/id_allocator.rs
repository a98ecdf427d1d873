// SPDX-License-Identifier: Apache-2.0 OR BSD-3-Clause
use crate::error::TryResult;
use crate::proved::vm_ids as proved;
use crate::rattle::Global;
use crate::traits::{allocator, fused, iterate, twins, DebugList};
use crate::{Result, Window};
use alloc::vec::Vec;
use core::fmt;

/// Allocates ids from a range, the lowest free id first.
///
/// Two allocators are equal if and only if they have the same range, the same allocated ids and the
/// same ids that were allocated at some time.
///
/// # Example
///
/// ```rust
/// use divsharun::{Error, IdAllocator};
///
/// // The interrupt lines that are left for devices.
/// let mut lines = IdAllocator::new(5, 23)?;
/// assert_eq!((lines.allocate_id()?, lines.allocate_id()?), (5, 6));
///
/// lines.free_id(5)?;
/// assert_eq!(lines.free_id(5), Err(Error::AlreadyReleased(5)));
/// assert_eq!(lines.peek_id(), Ok(5));
/// assert!(lines.is_allocated(6));
/// # Ok::<(), Error>(())
/// ```
///
/// # Sparse ids and aligned blocks of ids
///
/// Freed ids that follow each other take one entry. Ids that are skipped below an allocated one do too,
/// so any id can be the first. A saved value lists each freed id.
///
/// An [`AddressAllocator`](crate::AddressAllocator) whose addresses are ids can also allocate a block of
/// ids that starts at a multiple of its length, as MSI with several vectors needs it:
///
/// ```rust
/// use divsharun::{AddressAllocator, AllocPolicy, Error};
///
/// // The interrupt vectors 32 to 255.
/// let mut vectors = AddressAllocator::new(32, 224)?;
/// let timer = vectors.allocate(1, 1, AllocPolicy::ExactMatch(239))?;
/// let block = vectors.allocate(16, 16, AllocPolicy::FirstMatch)?;
/// assert_eq!((timer.start(), block.start(), block.end()), (239, 32, 47));
/// # Ok::<(), Error>(())
/// ```
#[derive(PartialEq, Eq)]
#[cfg_attr(feature = "serde", derive(serde::Serialize, serde::Deserialize))]
#[cfg_attr(feature = "serde", serde(transparent))]
pub struct IdAllocator(pub(crate) proved::IdAllocator);

impl IdAllocator {
    /// Creates an allocator for the ids from `range_base` to `range_end`, both included. All of
    /// them are free. It does not allocate memory.
    ///
    /// # Errors
    ///
    /// - `InvalidRange(range_base, range_end)` if `range_end` is less than `range_base`.
    ///
    /// # Example
    ///
    /// ```rust
    /// use divsharun::{Error, IdAllocator};
    ///
    /// // The memory slots of a virtual machine.
    /// let slots = IdAllocator::new(0, 508)?;
    /// assert_eq!((slots.free_count(), slots.peek_id()), (509, Ok(0)));
    /// assert_eq!(IdAllocator::new(508, 0), Err(Error::InvalidRange(508, 0)));
    /// # Ok::<(), Error>(())
    /// ```
    pub fn new(range_base: u32, range_end: u32) -> Result<Self> {
        Ok(Self(proved::IdAllocator::new(
            Global, range_base, range_end,
        )?))
    }

    twins! {
        /// Creates an allocator for the ids from `range_base` to `range_end`, both included, with these ids
        /// allocated. They must be in ascending order.
        ///
        /// It is equal to a new allocator after [`allocate_exact`](Self::allocate_exact) of each id. All ids
        /// are checked before memory is allocated. It takes memory for each run of ids that the list skips,
        /// however long the run is.
        ///
        /// # Errors
        ///
        /// In this order:
        /// - `InvalidRange(range_base, range_end)` if `range_end` is less than `range_base`.
        /// - For the first id that is wrong:
        ///   - `OutOfRange(id)` if the id is outside the range.
        ///   - `ResourceNotAvailable` if the id is not greater than the id before it.
        ///
        /// # Example
        ///
        /// ```rust
        /// use divsharun::{Error, IdAllocator};
        ///
        /// let mut lines = IdAllocator::with_held(5, 23, &[5, 8])?;
        /// assert!(lines.held_ids().eq([5, 8]));
        /// assert_eq!(lines.allocate_id(), Ok(6));
        /// assert_eq!(IdAllocator::with_held(5, 23, &[8, 24]), Err(Error::OutOfRange(24)));
        /// # Ok::<(), Error>(())
        /// ```
        pub fn with_held(range_base: u32, range_end: u32, held: &[u32]) -> Result<Self> {
            Ok(Self(proved::IdAllocator::with_held(Global, range_base, range_end, held)?))
        }

        pub fn try_with_held -> TryResult;
    }

    /// Allocates the lowest free id. It does not allocate memory.
    ///
    /// # Errors
    ///
    /// If all ids are allocated:
    /// - `Overflow` if the last id is `u32::MAX`.
    /// - `ResourceNotAvailable` otherwise.
    ///
    /// # Example
    ///
    /// ```rust
    /// use divsharun::{Error, IdAllocator};
    ///
    /// let mut lines = IdAllocator::new(10, 11)?;
    /// assert_eq!((lines.allocate_id(), lines.allocate_id()), (Ok(10), Ok(11)));
    /// assert_eq!(lines.allocate_id(), Err(Error::ResourceNotAvailable));
    ///
    /// lines.free_id(10)?;
    /// assert_eq!(lines.allocate_id(), Ok(10));
    /// # Ok::<(), Error>(())
    /// ```
    #[inline]
    pub fn allocate_id(&mut self) -> Result<u32> {
        Ok(self.0.allocate_id()?)
    }

    twins! {
        /// Allocates this id and returns it.
        ///
        /// Unused ids below it become freed ids, as if they had been allocated and freed. They take one entry,
        /// however many they are. Memory is allocated only if there are some, or if the ids right below and
        /// right above the id are both freed ids.
        ///
        /// # Errors
        ///
        /// An error changes nothing. In this order:
        /// - `OutOfRange(id)` if the id is outside the range.
        /// - `ResourceNotAvailable` if the id is already allocated.
        ///
        /// # Example
        ///
        /// ```rust
        /// use divsharun::{Error, IdAllocator};
        ///
        /// // Line 8 is the clock.
        /// let mut lines = IdAllocator::new(5, 23)?;
        /// assert_eq!(lines.allocate_exact(8), Ok(8));
        /// assert_eq!(lines.allocate_exact(8), Err(Error::ResourceNotAvailable));
        /// assert_eq!((lines.allocate_id(), lines.free_count()), (Ok(5), 17));
        /// # Ok::<(), Error>(())
        /// ```
        pub fn allocate_exact(&mut self, id: u32) -> Result<u32> {
            Ok(self.0.allocate_exact(id)?)
        }

        pub fn try_allocate_exact -> TryResult;

        /// Allocates the lowest free id in a window, which is a range of `u32`, and returns it.
        ///
        /// The id is found in logarithmic time. Ids below it that were never allocated become freed ids, as
        /// in [`allocate_exact`](Self::allocate_exact).
        ///
        /// # Errors
        ///
        /// An error changes nothing. In this order:
        /// - `InvalidRange(first, last)` if `last` is less than `first`. They are the ends of the window, as
        ///   for [`Constraint::within`](crate::Constraint::within).
        /// - `ResourceNotAvailable` if no id of the window is free.
        ///
        /// # Example
        ///
        /// ```rust
        /// use divsharun::{Error, IdAllocator};
        ///
        /// let mut lines = IdAllocator::new(5, 23)?;
        /// assert_eq!(lines.allocate_in(16..=17), Ok(16));
        /// assert_eq!(lines.allocate_in(16..=17), Ok(17));
        /// assert_eq!(lines.allocate_in(16..=17), Err(Error::ResourceNotAvailable));
        /// assert_eq!(lines.allocate_in(..8), Ok(5));
        /// # Ok::<(), Error>(())
        /// ```
        pub fn allocate_in(&mut self, window: impl Window<u32>) -> Result<u32> {
            let (first, last) = window.limits();
            Ok(self.0.allocate_in(first, last)?)
        }

        pub fn try_allocate_in -> TryResult;

        /// Allocates the `count` lowest free ids, or none, and returns them in ascending order. They are the
        /// ids that `count` calls of [`allocate_id`](Self::allocate_id) would allocate.
        ///
        /// # Errors
        ///
        /// An error changes nothing. If fewer than `count` ids are free:
        /// - `Overflow` if the last id is `u32::MAX`.
        /// - `ResourceNotAvailable` otherwise.
        ///
        /// # Example
        ///
        /// ```rust
        /// use divsharun::{Error, IdAllocator};
        ///
        /// let mut lines = IdAllocator::with_held(5, 9, &[6])?;
        /// assert_eq!(lines.allocate_ids(3)?, [5, 7, 8]);
        /// assert_eq!(lines.allocate_ids(2), Err(Error::ResourceNotAvailable));
        /// assert_eq!(lines.free_count(), 1);
        /// # Ok::<(), Error>(())
        /// ```
        pub fn allocate_ids(&mut self, count: usize) -> Result<Vec<u32>> {
            Ok(self.0.allocate_ids(Global, count)?.into())
        }

        pub fn try_allocate_ids -> TryResult;
    }

    /// Returns the id or the error that [`allocate_id`](Self::allocate_id) would return, without
    /// allocating the id.
    ///
    /// # Errors
    ///
    /// If all ids are allocated:
    /// - `Overflow` if the last id is `u32::MAX`.
    /// - `ResourceNotAvailable` otherwise.
    ///
    /// # Example
    ///
    /// ```rust
    /// use divsharun::{Error, IdAllocator};
    ///
    /// let mut lines = IdAllocator::with_held(9, 10, &[9])?;
    /// assert_eq!(lines.peek_id(), Ok(10));
    /// assert_eq!(lines.allocate_id(), Ok(10));
    /// assert_eq!(lines.peek_id(), Err(Error::ResourceNotAvailable));
    /// # Ok::<(), Error>(())
    /// ```
    pub fn peek_id(&self) -> Result<u32> {
        Ok(self.0.peek_id()?)
    }

    /// Returns `true` if the id is allocated. An id outside the range is not.
    ///
    /// # Example
    ///
    /// ```rust
    /// use divsharun::IdAllocator;
    ///
    /// let mut lines = IdAllocator::new(5, 23)?;
    /// lines.allocate_exact(12)?;
    /// assert!(lines.is_allocated(12));
    /// assert!(!lines.is_allocated(11) && !lines.is_allocated(24));
    /// # Ok::<(), divsharun::Error>(())
    /// ```
    #[doc(alias("contains", "is_free", "holds"))]
    #[must_use]
    pub fn is_allocated(&self, id: u32) -> bool {
        self.0.is_allocated(id)
    }

    twins! {
        /// Frees an allocated id and returns it.
        ///
        /// # Errors
        ///
        /// An error changes nothing. In this order:
        /// - `OutOfRange(id)` if the id is outside the range.
        /// - `NeverAllocated(id)` if the id was never allocated.
        /// - `AlreadyReleased(id)` if the id is already freed.
        ///
        /// # Example
        ///
        /// ```rust
        /// use divsharun::{Error, IdAllocator};
        ///
        /// let mut lines = IdAllocator::new(5, 23)?;
        /// lines.allocate_ids(2)?;
        /// assert_eq!(lines.free_id(6), Ok(6));
        /// assert_eq!(lines.free_id(7), Err(Error::NeverAllocated(7)));
        /// assert_eq!(lines.free_id(24), Err(Error::OutOfRange(24)));
        /// # Ok::<(), Error>(())
        /// ```
        #[doc(alias = "release")]
        pub fn free_id(&mut self, id: u32) -> Result<u32> {
            Ok(self.0.free_id(id)?)
        }

        pub fn try_free_id -> TryResult;
    }

    /// Returns the first id of the range.
    ///
    /// # Example
    ///
    /// ```rust
    /// use divsharun::IdAllocator;
    ///
    /// // A device tree counts shared interrupts from the first one.
    /// let mut interrupts = IdAllocator::new(32, 1019)?;
    /// let serial = interrupts.allocate_exact(33)?;
    /// assert_eq!(serial - interrupts.range_base(), 1);
    /// # Ok::<(), divsharun::Error>(())
    /// ```
    #[must_use]
    pub const fn range_base(&self) -> u32 {
        self.0.range_base()
    }

    /// Returns the last id of the range.
    ///
    /// # Example
    ///
    /// ```rust
    /// use divsharun::IdAllocator;
    ///
    /// // An I/O APIC with 24 pins.
    /// let pins = IdAllocator::new(0, 24 - 1)?;
    /// assert_eq!(pins.range_end(), 23);
    /// # Ok::<(), divsharun::Error>(())
    /// ```
    #[must_use]
    pub const fn range_end(&self) -> u32 {
        self.0.range_end()
    }

    /// Returns an iterator over the allocated ids, like [`held_ids`](Self::held_ids).
    ///
    /// # Example
    ///
    /// ```rust
    /// use divsharun::IdAllocator;
    ///
    /// let lines = IdAllocator::with_held(5, 23, &[5, 8])?;
    /// assert_eq!(lines.iter().max(), Some(8));
    /// # Ok::<(), divsharun::Error>(())
    /// ```
    #[must_use]
    pub fn iter(&self) -> HeldIds<'_> {
        self.held_ids()
    }

    /// Returns an iterator over the allocated ids in ascending order. It does not allocate memory,
    /// and passes freed ids that follow each other in one step.
    ///
    /// # Example
    ///
    /// ```rust
    /// use divsharun::IdAllocator;
    ///
    /// let mut lines = IdAllocator::new(5, 23)?;
    /// for _ in 0..3 {
    ///     lines.allocate_id()?;
    /// }
    /// lines.free_id(6)?;
    /// assert!(lines.held_ids().eq([5, 7]));
    /// # Ok::<(), divsharun::Error>(())
    /// ```
    #[doc(alias = "allocated_ids")]
    #[must_use]
    pub fn held_ids(&self) -> HeldIds<'_> {
        HeldIds(self.0.held_ids())
    }

    /// Returns an iterator over the allocated ids in a window, which is a range of `u32`, in ascending order.
    ///
    /// It begins in logarithmic time, passes freed ids that follow each other in one step, and does not
    /// allocate memory.
    ///
    /// # Example
    ///
    /// ```rust
    /// use divsharun::IdAllocator;
    ///
    /// let lines = IdAllocator::with_held(5, 23, &[5, 8, 9])?;
    /// assert!(lines.held_ids_in(6..).eq([8, 9]));
    /// assert_eq!(lines.held_ids_in(..9).next_back(), Some(8));
    /// # Ok::<(), divsharun::Error>(())
    /// ```
    #[must_use]
    pub fn held_ids_in(&self, window: impl Window<u32>) -> HeldIdsIn<'_> {
        let (first, last) = window.limits();
        HeldIdsIn(self.0.held_ids_in(first, last))
    }

    /// Returns a copy, or an error if memory runs out.
    ///
    /// # Errors
    ///
    /// - `OutOfMemory` if memory runs out.
    pub fn try_clone(&self) -> TryResult<Self> {
        Ok(IdAllocator(self.0.try_clone(Global)?))
    }

    /// Returns the number of allocated ids in constant time. It does not allocate memory.
    ///
    /// # Example
    ///
    /// ```rust
    /// use divsharun::IdAllocator;
    ///
    /// let mut lines = IdAllocator::with_held(0, 15, &[0, 1, 8, 12])?;
    /// lines.free_id(1)?;
    /// assert_eq!(lines.held_count(), 3);
    /// # Ok::<(), divsharun::Error>(())
    /// ```
    #[doc(alias("allocated_count", "is_empty", "len"))]
    #[must_use]
    pub fn held_count(&self) -> u64 {
        self.0.held_count()
    }

    /// Returns the number of free ids in constant time. It does not allocate memory.
    ///
    /// # Example
    ///
    /// ```rust
    /// use divsharun::IdAllocator;
    ///
    /// // A device gets at most as many queues as there are vectors.
    /// let mut vectors = IdAllocator::new(32, 63)?;
    /// vectors.allocate_ids(24)?;
    /// assert_eq!(vectors.free_count().min(16), 8);
    /// # Ok::<(), divsharun::Error>(())
    /// ```
    #[must_use]
    pub fn free_count(&self) -> u64 {
        self.0.free_count()
    }
}

/// Writes the range, the next id and the allocated ids.
impl fmt::Debug for IdAllocator {
    fn fmt(&self, f: &mut fmt::Formatter<'_>) -> fmt::Result {
        DebugIds(&self.0).fmt(f)
    }
}

/// The `Debug` of an allocator of the proved code.
pub(crate) struct DebugIds<'a>(pub(crate) &'a proved::IdAllocator);

impl fmt::Debug for DebugIds<'_> {
    fn fmt(&self, f: &mut fmt::Formatter<'_>) -> fmt::Result {
        f.debug_struct("IdAllocator")
            .field("range_base", &self.0.range_base())
            .field("next_id", &self.0.next_id())
            .field("range_end", &self.0.range_end())
            .field("held_ids", &DebugList(|| self.0.held_ids()))
            .finish()
    }
}

/// An iterator over the allocated ids of an [`IdAllocator`], in ascending order or from both ends. Its
/// length is exact.
///
/// `nth` and `nth_back` take one step for each run of freed ids that they pass, however many ids they pass.
///
/// It is created by [`held_ids`](IdAllocator::held_ids) and [`iter`](IdAllocator::iter).
///
/// # Example
///
/// ```rust
/// use divsharun::IdAllocator;
///
/// let lines = IdAllocator::with_held(5, 23, &[5, 8, 9])?;
/// let mut ids = lines.held_ids();
/// assert_eq!(ids.next_back(), Some(9));
/// # #[cfg(target_pointer_width = "64")]
/// assert_eq!(ids.len(), 2);
/// assert!(ids.clone().rev().eq([8, 5]));
/// assert!(ids.eq([5, 8]));
/// # Ok::<(), divsharun::Error>(())
/// ```
#[derive(Clone)]
pub struct HeldIds<'a>(proved::HeldIds<'a>);

impl Iterator for HeldIds<'_> {
    type Item = u32;

    fn next(&mut self) -> Option<u32> {
        self.0.next()
    }

    fn size_hint(&self) -> (usize, Option<usize>) {
        let left = usize::try_from(self.0.count_left());
        (left.unwrap_or(usize::MAX), left.ok())
    }

    fn count(self) -> usize {
        self.size_hint().0
    }

    fn last(mut self) -> Option<u32> {
        self.next_back()
    }

    fn nth(&mut self, count: usize) -> Option<u32> {
        self.0.advance_by(count as u64);
        self.0.next()
    }

    fn min(mut self) -> Option<u32> {
        self.next()
    }

    fn max(mut self) -> Option<u32> {
        self.next_back()
    }
}

impl DoubleEndedIterator for HeldIds<'_> {
    fn next_back(&mut self) -> Option<u32> {
        self.0.next_back()
    }

    fn nth_back(&mut self, count: usize) -> Option<u32> {
        self.0.advance_back_by(count as u64);
        self.0.next_back()
    }
}

/// An iterator over the allocated ids of an [`IdAllocator`] in a window, in ascending order or from both ends.
///
/// It is created by [`held_ids_in`](IdAllocator::held_ids_in).
#[derive(Clone)]
pub struct HeldIdsIn<'a>(proved::HeldIdsIn<'a>);

iterate!(HeldIdsIn: u32, |_ids, id| id);
fused!(HeldIds);
allocator!(IdAllocator, HeldIds of u32, "the allocated ids");

// 2^32 ids are too many for a `usize` of 32 bits.
#[cfg(target_pointer_width = "64")]
impl ExactSizeIterator for HeldIds<'_> {}
