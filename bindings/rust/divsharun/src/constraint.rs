// SPDX-License-Identifier: Apache-2.0 OR BSD-3-Clause
use crate::pad::pad;
use crate::proved::vm_addresses as proved;
use crate::{AllocPolicy, Error, RangeInclusive, Result};
use core::fmt;
use core::hash::{Hash, Hasher};
use core::ops::{Bound, RangeBounds};

/// A valid request for addresses.
///
/// Its size is not 0, its alignment is a power of two, and the start of an `ExactMatch` is a
/// multiple of the alignment. It can have a window, in which its range must lie.
///
/// `Display` writes all numbers in hexadecimal.
///
/// # Example
///
/// ```rust
/// use divsharun::{AllocPolicy, Constraint, DEFAULT_CONSTRAINT_ALIGN, Error};
///
/// let request = Constraint::new(16, DEFAULT_CONSTRAINT_ALIGN, AllocPolicy::FirstMatch)?;
/// assert_eq!((request.size(), request.align()), (16, 4));
/// assert_eq!(request.policy(), AllocPolicy::FirstMatch);
/// assert_eq!(request.to_string(), "size 0x10, alignment 0x4, FirstMatch");
/// assert_eq!(
///     Constraint::new(16, 12, AllocPolicy::FirstMatch),
///     Err(Error::InvalidAlignment)
/// );
/// # Ok::<(), Error>(())
/// ```
#[derive(Copy, Clone, PartialEq, Eq)]
pub struct Constraint(pub(crate) proved::Constraint);

impl Constraint {
    /// Creates a request for `size` addresses that start at a multiple of `align`.
    ///
    /// # Errors
    ///
    /// In this order:
    /// - `InvalidSize(0)` if `size` is 0.
    /// - `InvalidAlignment` if `align` is not a power of two.
    /// - `UnalignedAddress` if `policy` is `ExactMatch` and its start is not a multiple of `align`.
    ///
    /// # Example
    ///
    /// ```rust
    /// use divsharun::{AllocPolicy, Constraint, Error};
    ///
    /// let serial = Constraint::new(8, 8, AllocPolicy::ExactMatch(0x3f8))?;
    /// assert_eq!(serial.to_string(), "size 0x8, alignment 0x8, ExactMatch(0x3f8)");
    /// assert_eq!(
    ///     Constraint::new(8, 8, AllocPolicy::ExactMatch(0x3fc)),
    ///     Err(Error::UnalignedAddress)
    /// );
    /// # Ok::<(), Error>(())
    /// ```
    pub const fn new(size: u64, align: u64, policy: AllocPolicy) -> Result<Self> {
        match proved::Constraint::new(size, align, policy) {
            Ok(request) => Ok(Constraint(request)),
            Err(proved::Error::InvalidAlignment) => Err(Error::InvalidAlignment),
            Err(proved::Error::UnalignedAddress) => Err(Error::UnalignedAddress),
            // The third error of the call.
            Err(_) => Err(Error::InvalidSize(size)),
        }
    }

    /// Returns the alignment of the first address.
    ///
    /// # Example
    ///
    /// ```rust
    /// use divsharun::{AllocPolicy, Constraint};
    ///
    /// // A BAR is aligned to its size.
    /// let bar = Constraint::new(0x4000, 0x4000, AllocPolicy::FirstMatch)?;
    /// assert_eq!(bar.align(), bar.size());
    /// # Ok::<(), divsharun::Error>(())
    /// ```
    #[must_use]
    pub const fn align(self) -> u64 {
        self.0.align()
    }

    /// Returns the number of requested addresses.
    ///
    /// # Example
    ///
    /// ```rust
    /// use divsharun::{AllocPolicy, Constraint};
    ///
    /// // An MSI-X table of 2048 vectors.
    /// let table = Constraint::new(2048 * 16, 0x1000, AllocPolicy::FirstMatch)?;
    /// assert_eq!(table.size(), 0x8000);
    /// # Ok::<(), divsharun::Error>(())
    /// ```
    #[must_use]
    pub const fn size(self) -> u64 {
        self.0.size()
    }

    /// Returns this request with a window: its range must lie in the window.
    ///
    /// `FirstMatch` then chooses the lowest range in the window, and `LastMatch` the highest.
    /// `ExactMatch` keeps its start. A window replaces the window that the request had.
    ///
    /// The window is any range of `u64`, such as `..=max` or `base..`, or a [`RangeInclusive`]. A window
    /// that starts at 0 has no lower limit. A window that ends at `u64::MAX` has no upper limit. With
    /// neither limit, the request has no window. A window that contains the space changes nothing.
    ///
    /// # Errors
    ///
    /// - `InvalidRange(first, last)` if the last address of the window is below the first. For `a..b`
    ///   they are `a` and `b - 1`. If the window ends before 0 or starts after `u64::MAX`, they are 1
    ///   and 0.
    ///
    /// # Example
    ///
    /// ```rust
    /// use divsharun::{AddressAllocator, AllocPolicy, Constraint, Error};
    ///
    /// // A 32-bit and a 64-bit register of one device, in one call.
    /// let mut mmio = AddressAllocator::new(0xc000_0000, 0x2_0000_0000)?;
    /// let bar = Constraint::new(0x1000, 0x1000, AllocPolicy::LastMatch)?;
    /// let bars = mmio.allocate_all(&[bar.within(..=0xffff_ffff)?, bar])?;
    /// assert_eq!((bars[0].start(), bars[1].start()), (0xffff_f000, 0x2_bfff_f000));
    ///
    /// assert_eq!(bar.within(bars[0])?.window(), Some(bars[0]));
    /// assert_eq!(bar.within(..)?.window(), None);
    /// assert_eq!(bar.within(9..9), Err(Error::InvalidRange(9, 8)));
    /// # Ok::<(), Error>(())
    /// ```
    pub fn within(self, window: impl Window) -> Result<Self> {
        let (low, high) = window.limits();
        Ok(Constraint(self.0.within_limits(low, high)?))
    }

    /// Returns the window in which the range must lie, or `None` if there is no limit.
    ///
    /// # Example
    ///
    /// ```rust
    /// use divsharun::{AllocPolicy, Constraint, Error, RangeInclusive};
    ///
    /// let bar = Constraint::new(0x1000, 0x1000, AllocPolicy::FirstMatch)?;
    /// let low = RangeInclusive::new(0, 0xffff_ffff)?;
    /// assert_eq!((bar.window(), bar.within(low)?.window()), (None, Some(low)));
    /// # Ok::<(), Error>(())
    /// ```
    #[must_use]
    pub const fn window(self) -> Option<RangeInclusive> {
        match self.0.window() {
            Some(window) => Some(RangeInclusive(window)),
            None => None,
        }
    }

    /// Returns the policy that chooses the range.
    ///
    /// # Example
    ///
    /// ```rust
    /// use divsharun::{AllocPolicy, Constraint};
    ///
    /// let firmware = AllocPolicy::ExactMatch(0xffc0_0000);
    /// let request = Constraint::new(0x40_0000, 0x1000, firmware)?;
    /// assert_eq!(request.policy(), firmware);
    /// # Ok::<(), divsharun::Error>(())
    /// ```
    #[must_use]
    pub const fn policy(self) -> AllocPolicy {
        self.0.policy()
    }
}

/// The window of a request or of a query: a range of addresses, or of ids with `u32`, with or without a
/// limit at each end.
///
/// Each range of these numbers is one, such as `..=max` and `base..`, and so is a [`RangeInclusive`] of
/// addresses. These calls take it: [`Constraint::within`],
/// [`AddressAllocator::held_ranges_in`](crate::AddressAllocator::held_ranges_in),
/// [`AddressAllocator::gaps_in`](crate::AddressAllocator::gaps_in) and
/// [`IdAllocator::allocate_in`](crate::IdAllocator::allocate_in). Other crates cannot implement it:
///
/// ```compile_fail
/// struct Below4Gib;
///
/// impl divsharun::Window for Below4Gib {
///     fn limits(&self) -> (u64, u64) {
///         (0, 0xffff_ffff)
///     }
/// }
/// ```
///
/// # Example
///
/// ```rust
/// use divsharun::{RangeInclusive, Window};
///
/// assert_eq!((..=0xffff_ffff_u64).limits(), (0, 0xffff_ffff));
/// assert_eq!((0x1_0000_0000..).limits(), (0x1_0000_0000, u64::MAX));
/// assert_eq!(RangeInclusive::new(0x3f8, 0x3ff)?.limits(), (0x3f8, 0x3ff));
/// # Ok::<(), divsharun::Error>(())
/// ```
#[diagnostic::on_unimplemented(
    message = "`{Self}` is not a window",
    note = "a window is a range of `{T}`, such as `..=max` or `base..`"
)]
pub trait Window<T = u64>: sealed::Sealed<T> {
    /// Returns the first and the last number. 0 is no lower limit, and `T::MAX` no upper limit. If there
    /// is no number, the last one is below the first.
    fn limits(&self) -> (T, T);
}

mod sealed {
    pub trait Sealed<T> {}

    impl<T, R: core::ops::RangeBounds<T>> Sealed<T> for R {}
    impl Sealed<u64> for crate::RangeInclusive {}
    impl Sealed<u64> for &crate::RangeInclusive {}
}

macro_rules! windows {
    ($($number:ty),+) => {$(
        impl<R: RangeBounds<$number>> Window<$number> for R {
            fn limits(&self) -> ($number, $number) {
                let low = match self.start_bound() {
                    Bound::Unbounded => Some(0),
                    Bound::Included(low) => Some(*low),
                    Bound::Excluded(below) => below.checked_add(1),
                };
                let high = match self.end_bound() {
                    Bound::Unbounded => Some(<$number>::MAX),
                    Bound::Included(high) => Some(*high),
                    Bound::Excluded(above) => above.checked_sub(1),
                };
                // No number is above the maximum or below 0.
                low.zip(high).unwrap_or((1, 0))
            }
        }
    )+};
}

windows! { u64, u32 }

// The fields of the proved range are private, so it cannot have references to its ends, as
// `RangeBounds` requires.
impl Window for RangeInclusive {
    fn limits(&self) -> (u64, u64) {
        (self.start(), self.end())
    }
}

impl Window for &RangeInclusive {
    fn limits(&self) -> (u64, u64) {
        (**self).limits()
    }
}

/// Hashes the size, the alignment, the policy and the window.
impl Hash for Constraint {
    fn hash<H: Hasher>(&self, state: &mut H) {
        (self.size(), self.align(), self.policy(), self.window()).hash(state);
    }
}

impl fmt::Debug for Constraint {
    fn fmt(&self, f: &mut fmt::Formatter<'_>) -> fmt::Result {
        self.0.fmt(f)
    }
}

impl fmt::Display for Constraint {
    fn fmt(&self, f: &mut fmt::Formatter<'_>) -> fmt::Result {
        let (size, align) = (self.size(), self.align());
        pad(f, |to| {
            write!(to, "size {size:#x}, alignment {align:#x}, ")?;
            match self.policy() {
                AllocPolicy::ExactMatch(start) => write!(to, "ExactMatch({start:#x})")?,
                policy => write!(to, "{policy:?}")?,
            }
            match self.window() {
                Some(window) => write!(to, ", window {window:#x}"),
                None => Ok(()),
            }
        })
    }
}
