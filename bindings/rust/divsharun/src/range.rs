// SPDX-License-Identifier: Apache-2.0 OR BSD-3-Clause
use crate::pad::pad;
use crate::proved::vm_addresses as proved;
use crate::{Error, Result};
use core::str::FromStr;
use core::{fmt, ops};

/// A closed range of addresses, which includes its start and its end.
///
/// It is never empty and never has all 2^64 addresses, so its length fits a `u64`. Ranges are
/// ordered by start, then by end.
///
/// `Display` writes both ends in hexadecimal, like `/proc/iomem`, and applies a width to both
/// together. `LowerHex` applies the flags of the format to each end. `FromStr` reads both forms, with or
/// without `0x`.
///
/// # Example
///
/// ```rust
/// use divsharun::RangeInclusive;
///
/// let window = RangeInclusive::new(0xd000_0000, 0xd000_0fff)?;
/// assert_eq!((window.start(), window.len()), (0xd000_0000, 0x1000));
///
/// let registers = RangeInclusive::new(0xd000_0100, 0xd000_01ff)?;
/// assert!(window.contains(&registers) && registers.overlaps(&window));
///
/// assert_eq!(window.to_string(), "d0000000-d0000fff");
/// assert_eq!(format!("{window:>20}|"), "   d0000000-d0000fff|");
/// assert_eq!(format!("{registers:#x}"), "0xd0000100-0xd00001ff");
/// assert_eq!("d0000000-d0000fff".parse(), Ok(window));
/// assert_eq!(RangeInclusive::try_from(0xd000_0000..=0xd000_0fff)?, window);
/// # Ok::<(), divsharun::Error>(())
/// ```
#[derive(Copy, Clone, PartialEq, Eq, PartialOrd, Ord, Hash)]
#[cfg_attr(feature = "serde", derive(serde::Serialize, serde::Deserialize))]
#[cfg_attr(feature = "serde", serde(transparent))]
pub struct RangeInclusive(pub(crate) proved::RangeInclusive);

// No range is empty, so `is_empty` would always be false.
#[allow(clippy::len_without_is_empty)]
impl RangeInclusive {
    /// Creates the range from `start` to `end`, both included.
    ///
    /// # Errors
    ///
    /// - `InvalidRange(start, end)` if `start` is past `end`, or if the range would contain all
    ///   2^64 addresses.
    ///
    /// # Example
    ///
    /// ```rust
    /// use divsharun::{Error, RangeInclusive};
    ///
    /// // The local APICs and MSI.
    /// let apics = RangeInclusive::new(0xfee0_0000, 0xfeef_ffff)?;
    /// assert_eq!(apics, RangeInclusive::from_start_len(0xfee0_0000, 0x10_0000)?);
    /// assert_eq!(RangeInclusive::new(0x3ff, 0x3f8), Err(Error::InvalidRange(0x3ff, 0x3f8)));
    /// # Ok::<(), Error>(())
    /// ```
    pub const fn new(start: u64, end: u64) -> Result<Self> {
        match proved::RangeInclusive::new(start, end) {
            Ok(range) => Ok(RangeInclusive(range)),
            // The only error of the call.
            Err(_) => Err(Error::InvalidRange(start, end)),
        }
    }

    /// Creates the range of the `len` addresses that start at `start`, such as a BAR by its base and
    /// its size.
    ///
    /// # Errors
    ///
    /// In this order:
    /// - `InvalidSize(0)` if `len` is 0.
    /// - `Overflow` if the last address would be past `u64::MAX`.
    ///
    /// # Example
    ///
    /// ```rust
    /// use divsharun::{Error, RangeInclusive};
    ///
    /// let bar = RangeInclusive::from_start_len(0xd000_0000, 0x4000)?;
    /// assert_eq!(bar, RangeInclusive::new(0xd000_0000, 0xd000_3fff)?);
    /// assert_eq!(RangeInclusive::from_start_len(u64::MAX, 2), Err(Error::Overflow));
    /// # Ok::<(), Error>(())
    /// ```
    pub const fn from_start_len(start: u64, len: u64) -> Result<Self> {
        match proved::RangeInclusive::from_start_len(start, len) {
            Ok(range) => Ok(RangeInclusive(range)),
            Err(proved::Error::InvalidSize(size)) => Err(Error::InvalidSize(size)),
            // The only other error of the call.
            Err(_) => Err(Error::Overflow),
        }
    }

    /// Returns the offset of an address in the range: the number of addresses below it. Returns
    /// `None` if the address is not in the range.
    ///
    /// # Example
    ///
    /// ```rust
    /// use divsharun::RangeInclusive;
    ///
    /// let bar = RangeInclusive::from_start_len(0xd000_0000, 0x4000)?;
    /// assert_eq!(bar.offset_of(0xd000_0010), Some(0x10));
    /// assert_eq!(bar.offset_of(0xd000_4000), None);
    /// # Ok::<(), divsharun::Error>(())
    /// ```
    #[must_use]
    pub const fn offset_of(&self, address: u64) -> Option<u64> {
        self.0.offset_of(address)
    }

    /// Returns the number of addresses in the range.
    ///
    /// # Example
    ///
    /// ```rust
    /// use divsharun::RangeInclusive;
    ///
    /// let serial = RangeInclusive::new(0x3f8, 0x3ff)?;
    /// assert_eq!(serial.len(), 8);
    /// # Ok::<(), divsharun::Error>(())
    /// ```
    #[must_use]
    pub const fn len(&self) -> u64 {
        self.0.len()
    }

    /// Returns `true` if both ranges share an address.
    ///
    /// # Example
    ///
    /// ```rust
    /// use divsharun::RangeInclusive;
    ///
    /// let io_apic = RangeInclusive::new(0xfec0_0000, 0xfec0_0fff)?;
    /// assert!(RangeInclusive::new(0xfeb0_0000, 0xfec0_0000)?.overlaps(&io_apic));
    /// assert!(!RangeInclusive::new(0xfeb0_0000, 0xfebf_ffff)?.overlaps(&io_apic));
    /// # Ok::<(), divsharun::Error>(())
    /// ```
    #[must_use]
    pub const fn overlaps(&self, other: &RangeInclusive) -> bool {
        self.0.overlaps(&other.0)
    }

    /// Returns `true` if every address of `other` is in the range.
    ///
    /// # Example
    ///
    /// ```rust
    /// use divsharun::RangeInclusive;
    ///
    /// let bridge = RangeInclusive::new(0xfe00_0000, 0xfe1f_ffff)?;
    /// let bar = RangeInclusive::new(0xfe10_0000, 0xfe10_3fff)?;
    /// assert!(bridge.contains(&bar));
    /// assert!(!bar.contains(&bridge));
    /// # Ok::<(), divsharun::Error>(())
    /// ```
    #[must_use]
    pub const fn contains(&self, other: &RangeInclusive) -> bool {
        self.0.contains(&other.0)
    }

    /// Returns `true` if the address is in the range.
    ///
    /// # Example
    ///
    /// ```rust
    /// use divsharun::RangeInclusive;
    ///
    /// let clock = RangeInclusive::new(0x70, 0x71)?;
    /// assert!(clock.contains_address(0x71));
    /// assert!(!clock.contains_address(0x72));
    /// # Ok::<(), divsharun::Error>(())
    /// ```
    #[must_use]
    pub const fn contains_address(&self, address: u64) -> bool {
        self.start() <= address && address <= self.end()
    }

    /// Returns the addresses that are in both ranges, or `None` if there are none.
    ///
    /// # Example
    ///
    /// ```rust
    /// use divsharun::RangeInclusive;
    ///
    /// let low = RangeInclusive::new(0, 0xffff_ffff)?;
    /// let window = RangeInclusive::new(0xc000_0000, 0x1_3fff_ffff)?;
    /// let low_part = RangeInclusive::new(0xc000_0000, 0xffff_ffff)?;
    /// assert_eq!(window.intersection(&low), Some(low_part));
    /// let high = RangeInclusive::new(0x1_0000_0000, 0x1_3fff_ffff)?;
    /// assert_eq!(high.intersection(&low), None);
    /// # Ok::<(), divsharun::Error>(())
    /// ```
    #[must_use]
    pub fn intersection(&self, other: &RangeInclusive) -> Option<RangeInclusive> {
        let start = self.start().max(other.start());
        RangeInclusive::new(start, self.end().min(other.end())).ok()
    }

    /// Returns the first address.
    ///
    /// # Example
    ///
    /// ```rust
    /// use divsharun::RangeInclusive;
    ///
    /// let timer = RangeInclusive::try_from(0xfed0_0000..=0xfed0_03ff)?;
    /// assert_eq!(timer.start(), 0xfed0_0000);
    /// # Ok::<(), divsharun::Error>(())
    /// ```
    #[must_use]
    pub const fn start(&self) -> u64 {
        self.0.start()
    }

    /// Returns the last address.
    ///
    /// # Example
    ///
    /// ```rust
    /// use divsharun::RangeInclusive;
    ///
    /// // The configuration space of 256 PCI buses.
    /// let buses = RangeInclusive::from_start_len(0xb000_0000, 0x1000_0000)?;
    /// assert_eq!(buses.end(), 0xbfff_ffff);
    /// # Ok::<(), divsharun::Error>(())
    /// ```
    #[must_use]
    pub const fn end(&self) -> u64 {
        self.0.end()
    }
}

impl fmt::Debug for RangeInclusive {
    fn fmt(&self, f: &mut fmt::Formatter<'_>) -> fmt::Result {
        self.0.fmt(f)
    }
}

impl fmt::LowerHex for RangeInclusive {
    fn fmt(&self, f: &mut fmt::Formatter<'_>) -> fmt::Result {
        fmt::LowerHex::fmt(&self.start(), f)?;
        f.write_str("-")?;
        fmt::LowerHex::fmt(&self.end(), f)
    }
}

impl fmt::Display for RangeInclusive {
    fn fmt(&self, f: &mut fmt::Formatter<'_>) -> fmt::Result {
        match f.alternate() {
            true => pad(f, |to| write!(to, "{self:#x}")),
            false => pad(f, |to| write!(to, "{self:x}")),
        }
    }
}

/// # Errors
///
/// - [`ParseRangeError`] if the text is not two hexadecimal numbers with a `-` between them, or if
///   [`new`](RangeInclusive::new) returns an error for them.
impl FromStr for RangeInclusive {
    type Err = ParseRangeError;

    fn from_str(text: &str) -> core::result::Result<Self, ParseRangeError> {
        let number = |text: &str| {
            let digits = text.strip_prefix("0x").unwrap_or(text);
            let is_signed = digits.starts_with('+');
            u64::from_str_radix(digits, 16).ok().filter(|_| !is_signed)
        };
        let ends = text.split_once('-').ok_or(ParseRangeError)?;
        let ends = number(ends.0).zip(number(ends.1)).ok_or(ParseRangeError)?;
        RangeInclusive::new(ends.0, ends.1).map_err(|_| ParseRangeError)
    }
}

/// The error of reading a [`RangeInclusive`] from a text.
///
/// # Example
///
/// ```rust
/// use divsharun::{ParseRangeError, RangeInclusive};
///
/// fn len_of(window: &str) -> Result<u64, ParseRangeError> {
///     Ok(window.parse::<RangeInclusive>()?.len())
/// }
///
/// assert_eq!(len_of("0x3f8-0x3ff"), Ok(8));
/// assert!(len_of("0x3ff-0x3f8").is_err());
/// ```
#[derive(Clone, Copy, Debug, PartialEq, Eq)]
#[non_exhaustive]
pub struct ParseRangeError;

impl fmt::Display for ParseRangeError {
    fn fmt(&self, f: &mut fmt::Formatter<'_>) -> fmt::Result {
        f.pad("the text is not a range of addresses, such as d0000000-d0000fff")
    }
}

impl core::error::Error for ParseRangeError {}

impl From<RangeInclusive> for ops::RangeInclusive<u64> {
    fn from(range: RangeInclusive) -> Self {
        range.start()..=range.end()
    }
}

/// # Errors
///
/// - `InvalidRange` with both ends, if the range is empty, or if the range would contain all 2^64
///   addresses.
impl TryFrom<ops::RangeInclusive<u64>> for RangeInclusive {
    type Error = Error;

    fn try_from(range: ops::RangeInclusive<u64>) -> Result<Self> {
        // An iterator that has returned its last address is empty, and its start can equal its end.
        if range.is_empty() {
            return Err(Error::InvalidRange(*range.start(), *range.end()));
        }
        RangeInclusive::new(*range.start(), *range.end())
    }
}
