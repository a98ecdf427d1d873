// SPDX-License-Identifier: Apache-2.0 OR BSD-3-Clause
use crate::pad::pad;
use crate::RangeInclusive;
use core::fmt;

/// The reason why the range of a request is not free, or why a range of a list cannot be allocated.
///
/// [`AddressAllocator::conflict`](crate::AddressAllocator::conflict),
/// [`AddressAllocator::move_conflict`](crate::AddressAllocator::move_conflict) and
/// [`DeviceManager::conflict`](crate::DeviceManager::conflict) return it, and a
/// [`ListError`](crate::ListError) has it. Only a list has the last two reasons.
///
/// `Display` writes all numbers in hexadecimal. A `match` needs an arm for the reasons of later
/// versions:
///
/// ```compile_fail
/// use divsharun::{Conflict, RangeInclusive};
///
/// fn other(conflict: Conflict) -> RangeInclusive {
///     match conflict {
///         Conflict::OutsideSpace(range) => range,
///         Conflict::OutsideWindow(range) => range,
///         Conflict::Allocated(range) => range,
///         Conflict::NotAfter(range) => range,
///         Conflict::EndsAtMax => panic!(),
///     }
/// }
/// ```
///
/// # Example
///
/// ```rust
/// use divsharun::{AddressAllocator, AllocPolicy, Conflict, Constraint, RangeInclusive};
///
/// let mmio = AddressAllocator::new(0xd000_0000, 0x2ec0_0000)?;
/// let bar = Constraint::new(0x4000, 0x4000, AllocPolicy::ExactMatch(0xfebf_c000))?;
/// assert_eq!(mmio.conflict(bar), None);
///
/// let bridge = RangeInclusive::new(0xd000_0000, 0xdfff_ffff)?;
/// assert_eq!(mmio.conflict(bar.within(bridge)?), Some(Conflict::OutsideWindow(bridge)));
///
/// let io_apic = Constraint::new(0x1000, 0x1000, AllocPolicy::ExactMatch(0xfec0_0000))?;
/// let space = RangeInclusive::new(mmio.base(), mmio.end())?;
/// assert_eq!(mmio.conflict(io_apic), Some(Conflict::OutsideSpace(space)));
/// let text = "an address is outside the space 0xd0000000-0xfebfffff";
/// assert_eq!(Conflict::OutsideSpace(space).to_string(), text);
///
/// let failure = AddressAllocator::with_free(&[space, bridge]).map_err(|failure| failure.conflict);
/// assert_eq!(failure, Err(Some(Conflict::NotAfter(space))));
/// # Ok::<(), divsharun::Error>(())
/// ```
#[derive(Clone, Copy, Debug, PartialEq, Eq, PartialOrd, Ord, Hash)]
#[non_exhaustive]
pub enum Conflict {
    /// The range is not in the space, or no range in the window is. This is the space.
    OutsideSpace(RangeInclusive),
    /// The range is in the space and not in the window of the request. This is the window.
    OutsideWindow(RangeInclusive),
    /// This allocated range has an address in common with the range. It is the lowest of them.
    Allocated(RangeInclusive),
    /// The range does not start after the end of the range before it in a list. This is the range before it.
    NotAfter(RangeInclusive),
    /// The range of a list ends at `u64::MAX`.
    EndsAtMax,
}

impl fmt::Display for Conflict {
    fn fmt(&self, f: &mut fmt::Formatter<'_>) -> fmt::Result {
        let (relation, range) = match self {
            Conflict::OutsideSpace(space) => ("outside the space", space),
            Conflict::OutsideWindow(window) => ("outside the window", window),
            Conflict::Allocated(held) => ("in the allocated range", held),
            Conflict::NotAfter(before) => {
                return pad(f, |to| write!(to, "it does not start after {before:#x}"));
            }
            Conflict::EndsAtMax => return pad(f, |to| write!(to, "it ends at the last address")),
        };
        pad(f, |to| write!(to, "an address is {relation} {range:#x}"))
    }
}
