// Written by bindings/erase from crates/vm_ranges/src/constraint.rt: do not edit.

//! Requests for a range of addresses. A `Constraint` is always valid.

use crate::proved::vm_ranges::error::{Error, Result};
use crate::proved::vm_ranges::range::RangeInclusive;

/// The alignment for requests that need no particular alignment.
pub const DEFAULT_CONSTRAINT_ALIGN: u64 = 4;

/// The policy that chooses a free range for a request. The default is `FirstMatch`.
#[derive(Clone, Copy, Debug, Default, PartialEq, Eq, Hash)]
#[cfg_attr(feature = "serde", derive(serde::Serialize, serde::Deserialize))]
pub enum AllocPolicy {
    /// Chooses the lowest range.
    #[default]
    FirstMatch,
    /// Chooses the highest range.
    LastMatch,
    /// Chooses the range with this start.
    ExactMatch(u64),
}

/// Returns `true` if the start of `ExactMatch` is a multiple of the alignment. Returns `true` for the
/// other policies.
const fn is_start_aligned(align: u64, policy: AllocPolicy) -> bool {
    match policy {
        AllocPolicy::ExactMatch(start) => start & (align - 1) == 0,
        AllocPolicy::FirstMatch => true,
        AllocPolicy::LastMatch => true,
    }
}

/// A valid request for a range of addresses.
///
/// Its size is at least 1, its alignment is a power of two, and the start of `ExactMatch` is a
/// multiple of the alignment. A request can have a window, in which its range must lie.
#[derive(Clone, Copy, Debug, PartialEq, Eq)]
pub struct Constraint {
    size: u64,
    align: u64,
    policy: AllocPolicy,
    window: Option<RangeInclusive>,
}

/// If this many ranges are allocated, no gap is split. So no tree gets too high.
pub const SPLIT_LIMIT: u64 = 6_293_134_512;

impl Constraint {
    /// Creates a request for `size` addresses that start at a multiple of `align`.
    ///
    /// # Errors
    ///
    /// In this order:
    /// - `InvalidSize(0)` if `size` is 0.
    /// - `InvalidAlignment` if `align` is not a power of two.
    /// - `UnalignedAddress` if the start of `ExactMatch` is not a multiple of `align`.
    pub const fn new(size: u64, align: u64, policy: AllocPolicy) -> Result<Self> {
        if size == 0 {
            return Err(Error::InvalidSize(0));
        }
        if !align.is_power_of_two() {
            return Err(Error::InvalidAlignment);
        }
        if !is_start_aligned(align, policy) {
            return Err(Error::UnalignedAddress);
        }
        Ok(Constraint {
            size,
            align,
            policy,
            window: None,
        })
    }

    /// Returns this request with a window: its range must lie in the window.
    ///
    /// `FirstMatch` then chooses the lowest range in the window, and `LastMatch` the highest.
    /// `ExactMatch` keeps its start. A window replaces the window that the request had.
    pub const fn within(self, window: RangeInclusive) -> Self {
        Constraint {
            window: Some(window),
            ..self
        }
    }

    /// Returns this request with the window from `low` to `high`, both included. Its range must lie in
    /// the window.
    ///
    /// `low` 0 is no lower limit, and `high` `u64::MAX` is no upper limit. With neither limit the
    /// request has no window. These limits replace the window that the request had.
    ///
    /// # Errors
    ///
    /// - `InvalidRange(low, high)` if `high` is below `low`.
    pub const fn within_limits(self, low: u64, high: u64) -> Result<Self> {
        if low == 0 && high == u64::MAX {
            return Ok(Constraint {
                window: None,
                ..self
            });
        }
        match RangeInclusive::new(low, high) {
            Ok(window) => Ok(self.within(window)),
            Err(error) => Err(error),
        }
    }

    /// Returns the alignment: the first address of the range is a multiple of it.
    pub const fn align(self) -> u64 {
        self.align
    }

    /// Returns the number of requested addresses.
    pub const fn size(self) -> u64 {
        self.size
    }

    /// Returns the window in which the range must lie, or `None` if there is none.
    pub const fn window(self) -> Option<RangeInclusive> {
        self.window
    }

    /// Returns the policy that chooses the range.
    pub const fn policy(self) -> AllocPolicy {
        self.policy
    }
}
