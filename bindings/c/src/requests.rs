// SPDX-License-Identifier: Apache-2.0 OR BSD-3-Clause
//! Requests for a range.

use crate::proved::vm_addresses::{
    AddressAllocator, AllocPolicy, Conflict, Constraint, Error, RangeInclusive, Result as Answer,
};
use crate::status::{
    DVS_CAUSE_ALLOCATED, DVS_CAUSE_NO_FIT, DVS_CAUSE_OUTSIDE_SPACE, DVS_CAUSE_OUTSIDE_WINDOW,
    DVS_INVALID_POLICY, DVS_INVALID_STATE_TRANSITION, DVS_RESOURCE_NOT_AVAILABLE,
};
use crate::{dvs_range, dvs_refusal, CallError};

const DVS_FIRST: u32 = 0;
const DVS_LAST: u32 = 1;
const DVS_EXACT: u32 = 2;

/// A request for a range.
#[repr(C)]
pub struct dvs_request {
    size: u64,
    alignment: u64,
    start: u64,
    policy: u32,
    low: u64,
    high: u64,
}

impl dvs_request {
    /// Converts the request.
    ///
    /// # Errors
    ///
    /// In this order:
    /// - `InvalidPolicy` if the policy is not one of the constants.
    /// - Those of `Constraint::new`.
    /// - That of `Constraint::within_limits`.
    pub(crate) fn constraint(&self) -> Result<Constraint, CallError> {
        let policy = match self.policy {
            DVS_FIRST => AllocPolicy::FirstMatch,
            DVS_LAST => AllocPolicy::LastMatch,
            DVS_EXACT => AllocPolicy::ExactMatch(self.start),
            _ => return Err(DVS_INVALID_POLICY.into()),
        };
        let request = Constraint::new(self.size, self.alignment, policy)?;
        let high = if self.high == 0 { u64::MAX } else { self.high };
        Ok(request.within_limits(self.low, high)?)
    }
}

/// Passes on what a request returned. If its range is not available, and the caller wants details, they are
/// the error.
#[inline(always)]
pub(crate) fn answered<A, B: From<A>>(
    answer: Answer<A>,
    wants_details: bool,
    details: impl FnOnce() -> Option<dvs_refusal>,
) -> Result<B, CallError> {
    answer
        .map(Into::into)
        .map_err(|error| refused(error, wants_details, details))
}

/// Returns the error of a refused request, like [`answered`].
#[cold]
pub(crate) fn refused(
    error: Error,
    wants_details: bool,
    details: impl FnOnce() -> Option<dvs_refusal>,
) -> CallError {
    let mut refused = CallError::from(error);
    let has_cause = matches!(
        refused.status,
        DVS_RESOURCE_NOT_AVAILABLE | DVS_INVALID_STATE_TRANSITION
    );
    if wants_details && has_cause {
        refused.details = details().unwrap_or_default();
    }
    refused
}

/// Returns the details of a request that has a conflict.
pub(crate) fn in_the_way(request: Constraint, conflict: Option<Conflict>) -> Option<dvs_refusal> {
    let (cause, other) = match conflict? {
        Conflict::OutsideSpace(space) => (DVS_CAUSE_OUTSIDE_SPACE, space),
        Conflict::OutsideWindow(window) => (DVS_CAUSE_OUTSIDE_WINDOW, window),
        Conflict::Allocated(held) => (DVS_CAUSE_ALLOCATED, held),
    };
    Some(because_of(cause, request, other.into()))
}

/// Returns the window of a request, or the space if it has none.
pub(crate) fn window_of(request: Constraint, space: &AddressAllocator) -> RangeInclusive {
    request.window().unwrap_or(space.space())
}

/// Returns the details of a request that gets no range: what is in the way of it, or the longest gap of its window.
pub(crate) fn no_range(request: Constraint, space: &AddressAllocator) -> Option<dvs_refusal> {
    let no_fit = || no_fit(space.longest_gap_in(&window_of(request, space)));
    in_the_way(request, space.conflict(request)).or_else(|| Some(no_fit()))
}

/// Returns the details of a request that fits no gap.
pub(crate) fn no_fit(longest: Option<RangeInclusive>) -> dvs_refusal {
    let none = dvs_range { start: 1, end: 0 };
    dvs_refusal {
        other: longest.map_or(none, Into::into),
        cause: DVS_CAUSE_NO_FIT,
        ..dvs_refusal::default()
    }
}

/// Returns the details of a range that cannot be freed, which are those of a request for this range.
pub(crate) fn not_freed(space: &AddressAllocator, range: &RangeInclusive) -> Option<dvs_refusal> {
    let policy = AllocPolicy::ExactMatch(range.start());
    let request = Constraint::new(range.len(), 1, policy).ok()?;
    in_the_way(request, space.conflict(request))
}

/// Returns the details of a request with this cause, and the range that the cause names.
pub(crate) fn because_of(cause: u32, request: Constraint, other: dvs_range) -> dvs_refusal {
    let range = match request.policy() {
        AllocPolicy::ExactMatch(start) => {
            RangeInclusive::from_start_len(start, request.size()).ok()
        }
        _ => None,
    };
    dvs_refusal {
        range: range.map(Into::into).unwrap_or_default(),
        other,
        cause,
        ..dvs_refusal::default()
    }
}
