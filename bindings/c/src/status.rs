// SPDX-License-Identifier: Apache-2.0 OR BSD-3-Clause
//! The errors of calls, as statuses and details.

use crate::proved::vm_addresses::Error;
use crate::rattle::AllocError;
use crate::{dvs_range, Out};
use core::ffi::c_char;

/// The result of a call.
pub type dvs_status = u32;

/// A number of the header, its name and its text. Both end with a zero byte.
type Row = (u32, &'static str, &'static str);

/// The row of any other number.
static UNKNOWN: Row = (0, "unknown\0", "Unknown number\0");

/// Defines the numbers of an `enum` of the header. The comment of each there begins with its text, but that of no
/// cause, which has an empty text.
macro_rules! numbers {
    ($table:ident: $($name:ident = $number:literal, $text:literal;)+) => {
        $(pub(crate) const $name: u32 = $number;)+

        static $table: &[Row] =
            &[$(($name, concat!(stringify!($name), "\0"), concat!($text, "\0"))),+];
    };
}

numbers! { STATUSES:
    DVS_OK = 0, "The call succeeded";
    DVS_OVERFLOW = 1, "A range would end at or past UINT64_MAX, too few ids up to UINT32_MAX are free, or too many ranges are allocated";
    DVS_OUT_OF_RANGE = 2, "The id is outside the range of the allocator";
    DVS_ALREADY_RELEASED = 3, "The id is already freed";
    DVS_NEVER_ALLOCATED = 4, "The id was never allocated, or no device has it";
    DVS_RESOURCE_NOT_AVAILABLE = 5, "No free range or id fits, or the given range, id or address is allocated, not found or out of order";
    DVS_INVALID_RANGE = 6, "The start of a range is past its end, or the range has all 2^64 addresses";
    DVS_INVALID_ALIGNMENT = 7, "The alignment is not a power of two";
    DVS_OVERLAP = 8, "Two ranges share an address";
    DVS_INVALID_STATE_TRANSITION = 9, "Exactly the requested range is already allocated";
    DVS_UNALIGNED_ADDRESS = 10, "The requested start is not a multiple of the alignment";
    DVS_UNDERFLOW = 11, "The size of a space is 0";
    DVS_INVALID_SIZE = 12, "The size of a requested range is 0";
    DVS_OUT_OF_MEMORY = 13, "Memory ran out";
    DVS_NULL = 14, "A pointer that must not be null is null";
    DVS_BUSY = 15, "The object is being visited, so it cannot be changed or destroyed";
    DVS_NOT_JSON = 16, "The text is not JSON";
    DVS_NOT_A_STATE = 17, "The text is JSON, but does not encode an object of the type";
    DVS_INVALID_POLICY = 18, "The policy of a request is not one of the constants";
    DVS_LIMIT_EXCEEDED = 19, "The text is longer or nested deeper than the caller allows";
}

numbers! { CAUSES:
    DVS_CAUSE_NONE = 0, "";
    DVS_CAUSE_ALLOCATED = 1, "An address is allocated";
    DVS_CAUSE_OUTSIDE_SPACE = 2, "An address is outside the space";
    DVS_CAUSE_OUTSIDE_WINDOW = 3, "An address is outside the window of the request";
    DVS_CAUSE_EARLIER_REQUEST = 4, "An address is in the range of an earlier request of the same call";
    DVS_CAUSE_NOT_AFTER = 5, "The range does not start after the end of the range before it";
    DVS_CAUSE_ENDS_AT_MAX = 6, "The range ends at UINT64_MAX";
    DVS_CAUSE_NO_FIT = 7, "No gap of the window fits the request";
}

/// The details of an error.
#[repr(C)]
#[derive(Clone, Copy, Default)]
pub struct dvs_refusal {
    pub(crate) range: dvs_range,
    pub(crate) other: dvs_range,
    pub(crate) size: u64,
    pub(crate) id: u32,
    pub(crate) cause: u32,
}

/// The status of a call that failed, and its details for the caller.
pub(crate) struct Failure<D> {
    pub(crate) status: dvs_status,
    pub(crate) details: D,
    /// The index of the member of an array that failed.
    pub(crate) index: Option<usize>,
}

/// The error of a call on objects.
pub(crate) type CallError = Failure<dvs_refusal>;

impl<D> Failure<D> {
    pub(crate) fn new(status: dvs_status, details: D) -> Self {
        Failure {
            status,
            details,
            index: None,
        }
    }
}

impl From<dvs_status> for CallError {
    fn from(status: dvs_status) -> Self {
        CallError::new(status, dvs_refusal::default())
    }
}

impl From<AllocError> for CallError {
    fn from(_: AllocError) -> Self {
        DVS_OUT_OF_MEMORY.into()
    }
}

impl From<Error> for CallError {
    // It is not inlined, because successful calls would move the error before they check for one.
    #[cold]
    #[inline(never)]
    fn from(error: Error) -> Self {
        let none = dvs_refusal::default();
        let of_id = |id| dvs_refusal { id, ..none };
        let of_ranges = |range, other| dvs_refusal {
            range,
            other,
            ..none
        };
        let of_range = |range| of_ranges(range, none.other);
        let (status, details) = match error {
            Error::Overflow => (DVS_OVERFLOW, none),
            Error::OutOfRange(id) => (DVS_OUT_OF_RANGE, of_id(id)),
            Error::AlreadyReleased(id) => (DVS_ALREADY_RELEASED, of_id(id)),
            Error::NeverAllocated(id) => (DVS_NEVER_ALLOCATED, of_id(id)),
            Error::ResourceNotAvailable => (DVS_RESOURCE_NOT_AVAILABLE, none),
            Error::InvalidRange(start, end) => {
                (DVS_INVALID_RANGE, of_range(dvs_range { start, end }))
            }
            Error::InvalidAlignment => (DVS_INVALID_ALIGNMENT, none),
            Error::Overlap(range, other) => (DVS_OVERLAP, of_ranges(range.into(), other.into())),
            Error::InvalidStateTransition(range, _) => {
                (DVS_INVALID_STATE_TRANSITION, of_range(range.into()))
            }
            Error::UnalignedAddress => (DVS_UNALIGNED_ADDRESS, none),
            Error::Underflow => (DVS_UNDERFLOW, none),
            Error::InvalidSize(size) => (DVS_INVALID_SIZE, dvs_refusal { size, ..none }),
            Error::OutOfMemory => (DVS_OUT_OF_MEMORY, none),
        };
        CallError::new(status, details)
    }
}

/// Returns the error of a call that names an id. The details of `ResourceNotAvailable` have the id.
#[cold]
pub(crate) fn refused_id(error: Error, id: u32) -> CallError {
    let mut refused = CallError::from(error);
    if refused.status == DVS_RESOURCE_NOT_AVAILABLE {
        refused.details.id = id;
    }
    refused
}

/// Returns the status of a result. If it is an error, also writes its details to `out`.
#[inline(always)]
pub(crate) fn status_of<D: Copy>(answer: Result<(), Failure<D>>, out: Out<D>) -> dvs_status {
    match answer {
        Ok(()) => DVS_OK,
        Err(failure) => report(&failure, out),
    }
}

#[cold]
fn report<D: Copy>(failure: &Failure<D>, out: Out<D>) -> dvs_status {
    if let Some(out) = out {
        out.write(failure.details);
    }
    failure.status
}

/// Returns the row of a number, which is from C, so it can be any.
fn row(table: &'static [Row], number: u32) -> &'static Row {
    let row = table.iter().find(|row| row.0 == number);
    row.unwrap_or(&UNKNOWN)
}

#[unsafe(no_mangle)]
pub extern "C" fn dvs_status_name(status: dvs_status) -> *const c_char {
    row(STATUSES, status).1.as_ptr().cast()
}

#[unsafe(no_mangle)]
pub extern "C" fn dvs_status_text(status: dvs_status) -> *const c_char {
    row(STATUSES, status).2.as_ptr().cast()
}

/// Returns the text of a status.
pub(crate) fn text_of(status: dvs_status) -> &'static str {
    row(STATUSES, status).2.trim_end_matches('\0')
}

#[unsafe(no_mangle)]
pub extern "C" fn dvs_cause_text(cause: u32) -> *const c_char {
    row(CAUSES, cause).2.as_ptr().cast()
}

#[unsafe(no_mangle)]
pub extern "C" fn dvs_version_text() -> *const c_char {
    concat!(env!("CARGO_PKG_VERSION"), "\0").as_ptr().cast()
}

/// The version is that of Cargo.toml.
#[unsafe(no_mangle)]
pub extern "C" fn dvs_version_number() -> u32 {
    let parts = env!("CARGO_PKG_VERSION").split('.');
    parts.fold(0, |number, part| {
        100 * number + part.parse::<u32>().unwrap_or(0)
    })
}
