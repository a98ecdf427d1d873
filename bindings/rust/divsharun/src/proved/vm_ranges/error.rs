// Written by bindings/erase from crates/vm_ranges/src/error.rt: do not edit.

//! The errors of calls, with the texts of vm-allocator.

use crate::proved::vm_ranges::range::RangeInclusive;
use crate::proved::vm_ranges::state::NodeState;
use crate::rattle::{AllocError, AllocFailed};

/// The error of a call. A call that returns an error leaves the same ranges and ids allocated.
///
/// Errors are ordered by variant, then by fields.
#[derive(Clone, Debug, PartialEq, Eq, PartialOrd, Ord)]
pub enum Error {
    /// A range would end at or past `u64::MAX`, too few ids of a range up to `u32::MAX` are free, or too
    /// many ranges are allocated for a split.
    Overflow,
    /// The id is outside the range of the allocator.
    OutOfRange(u32),
    /// The id to free was freed and was not allocated since.
    AlreadyReleased(u32),
    /// The id to free was never allocated, or no device has the id to release.
    NeverAllocated(u32),
    /// No range is free for the request, the range to free is not allocated, too few ids are free, or
    /// the requested id is already allocated.
    ResourceNotAvailable,
    /// The start is past the end, or the range would contain all 2^64 addresses.
    InvalidRange(u64, u64),
    /// The alignment is not a power of two.
    InvalidAlignment,
    /// The first range overlaps the second, which is already in a tree.
    #[allow(dead_code)]
    Overlap(RangeInclusive, RangeInclusive),
    /// Exactly the requested range is already allocated.
    InvalidStateTransition(RangeInclusive, NodeState),
    /// The requested start is not a multiple of the alignment.
    UnalignedAddress,
    /// A space without addresses is requested.
    Underflow,
    /// The requested size is 0.
    InvalidSize(u64),
    /// An allocation of memory failed.
    OutOfMemory,
}

impl core::fmt::Display for Error {
    fn fmt(&self, f: &mut core::fmt::Formatter<'_>) -> core::fmt::Result {
        match self {
            Error::Overflow => write!(
                f,
                "Management operations on desired resource resulted in overflow."
            ),
            Error::OutOfRange(field_0) => write!(f, "Specified id: {field_0} is not in the range."),
            Error::AlreadyReleased(field_0) => {
                write!(f, "Specified id: {field_0} is already released.")
            }
            Error::NeverAllocated(field_0) => write!(
                f,
                "Specified id: {field_0} was never allocated, can't release it."
            ),
            Error::ResourceNotAvailable => write!(f, "The requested resource is not available."),
            Error::InvalidRange(field_0, field_1) => {
                write!(f, "The range specified: {field_0}-{field_1} is not valid.")
            }
            Error::InvalidAlignment => write!(f, "Alignment value is invalid."),
            Error::Overlap(field_0, field_1) => write!(
                f,
                "Addresses are overlapping.{field_0:?} intersects with existing {field_1:?}"
            ),
            Error::InvalidStateTransition(field_0, field_1) => write!(
                f,
                "Invalid state transition for node {field_0:?} from {field_1:?} to NodeState::Free"
            ),
            Error::UnalignedAddress => write!(f, "The address is not aligned."),
            Error::Underflow => write!(
                f,
                "Management operations on desired resource resulted in underflow."
            ),
            Error::InvalidSize(field_0) => write!(f, "The specified size: {field_0} is not valid."),
            Error::OutOfMemory => write!(f, "There is not enough memory."),
        }
    }
}

impl core::error::Error for Error {}

impl From<AllocError> for Error {
    fn from(_error: AllocError) -> Error {
        Error::OutOfMemory
    }
}

impl<T> From<AllocFailed<T>> for Error {
    fn from(_error: AllocFailed<T>) -> Error {
        Error::OutOfMemory
    }
}

/// The error of a call with a list. It names the item of the list that failed.
#[derive(Clone, Debug, PartialEq, Eq)]
pub struct ListError {
    /// The index of the item that failed, or `None` if no item is the cause.
    pub index: Option<usize>,
    /// The error.
    pub error: Error,
}

impl From<Error> for ListError {
    fn from(error: Error) -> ListError {
        ListError { index: None, error }
    }
}

impl From<AllocError> for ListError {
    fn from(error: AllocError) -> ListError {
        ListError::from(Error::from(error))
    }
}

impl From<ListError> for Error {
    fn from(failure: ListError) -> Error {
        failure.error
    }
}

/// The result of a call: a value or an [`Error`].
pub type Result<T> = core::result::Result<T, Error>;
