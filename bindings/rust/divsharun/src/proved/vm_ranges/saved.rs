// Written by bindings/erase from crates/vm_ranges/src/saved.rt: do not edit.

//! Saved values of ranges and states, and functions that read the fields of a value.
//!
//! A value can be untrusted input. It is accepted if and only if it encodes an object: it has
//! exactly the fields of the object, and they are valid. The order of the fields does not matter.

use crate::rattle::{AllocError, AllocFailed};

/// The error of reading a saved value.
#[derive(Debug, PartialEq, Eq)]
#[allow(dead_code)]
pub enum ValueError {
    /// The value does not encode an object of the type.
    NotAState,
    /// An allocation of memory failed.
    OutOfMemory,
}

impl core::fmt::Display for ValueError {
    fn fmt(&self, f: &mut core::fmt::Formatter<'_>) -> core::fmt::Result {
        match self {
            ValueError::NotAState => write!(f, "The value states no valid object."),
            ValueError::OutOfMemory => write!(f, "There is not enough memory."),
        }
    }
}

impl core::error::Error for ValueError {}

impl From<AllocError> for ValueError {
    fn from(_error: AllocError) -> ValueError {
        ValueError::OutOfMemory
    }
}

impl<T> From<AllocFailed<T>> for ValueError {
    fn from(_error: AllocFailed<T>) -> ValueError {
        ValueError::OutOfMemory
    }
}

/// A condition that the parts of a saved object meet.
#[derive(Clone, Copy, Debug, PartialEq, Eq)]
pub enum Condition {
    /// Nodes are nested at most 50 deep.
    Nesting,
    /// Keys are in ascending order and share no address, no allocated key ends at `u64::MAX`, and
    /// nodes are nested at most 50 deep.
    Keys,
    /// All keys are in the space, and at most 6,293,134,512 keys are allocated.
    Inside,
    /// The tree is balanced, its heights are correct, its keys cover the space, and no two free ones
    /// are neighbours.
    Tree,
    /// The ids of a list are in strictly ascending order.
    Order,
    /// `range_base` is not past `range_end`.
    IdRange,
    /// The next id is in the range or right after it.
    NextId,
    /// Each freed id is in the range and below the next id.
    FreedIds,
    /// The version is 1.
    Version,
    /// The devices pair the allocated ids with the allocated ranges.
    Devices,
}

/// The error of reading the parts of a saved object.
#[derive(Clone, Copy, Debug, PartialEq, Eq)]
pub enum SavedError {
    /// The parts do not meet a condition.
    Violated(Condition),
    /// An allocation of memory failed.
    OutOfMemory,
}

impl From<AllocError> for SavedError {
    fn from(_error: AllocError) -> SavedError {
        SavedError::OutOfMemory
    }
}

impl<T> From<AllocFailed<T>> for SavedError {
    fn from(_error: AllocFailed<T>) -> SavedError {
        SavedError::OutOfMemory
    }
}

impl From<SavedError> for ValueError {
    fn from(error: SavedError) -> ValueError {
        match error {
            SavedError::Violated(_) => ValueError::NotAState,
            SavedError::OutOfMemory => ValueError::OutOfMemory,
        }
    }
}
