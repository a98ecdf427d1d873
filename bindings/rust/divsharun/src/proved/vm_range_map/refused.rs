// Written by bindings/erase from crates/vm_range_map/src/refused.rt: do not edit.

//! The errors of calls that were given values.
use crate::proved::vm_addresses::{Error, ListError};
use crate::proved::vm_range_map::valued_list::ValuedList;

/// The error of a call, and the value that it was given. Nothing else has this value.
#[derive(Debug)]
pub struct Refused<T> {
    pub error: Error,
    pub value: T,
}

/// The error of a call with a list, and the list that it was given.
#[derive(Debug)]
pub struct RefusedList<K, T> {
    pub error: ListError,
    pub list: ValuedList<K, T>,
}
