// Written by bindings/erase from crates/vm_range_map/src/lib.rt: do not edit.

//! A map from allocated ranges to values. Each allocated range of addresses has a value of its caller, such as
//! the number of the owner or the device on a bus.

mod range_map;
mod refused;
mod valued_list;

pub use range_map::{RangeMap, ValuedRanges, ValuedRangesIn};
pub use refused::{Refused, RefusedList};
pub use valued_list::ValuedList;
