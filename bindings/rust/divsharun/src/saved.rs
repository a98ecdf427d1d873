// SPDX-License-Identifier: Apache-2.0 OR BSD-3-Clause
//! The feature `serde`.
//!
//! Ranges, states and allocators have the names and fields that the derives of `vm-allocator`
//! write, in the same order. A tree is written balanced, so equal allocators have equal bytes.
//!
//! Proved code decides which values are valid, and which tree is written. These modules pass fields
//! on to it, one node, id or device at a time.

mod conditions;
mod reading;
mod strict;
mod writing;

use serde::{Deserialize, Serialize};
pub use strict::Strict;
pub use writing::Saved;

/// The fields of a saved map.
#[derive(Serialize, Deserialize)]
#[serde(rename = "RangeMap", deny_unknown_fields)]
struct Map<R> {
    base: u64,
    size: u64,
    ranges: R,
}

/// A range of a map, and its value.
#[derive(Serialize, Deserialize)]
#[serde(deny_unknown_fields)]
struct ValuedRange<T> {
    range: crate::RangeInclusive,
    value: T,
}
