// SPDX-License-Identifier: Apache-2.0 OR BSD-3-Clause
//! The proved allocators for C.
//!
//! `divsharun.h` documents the calls and what they require of their caller.
//!
//! A pointer argument, or a pointer in its object, is an `Option` of a reference, which is `None` if
//! the pointer is null. Otherwise it is valid, as the header requires. A call writes its result last,
//! so an error leaves it unchanged.
#![no_std]
#![deny(unsafe_op_in_unsafe_fn, clippy::undocumented_unsafe_blocks)]
// Types have the names of the header.
#![allow(non_camel_case_types)]

extern crate alloc;

#[path = "../../rust/divsharun/src/saved/conditions.rs"]
mod conditions;
mod devices;
mod handle;
mod ids;
mod json;
mod lists;
mod maps;
mod objects;
// The eraser writes it. The library calls a part of it.
#[allow(dead_code)]
#[path = "../../rust/divsharun/src/proved/mod.rs"]
mod proved;
mod ranges;
#[path = "../../rust/divsharun/src/rattle/mod.rs"]
mod rattle;
mod refusal_text;
mod requests;
mod runtime;
mod status;
mod texts;
#[cfg(feature = "measured")]
#[path = "../speed/through_rust.rs"]
mod through_rust;

use crate::proved::vm_addresses::RangeInclusive;
use core::mem::MaybeUninit;
use status::{dvs_refusal, dvs_status, status_of, CallError};

/// A pointer to an argument.
type In<'a, T> = Option<&'a T>;

/// The destination of a result.
type Out<'a, T> = Option<&'a mut MaybeUninit<T>>;

/// The addresses from `start` to `end`, both included.
#[repr(C)]
#[derive(Clone, Copy, Default)]
pub struct dvs_range {
    start: u64,
    end: u64,
}

impl From<RangeInclusive> for dvs_range {
    fn from(range: RangeInclusive) -> Self {
        let (start, end) = (range.start(), range.end());
        dvs_range { start, end }
    }
}

impl TryFrom<dvs_range> for RangeInclusive {
    type Error = proved::vm_addresses::Error;

    fn try_from(range: dvs_range) -> Result<Self, Self::Error> {
        RangeInclusive::new(range.start, range.end)
    }
}
