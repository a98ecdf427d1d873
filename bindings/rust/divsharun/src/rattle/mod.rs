// SPDX-License-Identifier: Apache-2.0 OR BSD-3-Clause
//! Replacements for the items of Rattle's library that Rust does not have or defines differently.
//!
//! Boxes and vectors report a failed allocation, as in Rattle.
#![forbid(unsafe_code)]
#![warn(clippy::must_use_candidate)]
#![deny(missing_docs)]

mod boxed;
mod vec;

pub use boxed::Box;
pub use vec::Vec;

/// The allocator. It stands for Rust's global allocator, and has no state.
#[derive(Clone, Copy, Debug)]
pub struct Global;

/// An allocation failed.
#[derive(Clone, Copy, Debug, PartialEq, Eq)]
pub struct AllocError;

/// An allocation failed. The error returns the value that it was for.
#[derive(Debug)]
pub struct AllocFailed<T> {
    /// The value that there was no memory for.
    pub value: T,
}

impl<T> From<AllocFailed<T>> for AllocError {
    fn from(_: AllocFailed<T>) -> AllocError {
        AllocError
    }
}
