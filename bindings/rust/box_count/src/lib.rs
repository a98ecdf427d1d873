// SPDX-License-Identifier: Apache-2.0 OR BSD-3-Clause
//! The proved code with the tests of its sources, as plain Rust.
#![no_std]

extern crate alloc;
extern crate std;

// `bindings/erase/erase.py . bindings/rust/box_count/src/proved --tests` writes it. clippy checks
// the code without tests in divsharun.
#[allow(clippy::all)]
#[rustfmt::skip]
pub mod proved;
#[allow(clippy::len_without_is_empty)]
#[path = "../../divsharun/src/rattle/mod.rs"]
pub mod rattle;
pub mod testing;
pub mod value;
