// SPDX-License-Identifier: Apache-2.0 OR BSD-3-Clause
//! [`divsharun`] under the name of the crate `vm-allocator` 0.1.4, whose API it has.
#![no_std]

pub use divsharun::*;
