// SPDX-License-Identifier: Apache-2.0 OR BSD-3-Clause
//! The replay language: one call per line, and one line of output for each.
//!
//! A line creates an object, or calls the last object of its kind:
//!
//! - `space B S`: [`AddressAllocator::new`], with a base and a size.
//! - `first N A`, `last N A`, `exact N A S`: [`AddressAllocator::allocate`], with a size, an
//!   alignment and a start.
//! - `free START END`: [`AddressAllocator::free`].
//! - `ids A B`: [`IdAllocator::new`], with the first and the last id.
//! - `id`: [`IdAllocator::allocate_id`].
//! - `unid N`: [`IdAllocator::free_id`].
//! - `has N`: [`IdAllocator::is_allocated`].
//! - `manager A B BASE SIZE`: [`DeviceManager::new`].
//! - `device N A`: [`DeviceManager::reserve`], with `FirstMatch`.
//! - `undevice ID`: [`DeviceManager::release`].
//!
//! The output is `done`, `range START END`, `id N`, `device ID START END`, `yes` or `no`, or
//! `error` with the reason. The program `divsharun-replay` runs the lines of a file, or of its
//! standard input.
//!
//! [`AddressAllocator::new`]: crate::AddressAllocator::new
//! [`AddressAllocator::allocate`]: crate::AddressAllocator::allocate
//! [`AddressAllocator::free`]: crate::AddressAllocator::free
//! [`IdAllocator::new`]: crate::IdAllocator::new
//! [`IdAllocator::allocate_id`]: crate::IdAllocator::allocate_id
//! [`IdAllocator::free_id`]: crate::IdAllocator::free_id
//! [`IdAllocator::is_allocated`]: crate::IdAllocator::is_allocated
//! [`DeviceManager::new`]: crate::DeviceManager::new
//! [`DeviceManager::reserve`]: crate::DeviceManager::reserve
//! [`DeviceManager::release`]: crate::DeviceManager::release

use crate::proved::vm_lines;
use crate::rattle::Global;
use core::fmt;
use std::io::{Read, Write};

/// The reason why a run ended before the end of its input.
///
/// A `match` needs an arm for the reasons of later versions:
///
/// ```compile_fail
/// use divsharun::replay::ReplayError;
///
/// fn is_read(error: ReplayError) -> bool {
///     match error {
///         ReplayError::Read => true,
///         ReplayError::Write => false,
///     }
/// }
/// ```
#[derive(Clone, Copy, Debug, PartialEq, Eq)]
#[non_exhaustive]
pub enum ReplayError {
    /// A read failed, or `u64::MAX` reads did not reach the end.
    Read,
    /// A write or the flush at the end failed.
    Write,
}

impl fmt::Display for ReplayError {
    fn fmt(&self, f: &mut fmt::Formatter<'_>) -> fmt::Result {
        f.pad(match self {
            ReplayError::Read => "reading a line failed",
            ReplayError::Write => "writing a result failed",
        })
    }
}

impl core::error::Error for ReplayError {}

/// Executes each line of the input, and writes one line of output for each.
///
/// Returns `Ok` after the whole input, also if calls of its lines returned errors. At most 4096
/// bytes of the input and 4096 bytes of the output are in memory at a time, so the reader and the
/// writer need no buffer.
///
/// # Errors
///
/// - [`Read`](ReplayError::Read) if a read fails. The output for the lines that end with a newline
///   is written, and nothing is flushed.
/// - [`Write`](ReplayError::Write) if a write or the last flush fails. It is then not known which
///   output was written.
///
/// # Example
///
/// ```rust
/// let lines = "space 4096 4096\nfirst 256 256\nfree 4096 4351\nfree 4096 4351\n";
/// let mut output = Vec::new();
/// divsharun::replay::run(lines.as_bytes(), &mut output)?;
/// assert_eq!(output, b"done\nrange 4096 4351\ndone\nerror not-available\n");
/// # Ok::<(), divsharun::replay::ReplayError>(())
/// ```
pub fn run<R: Read, W: Write>(mut reader: R, mut writer: W) -> Result<(), ReplayError> {
    vm_lines::run(Global, &mut reader, &mut writer).map_err(|error| match error {
        vm_lines::RunError::Read => ReplayError::Read,
        vm_lines::RunError::Write => ReplayError::Write,
    })
}
