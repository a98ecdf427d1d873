// SPDX-License-Identifier: Apache-2.0 OR BSD-3-Clause
//! The text of an error with its numbers.

use crate::status::*;
use crate::{dvs_range, In};
use core::ffi::c_char;
use core::fmt::{self, Write};

/// The buffer of a caller. A text is cut at its end.
struct Buffer {
    start: *mut c_char,
    capacity: usize,
    /// The number of bytes of the text, which can be more than fit.
    length: usize,
}

impl Buffer {
    /// Writes a byte of the text, or the zero byte after it, if there is room.
    fn put(&mut self, at: usize, byte: u8) {
        if at < self.capacity {
            // SAFETY: the caller's buffer has this byte.
            unsafe { self.start.add(at).write(byte as c_char) };
        }
    }
}

impl Write for Buffer {
    fn write_str(&mut self, text: &str) -> fmt::Result {
        for byte in text.bytes() {
            // The last byte is for the zero byte.
            if self.length + 1 < self.capacity {
                self.put(self.length, byte);
            }
            self.length += 1;
        }
        Ok(())
    }
}

impl fmt::Display for dvs_range {
    fn fmt(&self, f: &mut fmt::Formatter<'_>) -> fmt::Result {
        write!(f, "{:#x}-{:#x}", self.start, self.end)
    }
}

/// Writes the cause of an error.
fn write_cause(to: &mut Buffer, status: dvs_status, refusal: &dvs_refusal) -> fmt::Result {
    let (range, other) = (refusal.range, refusal.other);
    match refusal.cause {
        DVS_CAUSE_ALLOCATED if status == DVS_INVALID_STATE_TRANSITION => {
            write!(to, "{range} is already allocated")
        }
        DVS_CAUSE_ALLOCATED => write!(to, "{range} overlaps {other}"),
        // A request has no given start, or would end past the last address.
        DVS_CAUSE_OUTSIDE_SPACE if range.end == 0 => {
            write!(to, "The range is outside the space {other}")
        }
        DVS_CAUSE_OUTSIDE_SPACE => write!(to, "{range} is outside the space {other}"),
        DVS_CAUSE_OUTSIDE_WINDOW => write!(to, "{range} is outside the window {other}"),
        DVS_CAUSE_EARLIER_REQUEST => {
            write!(to, "{range} overlaps {other} of an earlier request")
        }
        DVS_CAUSE_NOT_AFTER => write!(to, "{range} does not start after {other}"),
        DVS_CAUSE_ENDS_AT_MAX => write!(to, "{range} ends at the last address"),
        DVS_CAUSE_NO_FIT if other.start > other.end => {
            to.write_str("No address of the window is free")
        }
        DVS_CAUSE_NO_FIT => {
            write!(to, "No gap of the window fits; the longest is {other}")
        }
        _ => write_details(to, status, refusal),
    }
}

/// Writes the details of an error without a cause.
fn write_details(to: &mut Buffer, status: dvs_status, refusal: &dvs_refusal) -> fmt::Result {
    let (range, id) = (refusal.range, refusal.id);
    match status {
        DVS_OUT_OF_RANGE => write!(to, "The id {id} is outside the range of the allocator"),
        DVS_ALREADY_RELEASED => write!(to, "The id {id} is already freed"),
        DVS_NEVER_ALLOCATED => {
            write!(to, "The id {id} was never allocated, or no device has it")
        }
        DVS_RESOURCE_NOT_AVAILABLE if id != 0 => {
            write!(to, "The id {id} is allocated, not found or out of order")
        }
        DVS_INVALID_RANGE => write!(to, "{range} is not a valid range"),
        DVS_OVERLAP => write!(to, "{range} overlaps {}", refusal.other),
        _ => to.write_str(text_of(status)),
    }
}

/// # Safety
///
/// The buffer is null or has `length` writable bytes.
#[unsafe(no_mangle)]
pub unsafe extern "C" fn dvs_refusal_text(
    status: dvs_status,
    refusal: In<dvs_refusal>,
    buffer: *mut c_char,
    length: usize,
) -> usize {
    let mut text = Buffer {
        start: buffer,
        capacity: if buffer.is_null() { 0 } else { length },
        length: 0,
    };
    // DVS_OK writes no details.
    let refusal = refusal.filter(|_| status != DVS_OK);
    let written = match refusal {
        Some(refusal) => write_cause(&mut text, status, refusal),
        None => text.write_str(text_of(status)),
    };
    debug_assert!(written.is_ok());
    let end = text.length.min(text.capacity.saturating_sub(1));
    text.put(end, 0);
    text.length
}
