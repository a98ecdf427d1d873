// Written by bindings/erase from crates/vm_lines/src/reply.rt: do not edit.

//! Replies to lines, and their text.

use crate::proved::vm_addresses::{Error, RangeInclusive, Result};
use crate::proved::vm_commands::Buffer;
use crate::proved::vm_devices::DeviceSlot;

/// The maximum length of a reply in bytes, without its newline: the length of the error for an
/// invalid range.
pub(in crate::proved::vm_lines) const MAX_REPLY_LEN: usize = 61;

/// The reply to a line.
pub(in crate::proved::vm_lines) enum Reply {
    /// The call succeeded and returned nothing.
    Done,
    /// The range was allocated.
    Given(RangeInclusive),
    /// The id was allocated or freed.
    Id(u32),
    /// Whether the id is allocated.
    Held(bool),
    /// The device was reserved.
    Device(DeviceSlot),
    /// The call returned an error.
    Failed(Error),
    /// The line needs a space, and there is none.
    NoSpace,
    /// The line needs ids, and there are none.
    NoIds,
    /// The line needs a manager, and there is none.
    NoManager,
    /// The line is not in the language, or it is too long.
    NotInLanguage,
}

/// Returns the reply to a call that returns nothing.
#[inline(always)]
pub(in crate::proved::vm_lines) fn done_reply(answer: Result<()>) -> Reply {
    match answer {
        Ok(()) => Reply::Done,
        Err(error) => Reply::Failed(error),
    }
}

/// Returns the reply to a call that returns a range.
#[inline(always)]
pub(in crate::proved::vm_lines) fn range_reply(answer: Result<RangeInclusive>) -> Reply {
    match answer {
        Ok(range) => Reply::Given(range),
        Err(error) => Reply::Failed(error),
    }
}

/// Returns the reply to a call that returns an id.
#[inline(always)]
pub(in crate::proved::vm_lines) fn id_reply(answer: Result<u32>) -> Reply {
    match answer {
        Ok(id) => Reply::Id(id),
        Err(error) => Reply::Failed(error),
    }
}

/// Returns the reply to a call that returns a device.
#[inline(always)]
pub(in crate::proved::vm_lines) fn device_reply(answer: Result<DeviceSlot>) -> Reply {
    match answer {
        Ok(slot) => Reply::Device(slot),
        Err(error) => Reply::Failed(error),
    }
}

/// Writes the text of a reply.
pub(in crate::proved::vm_lines) fn write_reply(output: &mut Buffer, reply: Reply) {
    match reply {
        Reply::Done => output.extend_from_slice(b"done"),
        Reply::Given(range) => write_pair(output, b"range ", range.start(), range.end()),
        Reply::Id(id) => write_number(output, b"id ", id.into()),
        Reply::Held(true) => output.extend_from_slice(b"yes"),
        Reply::Held(false) => output.extend_from_slice(b"no"),
        Reply::Device(slot) => write_device(output, slot),
        Reply::Failed(error) => write_error(output, error),
        Reply::NoSpace => output.extend_from_slice(b"error no-space"),
        Reply::NoIds => output.extend_from_slice(b"error no-ids"),
        Reply::NoManager => output.extend_from_slice(b"error no-manager"),
        Reply::NotInLanguage => output.extend_from_slice(b"error line"),
    }
}

/// Writes the text of a device.
fn write_device(output: &mut Buffer, slot: DeviceSlot) {
    output.extend_from_slice(b"device ");
    output.push_number(slot.id.into());
    output.push(b' ');
    push_pair(output, slot.range.start(), slot.range.end());
}

/// Writes the text of an error.
fn write_error(output: &mut Buffer, error: Error) {
    match error {
        Error::Overflow => output.extend_from_slice(b"error overflow"),
        Error::OutOfRange(id) => write_number(output, b"error out-of-range ", id.into()),
        Error::AlreadyReleased(id) => write_number(output, b"error already-released ", id.into()),
        Error::NeverAllocated(id) => write_number(output, b"error never-allocated ", id.into()),
        Error::ResourceNotAvailable => output.extend_from_slice(b"error not-available"),
        Error::InvalidRange(start, end) => write_pair(output, b"error invalid-range ", start, end),
        Error::InvalidAlignment => output.extend_from_slice(b"error invalid-alignment"),
        Error::Overlap(_, _) => output.extend_from_slice(b"error overlap"),
        Error::InvalidStateTransition(slot, _) => {
            write_pair(output, b"error state ", slot.start(), slot.end())
        }
        Error::UnalignedAddress => output.extend_from_slice(b"error unaligned"),
        Error::Underflow => output.extend_from_slice(b"error underflow"),
        Error::InvalidSize(size) => write_number(output, b"error invalid-size ", size),
        Error::OutOfMemory => output.extend_from_slice(b"error memory"),
    }
}

/// Writes a text, followed by a number.
#[inline(always)]
fn write_number(output: &mut Buffer, text: &[u8], number: u64) {
    output.extend_from_slice(text);
    output.push_number(number);
}

/// Writes a text, followed by two numbers.
#[inline(always)]
fn write_pair(output: &mut Buffer, text: &[u8], first: u64, second: u64) {
    output.extend_from_slice(text);
    push_pair(output, first, second);
}

/// Writes two numbers.
#[inline(always)]
fn push_pair(output: &mut Buffer, first: u64, second: u64) {
    output.push_number(first);
    output.push(b' ');
    output.push_number(second);
}
