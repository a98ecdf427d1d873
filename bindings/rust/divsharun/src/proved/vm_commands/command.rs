// Written by bindings/erase from crates/vm_commands/src/command.rt: do not edit.

//! Parses lines into commands: for the space, for the ids and for the devices.

use crate::proved::vm_commands::words::{
    ids_and_numbers, one_id, strip_prefix, three_numbers, two_ids, two_numbers,
};

/// The maximum length of a line in bytes.
pub(in crate::proved) const MAX_LINE_LEN: usize = 120;

/// The command of a line.
#[derive(Clone, Copy)]
pub(in crate::proved) enum Command {
    /// Creates an allocator for the `size` addresses starting at `base`.
    Space { base: u64, size: u64 },
    /// Allocates the lowest free range of `size` addresses that starts at a multiple of `alignment`.
    First { size: u64, alignment: u64 },
    /// Allocates the highest free range of `size` addresses that starts at a multiple of `alignment`.
    Last { size: u64, alignment: u64 },
    /// Allocates the `size` addresses starting at `start`, a multiple of `alignment`.
    Exact {
        size: u64,
        alignment: u64,
        start: u64,
    },
    /// Frees the range from `start` to `end`.
    Free { start: u64, end: u64 },
    /// Creates an allocator for the ids from `range_base` to `range_end`.
    Ids { range_base: u32, range_end: u32 },
    /// Allocates the lowest free id.
    Id,
    /// Frees an id.
    Unid { id: u32 },
    /// Checks whether an id is allocated.
    Has { id: u32 },
    /// Creates a manager of devices for the ids from `id_lo` to `id_hi` and the `size` addresses
    /// starting at `base`.
    Manager {
        id_lo: u32,
        id_hi: u32,
        base: u64,
        size: u64,
    },
    /// Reserves a device: the lowest free id, and the lowest free range of `size` addresses that
    /// starts at a multiple of `alignment`.
    Device { size: u64, alignment: u64 },
    /// Releases the device with this id.
    Undevice { id: u32 },
    /// The line is not in the language.
    Malformed,
}

/// Parses a line.
#[inline(always)]
pub(in crate::proved) fn parse(line: &[u8]) -> Command {
    if line.len() > MAX_LINE_LEN {
        return Command::Malformed;
    }
    match parse_words(line) {
        Some(command) => command,
        None => Command::Malformed,
    }
}

/// Parses the words of a line. After the first word is known, no other command is tried.
#[inline(always)]
fn parse_words(line: &[u8]) -> Option<Command> {
    if let Some(rest) = strip_prefix(b"space ", line) {
        let (base, size) = two_numbers(rest)?;
        return Some(Command::Space { base, size });
    }
    if let Some(rest) = strip_prefix(b"first ", line) {
        let (size, alignment) = two_numbers(rest)?;
        return Some(Command::First { size, alignment });
    }
    if let Some(rest) = strip_prefix(b"last ", line) {
        let (size, alignment) = two_numbers(rest)?;
        return Some(Command::Last { size, alignment });
    }
    if let Some(rest) = strip_prefix(b"exact ", line) {
        let (size, alignment, start) = three_numbers(rest)?;
        return Some(Command::Exact {
            size,
            alignment,
            start,
        });
    }
    if let Some(rest) = strip_prefix(b"free ", line) {
        let (start, end) = two_numbers(rest)?;
        return Some(Command::Free { start, end });
    }
    parse_ids_command(line)
}

/// Parses a command for the ids or for the devices.
#[inline(always)]
fn parse_ids_command(line: &[u8]) -> Option<Command> {
    if let Some(rest) = strip_prefix(b"ids ", line) {
        let (range_base, range_end) = two_ids(rest)?;
        return Some(Command::Ids {
            range_base,
            range_end,
        });
    }
    if let Some(rest) = strip_prefix(b"unid ", line) {
        let id = one_id(rest)?;
        return Some(Command::Unid { id });
    }
    if let Some(rest) = strip_prefix(b"has ", line) {
        let id = one_id(rest)?;
        return Some(Command::Has { id });
    }
    if line == b"id".as_slice() {
        return Some(Command::Id);
    }
    parse_devices_command(line)
}

/// Parses a command for the devices.
fn parse_devices_command(line: &[u8]) -> Option<Command> {
    if let Some(rest) = strip_prefix(b"device ", line) {
        let (size, alignment) = two_numbers(rest)?;
        return Some(Command::Device { size, alignment });
    }
    if let Some(rest) = strip_prefix(b"undevice ", line) {
        let id = one_id(rest)?;
        return Some(Command::Undevice { id });
    }
    if let Some(rest) = strip_prefix(b"manager ", line) {
        let ((id_lo, id_hi), (base, size)) = ids_and_numbers(rest)?;
        return Some(Command::Manager {
            id_lo,
            id_hi,
            base,
            size,
        });
    }
    None
}
