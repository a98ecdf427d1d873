// Written by bindings/erase from crates/vm_commands/src/lib.rt: do not edit.

//! The commands of the replay language: lines with their words and numbers, and a buffer for the output.
//!
//! `command_of` is the command of a line. `vm_lines` executes commands.

mod buffer;
mod command;
mod number;
mod words;

pub(in crate::proved) use buffer::{Buffer, CAPACITY};
pub(in crate::proved) use command::{parse, Command, MAX_LINE_LEN};
pub(in crate::proved) use number::MAX_DIGITS;
