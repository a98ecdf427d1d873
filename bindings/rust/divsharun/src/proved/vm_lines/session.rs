// Written by bindings/erase from crates/vm_lines/src/session.rt: do not edit.

//! A session: the machine, and the line that has begun.
//!
//! A line is parsed in its piece of the input without a copy. It is copied only if it began in an
//! earlier piece.

use crate::proved::vm_commands::{parse, Buffer, Command, MAX_LINE_LEN};
use crate::proved::vm_lines::machine::Machine;
use crate::proved::vm_lines::reply::write_reply;
use crate::rattle::Global;

/// The machine of the lines so far, and the line that has begun.
pub(in crate::proved::vm_lines) struct Session {
    machine: Machine,
    line: [u8; MAX_LINE_LEN],
    filled: usize,
    is_too_long: bool,
}

impl Session {
    /// Creates the session before the first byte of the input.
    pub(in crate::proved::vm_lines) fn new() -> Session {
        Session {
            machine: Machine::new(),
            line: [0; MAX_LINE_LEN],
            filled: 0,
            is_too_long: false,
        }
    }

    /// Ends the line that has begun with its last bytes, executes it, and writes its reply.
    pub(in crate::proved::vm_lines) fn end_line(
        &mut self,
        alloc: Global,
        last: &[u8],
        output: &mut Buffer,
    ) {
        let command = self.take_line(last);
        let reply = self.machine.answer(alloc, command);
        write_reply(output, reply);
        output.push(b'\n');
    }

    /// Returns the command of the line that ends with these bytes. No line has begun after that.
    fn take_line(&mut self, last: &[u8]) -> Command {
        if !self.has_begun() {
            return parse(last);
        }
        self.append(last);
        self.take_appended()
    }

    /// Returns the command of the line that was copied. No line has begun after that.
    #[cold]
    fn take_appended(&mut self) -> Command {
        let asked = if self.is_too_long {
            Command::Malformed
        } else {
            parse(&self.line[..self.filled])
        };
        self.filled = 0;
        self.is_too_long = false;
        asked
    }

    /// Appends more bytes to the line that has begun.
    pub(in crate::proved::vm_lines) fn append(&mut self, bytes: &[u8]) {
        if self.is_too_long || bytes.len() > MAX_LINE_LEN - self.filled {
            self.is_too_long = true;
            return;
        }
        let end = self.filled + bytes.len();
        self.line[self.filled..end].copy_from_slice(bytes);
        self.filled = end;
    }

    /// Returns `true` if a line has begun.
    pub(in crate::proved::vm_lines) fn has_begun(&self) -> bool {
        self.is_too_long || self.filled > 0
    }
}
