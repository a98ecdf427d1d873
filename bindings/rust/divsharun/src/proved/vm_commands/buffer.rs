// Written by bindings/erase from crates/vm_commands/src/buffer.rt: do not edit.

//! A buffer for the output.
//!
//! A number is written by pairs of digits from a table. It is then copied as twenty bytes whatever
//! its length, because a fixed length is two moves and no call.

use crate::proved::vm_commands::number::MAX_DIGITS;

/// The capacity of a buffer in bytes.
pub(in crate::proved) const CAPACITY: usize = 4096;

/// The length of the array for the digits of a number, with the same number of bytes after them.
const DIGITS_LEN: usize = 40;

/// The two digits of each number below a hundred.
static PAIRS: [u8; 200] = *b"\
    0001020304050607080910111213141516171819\
    2021222324252627282930313233343536373839\
    4041424344454647484950515253545556575859\
    6061626364656667686970717273747576777879\
    8081828384858687888990919293949596979899";

/// Text that is not written yet, in a fixed array.
pub(in crate::proved) struct Buffer {
    bytes: [u8; CAPACITY],
    length: usize,
}

impl Buffer {
    /// Creates an empty buffer.
    pub(in crate::proved) fn new() -> Buffer {
        Buffer {
            bytes: [0; CAPACITY],
            length: 0,
        }
    }

    /// Returns the number of bytes in the buffer.
    pub(in crate::proved) fn len(&self) -> usize {
        self.length
    }

    /// Returns the text in the buffer.
    pub(in crate::proved) fn as_slice(&self) -> &[u8] {
        &self.bytes[..self.length]
    }

    /// Removes all text.
    pub(in crate::proved) fn clear(&mut self) {
        self.length = 0;
    }

    /// Appends one byte.
    pub(in crate::proved) fn push(&mut self, byte: u8) {
        self.bytes[self.length] = byte;
        self.length += 1;
    }

    /// Appends a text.
    pub(in crate::proved) fn extend_from_slice(&mut self, text: &[u8]) {
        let end = self.length + text.len();
        self.bytes[self.length..end].copy_from_slice(text);
        self.length = end;
    }

    /// Appends a number in decimal.
    pub(in crate::proved) fn push_number(&mut self, number: u64) {
        let mut digits = [0u8; DIGITS_LEN];
        let start = write_digits(number, &mut digits);
        // A fixed length makes this two moves. The bytes after the number are removed again.
        self.extend_from_slice(&digits[start..start + MAX_DIGITS]);
        self.length -= start;
    }
}

/// Writes the digits of a number so that they end before index `MAX_DIGITS`, and returns the index
/// of the first digit.
fn write_digits(number: u64, digits: &mut [u8; DIGITS_LEN]) -> usize {
    let mut start = MAX_DIGITS;
    let mut rest = number;
    while rest >= 100 {
        write_two_digits(digits, start, (rest % 100) as u8);
        start -= 2;
        rest /= 100;
    }
    if rest >= 10 {
        write_two_digits(digits, start, rest as u8);
        return start - 2;
    }
    digits[start - 1] = b'0' + rest as u8;
    start - 1
}

/// Writes two digits that end before index `start`.
#[inline(always)]
fn write_two_digits(digits: &mut [u8; DIGITS_LEN], start: usize, pair: u8) {
    let place = pair as usize * 2;
    digits[start - 1] = PAIRS[place + 1];
    digits[start - 2] = PAIRS[place];
}
