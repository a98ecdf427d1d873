// SPDX-License-Identifier: Apache-2.0 OR BSD-3-Clause
//! A reader of JSON after RFC 8259. It visits a text once and does not allocate.

use crate::conditions::field_and_text;
use crate::proved::vm_addresses::SavedError;
use crate::status::{
    dvs_status, dvs_status_text, Failure, DVS_LIMIT_EXCEEDED, DVS_NOT_A_STATE, DVS_NOT_JSON,
    DVS_OUT_OF_MEMORY,
};
use core::ffi::{c_char, CStr};
use core::ptr;

/// The maximum nesting of a text.
const MAX_DEPTH: u32 = 128;

/// More bytes than the longest name of a field or a state has.
const MANY_BYTES: usize = 16;

/// The limits that a caller sets for a text. 0 is no limit.
#[repr(C)]
#[derive(Clone, Copy, Default)]
pub struct dvs_text_limits {
    pub(crate) length: usize,
    depth: u32,
}

/// The reason why a text was not read, and the place of it.
#[repr(C)]
#[derive(Clone, Copy)]
pub struct dvs_text_fault {
    offset: usize,
    reason: *const c_char,
    field: *const c_char,
}

/// The error of a text.
pub(crate) type TextFault = Failure<dvs_text_fault>;

impl From<dvs_status> for TextFault {
    fn from(status: dvs_status) -> Self {
        TextFault::of(status, 0, dvs_status_text(status))
    }
}

impl TextFault {
    pub(crate) fn of(status: dvs_status, offset: usize, reason: *const c_char) -> Self {
        let field = ptr::null();
        let details = dvs_text_fault {
            offset,
            reason,
            field,
        };
        TextFault::new(status, details)
    }

    /// Returns the fault at another offset.
    pub(crate) fn at(mut self, offset: usize) -> Self {
        self.details.offset = offset;
        self
    }

    /// Returns the fault in a field, unless it is in a field of this one, or the text is not JSON.
    fn in_field(mut self, name: &'static CStr) -> Self {
        if self.details.field.is_null() && self.status == DVS_NOT_A_STATE {
            self.details.field = name.as_ptr();
        }
        self
    }
}

/// The name of a field that was read, and the offset of its value. An item has no name.
pub(crate) type Field = (Option<&'static CStr>, usize);

/// The result of reading a part of a text.
pub(crate) type Read<T> = Result<T, TextFault>;

/// A text, and the offset of the rest that was not read.
pub(crate) struct Reader<'a> {
    text: &'a str,
    at: usize,
    // The number of open brackets, and its limit.
    depth: u32,
    limits: dvs_text_limits,
}

impl<'a> Reader<'a> {
    /// Reads the value of a whole text.
    pub(crate) fn read<T>(
        text: &'a str,
        limits: dvs_text_limits,
        read: impl FnOnce(&mut Reader<'a>) -> Read<T>,
    ) -> Read<T> {
        let mut reader = Reader {
            text,
            at: 0,
            depth: 0,
            limits,
        };
        let value = read(&mut reader)?;
        match reader.peek() {
            None => Ok(value),
            Some(_) => Err(reader.not_json(c"the end of the text is expected")),
        }
    }

    /// Returns a fault at the rest.
    fn fault(&self, status: dvs_status, reason: &'static CStr) -> TextFault {
        TextFault::of(status, self.at, reason.as_ptr())
    }

    fn not_json(&self, reason: &'static CStr) -> TextFault {
        self.fault(DVS_NOT_JSON, reason)
    }

    pub(crate) fn not_a_state(&self, reason: &'static CStr) -> TextFault {
        self.fault(DVS_NOT_A_STATE, reason)
    }

    /// Returns the fault of an object with these fields, or of one item.
    pub(crate) fn of_parts(&self, error: SavedError, fields: &[Field]) -> TextFault {
        let SavedError::Violated(condition) = error else {
            return DVS_OUT_OF_MEMORY.into();
        };
        let (field, text) = field_and_text(condition);
        let wrong = fields.iter().find(|(name, _)| *name == field);
        let offset = wrong.map_or(self.at, |(_, value)| *value);
        let mut fault = self.not_a_state(text).at(offset);
        fault.details.field = field.map_or(ptr::null(), CStr::as_ptr);
        fault
    }

    /// Returns the next byte, without reading it.
    fn next_byte(&self) -> Option<u8> {
        self.text.as_bytes().get(self.at).copied()
    }

    /// Returns the next byte after white space, without reading it.
    fn peek(&mut self) -> Option<u8> {
        while let Some(b' ' | b'\t' | b'\n' | b'\r') = self.next_byte() {
            self.at += 1;
        }
        self.next_byte()
    }

    /// Returns the offset of the next value or name.
    pub(crate) fn start(&mut self) -> usize {
        self.peek();
        self.at
    }

    /// Reads a byte if it is next after white space, and returns whether it was.
    fn skip(&mut self, byte: u8) -> bool {
        self.peek();
        self.skip_mark(&[byte])
    }

    /// Returns the first byte of a value, without reading it.
    fn value(&mut self) -> Read<Option<u8>> {
        let first = self.peek();
        if self.limits.depth > 0 && self.depth >= self.limits.depth {
            return Err(self.fault(DVS_LIMIT_EXCEEDED, c"the text is nested too deep"));
        }
        if self.depth >= MAX_DEPTH {
            return Err(self.not_json(c"the text is nested more than 128 deep"));
        }
        Ok(first)
    }

    /// Reads two brackets and the items between them, each by `read`, with a comma between two.
    fn items(
        &mut self,
        [open, close]: [u8; 2],
        expected: &'static CStr,
        mut read: impl FnMut(&mut Self) -> Read<()>,
    ) -> Read<()> {
        if self.value()? != Some(open) {
            return Err(self.not_a_state(expected));
        }
        self.at += 1;
        self.depth += 1;
        let mut is_more = !self.skip(close);
        while is_more {
            read(self)?;
            is_more = self.skip(b',');
            if !is_more {
                self.expect(close, c"a comma or a closing bracket is expected")?;
            }
        }
        self.depth -= 1;
        Ok(())
    }

    /// Reads an object that has each of these fields once, in any order, and returns the fields. `read`
    /// reads the value of the field with an index.
    pub(crate) fn object<const N: usize>(
        &mut self,
        names: [&'static CStr; N],
        mut read: impl FnMut(&mut Self, usize) -> Read<()>,
    ) -> Read<[Field; N]> {
        // No value is at offset 0.
        let mut fields = names.map(|name| (Some(name), 0));
        self.items(*b"{}", c"an object is expected", |from| {
            let start = from.start();
            let Some(place) = from.string(&names)? else {
                return Err(from.not_a_state(c"the field is unknown").at(start));
            };
            let (name, value) = (names[place], &mut fields[place].1);
            if *value > 0 {
                let fault = from.not_a_state(c"the field is duplicate");
                return Err(fault.at(start).in_field(name));
            }
            from.expect(b':', c"a colon is expected")?;
            *value = from.start();
            read(from, place).map_err(|fault| fault.in_field(name))
        })?;
        let fault = || self.not_a_state(c"the field is missing");
        match fields.iter().position(|(_, value)| *value == 0) {
            None => Ok(fields),
            Some(missing) => Err(fault().in_field(names[missing])),
        }
    }

    /// Reads this byte after white space.
    fn expect(&mut self, byte: u8, reason: &'static CStr) -> Read<()> {
        match self.skip(byte) {
            true => Ok(()),
            false => Err(self.not_json(reason)),
        }
    }

    /// Returns the value of a field that `object` has read.
    pub(crate) fn some<T>(&self, value: Option<T>) -> Read<T> {
        value.ok_or_else(|| self.not_a_state(c"a field is missing"))
    }

    /// Reads a list. `read` reads an item, and `push` checks it.
    pub(crate) fn list<T>(
        &mut self,
        read: impl Fn(&mut Self) -> Read<T>,
        mut push: impl FnMut(T) -> Result<(), SavedError>,
    ) -> Read<()> {
        self.items(*b"[]", c"a list is expected", |from| {
            let item = [(None, from.start())];
            let pushed = push(read(from)?);
            pushed.map_err(|error| from.of_parts(error, &item))
        })
    }

    /// Reads `null` if it is next, and returns whether it was.
    pub(crate) fn skip_null(&mut self) -> Read<bool> {
        match self.value()? {
            Some(b'n') => self.word("null").map(|()| true),
            _ => Ok(false),
        }
    }

    /// Reads a whole number that is at most `most`.
    pub(crate) fn whole(&mut self, most: u64) -> Read<u64> {
        let (first, start) = (self.value()?, self.at);
        let number = match first {
            Some(b'-' | b'0'..=b'9') => self.number()?,
            _ => None,
        };
        let expected = c"a whole number in its range is expected";
        let number = number.filter(|number| *number <= most);
        number.ok_or_else(|| self.not_a_state(expected).at(start))
    }

    /// Reads one of some texts, and returns its index.
    pub(crate) fn one_of(&mut self, texts: &[&'static CStr]) -> Read<usize> {
        let (first, start) = (self.value()?, self.at);
        let text = match first {
            Some(b'"') => self.string(texts)?,
            _ => None,
        };
        text.ok_or_else(|| self.not_a_state(c"another text is expected").at(start))
    }

    /// Reads a value of any kind.
    pub(crate) fn check_value(&mut self) -> Read<()> {
        match self.value()? {
            Some(b'{') => self.items(*b"{}", c"", |from| {
                from.peek();
                from.string(&[])?;
                from.expect(b':', c"a colon is expected")?;
                from.check_value()
            }),
            Some(b'[') => self.items(*b"[]", c"", Self::check_value),
            Some(b'"') => self.string(&[]).map(|_| ()),
            Some(b'n') => self.word("null"),
            Some(b't') => self.word("true"),
            Some(b'f') => self.word("false"),
            _ => self.number().map(|_| ()),
        }
    }

    /// Reads a word without quotes.
    fn word(&mut self, word: &str) -> Read<()> {
        if !self.text[self.at..].starts_with(word) {
            return Err(self.not_json(c"a value is expected"));
        }
        self.at += word.len();
        Ok(())
    }

    /// Reads a number. Returns it if it is a whole number of 64 bits.
    fn number(&mut self) -> Read<Option<u64>> {
        let start = self.at;
        self.skip_mark(b"-");
        if !self.skip_mark(b"0") {
            self.digits()?;
        }
        if self.skip_mark(b".") {
            self.digits()?;
        }
        if self.skip_mark(b"eE") {
            self.skip_mark(b"+-");
            self.digits()?;
        }
        let number = &self.text[start..self.at];
        if let Ok(whole) = number.parse() {
            return Ok(Some(whole));
        }
        if number.parse().is_ok_and(f64::is_finite) {
            return Ok(None);
        }
        let fault = self.not_json(c"a number is greater than any double");
        Err(fault.at(start))
    }

    /// Reads one of these bytes if it is next, and returns whether it was.
    fn skip_mark(&mut self, marks: &[u8]) -> bool {
        let is_next = self.next_byte().is_some_and(|byte| marks.contains(&byte));
        self.at += usize::from(is_next);
        is_next
    }

    /// Reads at least one digit.
    fn digits(&mut self) -> Read<()> {
        let start = self.at;
        while let Some(b'0'..=b'9') = self.next_byte() {
            self.at += 1;
        }
        match self.at > start {
            true => Ok(()),
            false => Err(self.not_json(c"a value or a digit is expected")),
        }
    }

    /// Reads a string, and returns its index in `known`.
    fn string(&mut self, known: &[&'static CStr]) -> Read<Option<usize>> {
        if !self.skip_mark(b"\"") {
            return Err(self.not_json(c"a string is expected"));
        }
        // Most names have no escape, so the bytes of the text are compared first.
        let rest = &self.text.as_bytes()[self.at..];
        let is_next = |known: &&CStr| {
            let after = rest.strip_prefix(known.to_bytes());
            after.is_some_and(|after| after.starts_with(b"\""))
        };
        if let Some(place) = known.iter().position(is_next) {
            self.at += known[place].to_bytes().len() + 1;
            return Ok(Some(place));
        }
        let (mut bytes, mut length) = ([0; MANY_BYTES], 0);
        while let Some(character) = self.character()? {
            if let Some(byte) = bytes.get_mut(length) {
                // No name has a character that is not ASCII.
                *byte = u8::try_from(character).unwrap_or(u8::MAX);
                length += 1;
            }
        }
        let is_same = |known: &&CStr| known.to_bytes() == &bytes[..length];
        Ok(known.iter().position(is_same))
    }

    /// Reads a character of a string, or its end. Each byte of a character that is not ASCII counts as one.
    fn character(&mut self) -> Read<Option<char>> {
        let Some(byte @ 0x20..) = self.next_byte() else {
            return Err(self.not_json(c"a string has no end, or a control character"));
        };
        self.at += 1;
        match byte {
            b'"' => Ok(None),
            b'\\' => self.escape().map(Some),
            _ => Ok(Some(byte.into())),
        }
    }

    /// Reads an escape after its backslash, and returns its character.
    fn escape(&mut self) -> Read<char> {
        let fault = self.not_json(c"an escape is not valid");
        let letter = self.next_byte();
        self.at += 1;
        match letter {
            Some(same @ (b'"' | b'\\' | b'/')) => Ok(same.into()),
            Some(b'b') => Ok('\x08'),
            Some(b'f') => Ok('\x0c'),
            Some(b'n') => Ok('\n'),
            Some(b'r') => Ok('\r'),
            Some(b't') => Ok('\t'),
            Some(b'u') => self.unicode_escape().ok_or(fault),
            _ => Err(fault),
        }
    }

    /// Reads a character of one UTF-16 unit, or of two if the first is a high surrogate.
    fn unicode_escape(&mut self) -> Option<char> {
        let first = self.utf16_unit()?;
        let second = match first {
            0xd800..=0xdbff if self.skip_mark(b"\\") && self.skip_mark(b"u") => self.utf16_unit(),
            _ => None,
        };
        let mut decoded = char::decode_utf16([first].into_iter().chain(second));
        decoded.next()?.ok()
    }

    /// Reads the number of four hexadecimal digits.
    fn utf16_unit(&mut self) -> Option<u16> {
        let digits = self.text.get(self.at..self.at + 4)?;
        self.at += 4;
        digits.chars().try_fold(0, |unit, digit| {
            Some(unit * 16 + digit.to_digit(16)? as u16)
        })
    }
}
