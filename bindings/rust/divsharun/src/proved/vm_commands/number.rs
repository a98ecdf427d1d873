// Written by bindings/erase from crates/vm_commands/src/number.rt: do not edit.

//! Reads the number at the beginning of a text, up to the first byte that is not a digit.

/// The maximum number of digits of a number. Every number of 64 bits fits.
pub(in crate::proved) const MAX_DIGITS: usize = 20;

const BASE: u64 = 10;

/// Returns a value with one more digit, or `None` if it does not fit into 64 bits.
#[inline(always)]
fn with_digit(value: u64, digit: u8) -> Option<u64> {
    value
        .checked_mul(BASE)?
        .checked_add(u64::from(digit - b'0'))
}

/// Returns the number at the beginning of a text and the number of its digits. Returns `None` if
/// there is no digit, if there are too many, or if the number does not fit.
#[inline(always)]
pub(in crate::proved::vm_commands) fn leading_number(text: &[u8]) -> Option<(u64, usize)> {
    let (mut value, mut count) = (0, 0);
    while count < text.len() && text[count].is_ascii_digit() {
        if count == MAX_DIGITS {
            return None;
        }
        value = with_digit(value, text[count])?;
        count += 1;
    }
    if count == 0 {
        return None;
    }
    Some((value, count))
}
