// Written by bindings/erase from crates/vm_commands/src/words.rt: do not edit.

//! The words of a line: its name, and the numbers and ids after it.
//!
//! The four numbers of `manager` are read as one and three numbers, and the first two are converted
//! to ids.

use crate::proved::vm_commands::number::leading_number;

/// Returns the text after a prefix, or `None` if the text does not begin with it.
#[inline(always)]
pub(in crate::proved::vm_commands) fn strip_prefix<'a, const N: usize>(
    prefix: &[u8; N],
    text: &'a [u8],
) -> Option<&'a [u8]> {
    if text.len() < N {
        return None;
    }
    for i in 0..N {
        if text[i] != prefix[i] {
            return None;
        }
    }
    Some(&text[N..])
}

/// Returns the number in the first word of a text, and the text after the space that follows it.
#[inline(always)]
fn first_number(text: &[u8]) -> Option<(u64, Option<&[u8]>)> {
    let (number, count) = leading_number(text)?;
    if count == text.len() {
        return Some((number, None));
    }
    if text[count] != b' ' {
        return None;
    }
    Some((number, Some(&text[count + 1..])))
}

/// Returns the number of a text of one word.
#[inline(always)]
fn one_number(text: &[u8]) -> Option<u64> {
    let (number, rest) = first_number(text)?;
    if rest.is_some() {
        return None;
    }
    Some(number)
}

/// Returns the numbers of a text of two words.
pub(in crate::proved::vm_commands) fn two_numbers(text: &[u8]) -> Option<(u64, u64)> {
    let (first, rest) = first_number(text)?;
    Some((first, one_number(rest?)?))
}

/// Returns the numbers of a text of three words.
#[inline(always)]
pub(in crate::proved::vm_commands) fn three_numbers(text: &[u8]) -> Option<(u64, u64, u64)> {
    let (first, rest) = first_number(text)?;
    let (second, third) = two_numbers(rest?)?;
    Some((first, second, third))
}

/// Returns the id of a text of one word.
pub(in crate::proved::vm_commands) fn one_id(text: &[u8]) -> Option<u32> {
    u32::try_from(one_number(text)?).ok()
}

/// Returns the ids of a text of two words.
pub(in crate::proved::vm_commands) fn two_ids(text: &[u8]) -> Option<(u32, u32)> {
    let (first, second) = two_numbers(text)?;
    Some((u32::try_from(first).ok()?, u32::try_from(second).ok()?))
}

/// Returns the two ids and the two numbers of a text of four words.
pub(in crate::proved::vm_commands) fn ids_and_numbers(
    text: &[u8],
) -> Option<((u32, u32), (u64, u64))> {
    let (first, rest) = first_number(text)?;
    let (second, third, fourth) = three_numbers(rest?)?;
    let ids = (u32::try_from(first).ok()?, u32::try_from(second).ok()?);
    Some((ids, (third, fourth)))
}
