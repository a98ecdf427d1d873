// Written by bindings/erase from crates/vm_ranges/src/alignment.rt: do not edit.

//! Rounding of addresses to multiples of an alignment.

use crate::proved::vm_ranges::error::{Error, Result};

/// Returns the highest multiple of `alignment` that is at most `address`.
///
/// # Errors
///
/// - `InvalidAlignment` if `alignment` is not a power of two.
#[allow(dead_code)]
pub fn align_down(address: u64, alignment: u64) -> Result<u64> {
    if !alignment.is_power_of_two() {
        return Err(Error::InvalidAlignment);
    }
    Ok(address & !(alignment - 1))
}

/// Returns the lowest multiple of `alignment` that is at least `address`.
///
/// # Errors
///
/// In this order:
/// - `InvalidAlignment` if `alignment` is 0.
/// - `Overflow` if `address + alignment - 1` is past `u64::MAX`.
/// - `InvalidAlignment` if `alignment` is not a power of two.
#[allow(dead_code)]
pub fn align_up(address: u64, alignment: u64) -> Result<u64> {
    if alignment == 0 {
        return Err(Error::InvalidAlignment);
    }
    let last = address.checked_add(alignment - 1).ok_or(Error::Overflow)?;
    align_down(last, alignment)
}
