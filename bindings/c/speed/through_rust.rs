// SPDX-License-Identifier: Apache-2.0 OR BSD-3-Clause
//! The two rounds of `speed.c` as direct calls of the plain modules.

use crate::proved::vm_addresses::{AddressAllocator, AllocPolicy, RangeInclusive, Result};
use crate::rattle::Global;
use core::hint::black_box;
use core::slice;

/// A request, as C has it.
#[repr(C)]
pub struct Request {
    size: u64,
    alignment: u64,
    start: u64,
}

/// Allocates each request at its start and frees all in the other order. Returns the sum of the
/// last addresses.
///
/// # Safety
///
/// Both pointers point to `count` elements.
#[unsafe(no_mangle)]
pub unsafe extern "C" fn rust_exact(held: *const Request, freed: *const u64, count: usize) -> u64 {
    // SAFETY: the caller's contract.
    let held = unsafe { slice::from_raw_parts(held, count) };
    // SAFETY: the caller's contract.
    let freed = unsafe { slice::from_raw_parts(freed, count) };
    exact(held, freed).expect("each start is clear, and then held")
}

fn exact(held: &[Request], freed: &[u64]) -> Result<u64> {
    let mut space = AddressAllocator::new(Global, 0, 1 << 40)?;
    let mut sum = 0u64;
    for asked in held {
        let policy = AllocPolicy::ExactMatch(asked.start);
        let range = black_box(space.allocate(Global, asked.size, asked.alignment, policy)?);
        sum = sum.wrapping_add(range.end());
    }
    for start in freed {
        space.free(&RangeInclusive::new(*start, *start)?)?;
    }
    Ok(sum)
}

/// Allocates each request at its lowest range. Returns the sum of the last addresses.
///
/// # Safety
///
/// The pointer points to `count` elements.
#[unsafe(no_mangle)]
pub unsafe extern "C" fn rust_first(held: *const Request, count: usize) -> u64 {
    // SAFETY: the caller's contract.
    first(unsafe { slice::from_raw_parts(held, count) }).expect("the space is large enough")
}

fn first(held: &[Request]) -> Result<u64> {
    let mut space = AddressAllocator::new(Global, 0, 1 << 40)?;
    let mut sum = 0u64;
    for asked in held {
        let policy = AllocPolicy::FirstMatch;
        let range = black_box(space.allocate(Global, asked.size, asked.alignment, policy)?);
        sum = sum.wrapping_add(range.end());
    }
    Ok(sum)
}
