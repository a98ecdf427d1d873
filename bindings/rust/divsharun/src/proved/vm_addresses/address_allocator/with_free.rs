// Written by bindings/erase from crates/vm_addresses/src/address_allocator/with_free.rt: do not edit.

//! Creates an allocator of the ranges that are free in it.

use super::AddressAllocator;
use crate::proved::vm_ranges::{Error, ListError, RangeInclusive};
use crate::rattle::Vec;
use crate::rattle::{AllocError, Global};

/// The maximum number of holes.
const MAX_HOLES: u64 = (1 << 48) - 1;

impl AddressAllocator {
    /// Creates an allocator in which exactly these ranges are free. They must be in ascending order,
    /// and share no address.
    ///
    /// The space is from the first address of the first range to the last address of the last one. The
    /// holes between the ranges are allocated, one range for each hole, and can be freed. Two ranges
    /// without a hole between them are one gap.
    ///
    /// Its tree has the fewest leaves, and the minimum height for its nodes. It takes time linear in the
    /// number of ranges, and also allocates a list of the holes.
    ///
    /// # Errors
    ///
    /// In this order. Only the error of a range has an index.
    /// - `Underflow` if there is no range.
    /// - `ResourceNotAvailable` for the first range that does not start after the end of the range before
    ///   it.
    /// - `InvalidRange` if the space would have all 2^64 addresses.
    /// - `Overflow` if there are 2^48 holes or more.
    /// - `OutOfMemory` if an allocation fails.
    pub fn with_free(
        alloc: Global,
        free: &[RangeInclusive],
    ) -> core::result::Result<Self, ListError> {
        let Some((first, others)) = free.split_first() else {
            return Err(Error::Underflow.into());
        };
        let (last, count) = check_free(first, others)?;
        let space = RangeInclusive::new(first.start(), last.end())?;
        if count > MAX_HOLES {
            return Err(Error::Overflow.into());
        }
        let holes = holes_between(alloc, first, others, count)?;
        Self::holding(alloc, space, &holes)
    }
}

/// Returns the last range and the number of holes, or the error of the first range that does not start
/// after the end of the range before it.
fn check_free(
    first: &RangeInclusive,
    others: &[RangeInclusive],
) -> core::result::Result<(RangeInclusive, u64), ListError> {
    let mut last = *first;
    let mut holes = 0;
    for (index, range) in others.iter().enumerate() {
        if range.start() <= last.end() {
            return Err(ListError {
                index: Some(index + 1),
                error: Error::ResourceNotAvailable,
            });
        }
        if range.start() - last.end() > 1 {
            holes += 1;
        }
        last = *range;
    }
    Ok((last, holes))
}

/// Returns the holes between ranges, in a list for `count` of them. The ranges are in ascending order.
fn holes_between(
    alloc: Global,
    first: &RangeInclusive,
    others: &[RangeInclusive],
    count: u64,
) -> core::result::Result<Vec<RangeInclusive>, AllocError> {
    let mut holes = Vec::with_capacity(alloc, count as usize)?;
    let mut end = first.end();
    for range in others {
        let start = range.start();
        if let Ok(hole) = RangeInclusive::new(end + 1, start - 1) {
            holes.push(hole)?;
        }
        end = range.end();
    }
    Ok(holes)
}
