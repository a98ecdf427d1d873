// Written by bindings/erase from crates/vm_addresses/src/address_allocator/building.rt: do not edit.

//! Creates an allocator with some ranges allocated.
//!
//! A first pass checks and counts without allocating. A second pass builds the blocks into leaves.

use super::{space_from, AddressAllocator};
use crate::proved::vm_ranges::{Error, ListError, RangeInclusive, Result};
use crate::proved::vm_space::Space;
use crate::rattle::{AllocError, Global};

/// A tree of this many blocks or more is too high.
const TOO_MANY_BLOCKS: u64 = 1 << 49;

impl AddressAllocator {
    /// Creates an allocator of the `size` addresses that start at `base`, with these ranges allocated.
    /// They must be in ascending order.
    ///
    /// Its tree has the fewest leaves, and the minimum height for its nodes. It takes time linear in the
    /// number of ranges.
    ///
    /// # Errors
    ///
    /// In this order. Only the error of a range that cannot be allocated has an index.
    /// - `Underflow` if `size` is 0.
    /// - `Overflow` if the space would end past `u64::MAX`.
    /// - For the first range that cannot be allocated:
    ///   - `ResourceNotAvailable` if it does not start after the end of the range before it.
    ///   - `Overflow` if it starts at `u64::MAX`.
    ///   - `ResourceNotAvailable` if it is outside the space.
    ///   - `Overflow` if it ends at `u64::MAX`.
    /// - `Overflow` if the ranges and the gaps together are 2^49 or more.
    /// - `OutOfMemory` if an allocation fails.
    pub fn with_held(
        alloc: Global,
        base: u64,
        size: u64,
        held: &[RangeInclusive],
    ) -> core::result::Result<Self, ListError> {
        let space = space_from(base, size)?;
        Self::holding(alloc, space, held)
    }

    /// Creates an allocator of a space with these ranges allocated. They must be in ascending order.
    ///
    /// [`with_held`](Self::with_held) documents the errors.
    pub(super) fn holding(
        alloc: Global,
        space: RangeInclusive,
        held: &[RangeInclusive],
    ) -> core::result::Result<Self, ListError> {
        check_held(&space, held)?;
        let (count, left) = count_blocks(&space, held);
        if count >= TOO_MANY_BLOCKS {
            return Err(Error::Overflow.into());
        }
        Ok(build(alloc, space, held, count, left)?)
    }

    /// Creates an allocator of a space with these ranges allocated, which can be. Its tree has the minimum
    /// height for its nodes.
    pub(in crate::proved::vm_addresses) fn of_held(
        alloc: Global,
        space: RangeInclusive,
        held: &[RangeInclusive],
    ) -> core::result::Result<Self, AllocError> {
        let (count, left) = count_blocks(&space, held);
        build(alloc, space, held, count, left)
    }
}

/// Builds an allocator of a space with these ranges allocated. `count` is the number of its blocks, and `left`
/// the number of its free addresses.
fn build(
    alloc: Global,
    space: RangeInclusive,
    held: &[RangeInclusive],
    count: u64,
    left: u64,
) -> core::result::Result<AddressAllocator, AllocError> {
    Ok(AddressAllocator {
        tree: Space::with_held(alloc, count, space, held)?,
        space,
        held_count: held.len() as u64,
        gap_count: count - held.len() as u64,
        free_len: left,
    })
}

/// Checks that these ranges can be allocated in the space. The error has the index of the first that cannot.
fn check_held(
    space: &RangeInclusive,
    held: &[RangeInclusive],
) -> core::result::Result<(), ListError> {
    let end = space.end();
    let mut next = space.start();
    for (index, range) in held.iter().enumerate() {
        if let Err(error) = check_next(next, end, range) {
            let index = Some(index);
            return Err(ListError { index, error });
        }
        next = range.end() + 1;
    }
    Ok(())
}

/// Returns the numbers of blocks and of free addresses of the space with these ranges allocated.
fn count_blocks(space: &RangeInclusive, held: &[RangeInclusive]) -> (u64, u64) {
    let end = space.end();
    let mut next = space.start();
    let (mut count, mut left) = (0, 0);
    for range in held {
        if next < range.start() {
            count += 1;
            left += range.start() - next;
        }
        count += 1;
        next = range.end() + 1;
    }
    if next <= end {
        count += 1;
        left += end - next + 1;
    }
    (count, left)
}

/// Checks that a range can be allocated if it must start at `next` or later, in a space that ends at
/// `end`.
fn check_next(next: u64, end: u64, range: &RangeInclusive) -> Result<()> {
    if range.start() < next {
        return Err(Error::ResourceNotAvailable);
    }
    if range.start() == u64::MAX {
        return Err(Error::Overflow);
    }
    if end < range.end() {
        return Err(Error::ResourceNotAvailable);
    }
    if range.end() == u64::MAX {
        return Err(Error::Overflow);
    }
    Ok(())
}
