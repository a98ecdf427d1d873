// Written by bindings/erase from crates/vm_addresses/src/address_allocator.rt: do not edit.

//! An allocator of address ranges.
//!
//! - `allocation` allocates the range of a request, and `deallocation` frees an allocated range.
//! - `several` allocates several ranges in one call, and `moving` moves an allocated range.
//! - `peeking` returns the result of a request without a change.
//! - `building` and `with_free` create an allocator with some ranges allocated.
//! - `held_ranges` has queries about the allocated ranges, and `gaps` about the free addresses. Both return
//!   iterators of `ranges`. `blocks` iterates over the allocated ranges and the gaps.
//! - `conflicts` returns the reason why a range is not free, and `list_conflicts` the reason why a list is
//!   not accepted.
//! - `comparing` compares two allocators.
//!
//! A counted call also returns the number of nodes that it entered. A plain call makes the counted call and
//! drops the count.

use crate::proved::vm_ranges::{AllocPolicy, Constraint, Error, RangeInclusive, Result};
use crate::proved::vm_space::{Space, Walk};
use crate::rattle::Global;

mod allocation;
pub(in crate::proved::vm_addresses) mod blocks;
mod building;
mod comparing;
mod conflicts;
mod deallocation;
mod gaps;
mod held_ranges;
mod list_conflicts;
mod moving;
mod peeking;
pub(in crate::proved::vm_addresses) mod ranges;
mod several;
mod with_free;

pub use conflicts::Conflict;
pub use list_conflicts::ListConflict;

/// Allocates ranges of addresses from one space.
///
/// Allocated ranges never overlap, each lies in the space, and none contains `u64::MAX`. A range
/// includes both of its ends. Sizes and alignments are numbers of addresses.
#[derive(Debug)]
pub struct AddressAllocator {
    /// The blocks of the space. A block is a range of addresses that is allocated as a whole, or free as a
    /// whole. Two neighbours are never both free.
    pub(in crate::proved::vm_addresses) tree: Space,
    /// The addresses of all blocks.
    pub(in crate::proved::vm_addresses) space: RangeInclusive,
    /// The number of allocated ranges.
    pub(in crate::proved::vm_addresses) held_count: u64,
    /// The number of gaps.
    pub(in crate::proved::vm_addresses) gap_count: u64,
    /// The number of free addresses.
    free_len: u64,
}

impl AddressAllocator {
    /// Creates an allocator for the `size` addresses starting at `base`. All of them are free.
    ///
    /// It allocates one leaf.
    ///
    /// # Errors
    ///
    /// In this order:
    /// - `Underflow` if `size` is 0.
    /// - `Overflow` if the last address would be past `u64::MAX`.
    /// - `OutOfMemory` if the allocation of the leaf fails.
    pub fn new(alloc: Global, base: u64, size: u64) -> Result<Self> {
        let space = space_from(base, size)?;
        Self::over(alloc, space)
    }

    /// Creates an allocator for the addresses of a range. All of them are free.
    ///
    /// It allocates one leaf.
    ///
    /// # Errors
    ///
    /// - `OutOfMemory` if the allocation of the leaf fails.
    pub fn over(alloc: Global, space: RangeInclusive) -> Result<Self> {
        Ok(AddressAllocator {
            tree: Space::new(alloc, space)?,
            space,
            held_count: 0,
            gap_count: 1,
            free_len: space.len(),
        })
    }

    /// Returns a copy. Its tree has the same nodes, so both allocators have the same height.
    ///
    /// # Errors
    ///
    /// - `OutOfMemory` if an allocation fails. The nodes that were copied before it are freed.
    pub fn try_clone(&self, alloc: Global) -> Result<Self> {
        Ok(AddressAllocator {
            tree: self.tree.try_clone(alloc)?,
            space: self.space,
            held_count: self.held_count,
            gap_count: self.gap_count,
            free_len: self.free_len,
        })
    }

    /// Returns an iterator over the blocks, from both ends.
    fn walk(&self) -> Walk<'_> {
        self.tree.blocks()
    }

    /// Returns an iterator over the blocks that have an address in common with `window`, from both
    /// ends.
    fn walk_in(&self, window: &RangeInclusive) -> Walk<'_> {
        self.tree.blocks_in(window)
    }

    /// Allocates `size` free addresses that start at a multiple of `alignment`, and returns their
    /// range: the lowest for `FirstMatch`, the highest for `LastMatch`, and the range that starts at
    /// `start` for `ExactMatch(start)`.
    ///
    /// A gap is a run of free addresses with no free address next to it. A range that fills its gap
    /// needs no memory, and always succeeds if it ends below `u64::MAX`. Any other range splits its
    /// gap, which allocates nothing, or a leaf and nodes above it.
    ///
    /// # Errors
    ///
    /// An error changes nothing. In this order:
    /// - `InvalidSize(0)` if `size` is 0.
    /// - `InvalidAlignment` if `alignment` is not a power of two.
    /// - For `ExactMatch(start)`:
    ///   - `UnalignedAddress` if `start` is not a multiple of `alignment`.
    ///   - `Overflow` if `start` is `u64::MAX`.
    ///   - `ResourceNotAvailable` if `start` is outside the space.
    ///   - `Overflow` if the range would end past `u64::MAX`.
    ///   - `InvalidStateTransition` if exactly this range is already allocated.
    /// - `ResourceNotAvailable` if there is no such range.
    /// - `Overflow` if the chosen range ends at `u64::MAX`, even if another range is free.
    /// - Only if the range splits its gap:
    ///   - `Overflow` if 6,293,134,512 ranges or more are allocated.
    ///   - `OutOfMemory` if an allocation fails.
    #[inline(always)]
    pub fn allocate(
        &mut self,
        alloc: Global,
        size: u64,
        alignment: u64,
        policy: AllocPolicy,
    ) -> Result<RangeInclusive> {
        let request = Constraint::new(size, alignment, policy)?;
        self.allocate_constraint(alloc, request)
    }

    /// Allocates a range like [`allocate`](Self::allocate), for a request that was made before. If the
    /// request has a window, the range lies in the window.
    ///
    /// `FirstMatch` chooses the lowest range in the window, and `LastMatch` the highest.
    ///
    /// # Errors
    ///
    /// Those of [`allocate`](Self::allocate) for a valid request, in the same order. Addresses outside
    /// the window count as outside the space:
    /// - `ResourceNotAvailable` if the window and the space have no address in common, or no range in
    ///   the window fits.
    /// - `ResourceNotAvailable` if the start of `ExactMatch` is outside the window, or a part of its
    ///   range is, unless exactly this range is already allocated.
    #[inline(always)]
    pub fn allocate_constraint(
        &mut self,
        alloc: Global,
        request: Constraint,
    ) -> Result<RangeInclusive> {
        self.allocate_constraint_counted(alloc, request).0
    }

    /// Allocates like [`allocate`](Self::allocate), and also returns the number of tree nodes that
    /// the call entered.
    ///
    /// Let h be the [`height`](Self::height) and k the number of allocated ranges before the call.
    /// The count is
    /// - at most h for `ExactMatch`.
    /// - at most 2k + 1 for `FirstMatch` and `LastMatch`.
    /// - at least 1 and at least h / 2 for a success.
    /// - 0 for `InvalidSize`, `InvalidAlignment` and `UnalignedAddress`.
    ///
    /// `FirstMatch` and `LastMatch` enter at most h(v + 1) nodes, and at most hv if they return
    /// `ResourceNotAvailable`. Here v is the number of gaps that are long enough but misaligned. It is 0 if
    /// `alignment` is 1.
    ///
    /// # Errors
    ///
    /// Those of [`allocate`](Self::allocate), in the same order.
    pub fn allocate_counted(
        &mut self,
        alloc: Global,
        size: u64,
        alignment: u64,
        policy: AllocPolicy,
    ) -> (Result<RangeInclusive>, u64) {
        match Constraint::new(size, alignment, policy) {
            Err(error) => (Err(error), 0),
            Ok(request) => self.allocate_constraint_counted(alloc, request),
        }
    }

    /// Frees an allocated range.
    ///
    /// It does not allocate, and always succeeds for an allocated range.
    ///
    /// # Errors
    ///
    /// An error changes nothing.
    /// - `ResourceNotAvailable` if exactly this range is not allocated. A part of an allocated
    ///   range cannot be freed.
    pub fn free(&mut self, key: &RangeInclusive) -> Result<()> {
        self.free_counted(key).0
    }

    /// Returns the height of the tree: the number of nodes on its longest path, at most 48.
    ///
    /// A leaf is a node, and has up to 32 blocks. All leaves are at the same depth. Let h be the height, and k
    /// the number of allocated ranges. Then F(h + 2) is at most 2k + 2. If h is above 1, 12 F(h + 1) and
    /// 24 * 5^(h - 2) are at most 2k + 1. F is the Fibonacci sequence 1, 1, 2, 3, 5.
    pub fn height(&self) -> u64 {
        // Proof: the tree is valid.
        self.tree.facts();
        self.tree.height()
    }

    /// Returns the range of all addresses of the space.
    pub fn space(&self) -> RangeInclusive {
        self.space
    }

    /// Returns the first address of the space.
    pub fn base(&self) -> u64 {
        self.space.start()
    }

    /// Returns the last address of the space.
    pub fn end(&self) -> u64 {
        self.space.end()
    }
}

/// Returns the range of the `size` addresses that start at `base`.
///
/// Its errors are `Underflow` for size 0, and `Overflow` if the range would end past `u64::MAX`.
fn space_from(base: u64, size: u64) -> Result<RangeInclusive> {
    if size == 0 {
        return Err(Error::Underflow);
    }
    let end = base.checked_add(size - 1).ok_or(Error::Overflow)?;
    RangeInclusive::new(base, end)
}
