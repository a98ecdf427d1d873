// SPDX-License-Identifier: Apache-2.0 OR BSD-3-Clause
use crate::convert::out_of_memory;
use crate::proved::vm_addresses as proved;
use crate::traits::iterate;
use crate::{AddressAllocator, NodeState, RangeInclusive, TryError};
use alloc::vec::Vec;
use core::fmt;

/// A view of the space of an [`AddressAllocator`], created by [`layout`](AddressAllocator::layout).
///
/// Its `Display` writes a line for each allocated range and each gap, like `/proc/iomem`. If the
/// space ends below 2^16, it writes addresses of four digits, like `/proc/ioports`.
///
/// # Example
///
/// ```rust
/// use divsharun::{AddressAllocator, AllocPolicy};
///
/// let mut mmio = AddressAllocator::new(0xd000_0000, 0x1000_0000)?;
/// let disk = mmio.allocate(0x1000, 0x1000, AllocPolicy::FirstMatch)?;
/// mmio.allocate(0x10_0000, 0x10_0000, AllocPolicy::LastMatch)?;
/// assert_eq!(
///     mmio.layout().named([(disk, "virtio-blk")]).to_string(),
///     "d0000000-d0000fff : virtio-blk\n\
///      d0001000-dfefffff : gap\n\
///      dff00000-dfffffff : held"
/// );
/// # Ok::<(), divsharun::Error>(())
/// ```
#[derive(Clone, Debug)]
pub struct Layout<'a> {
    allocator: &'a AddressAllocator,
    // The named ranges in ascending order. The last of several names of a range is shown.
    names: Vec<Named<'a>>,
}

/// A range, the number of names before this one, and the name.
type Named<'a> = (RangeInclusive, usize, &'a str);

impl<'a> Layout<'a> {
    /// Creates the layout of an allocator, without names.
    pub(crate) fn of(allocator: &'a AddressAllocator) -> Self {
        let names = Vec::new();
        Layout { allocator, names }
    }

    /// Adds names for allocated ranges. A name for any other range is not shown. The layout borrows the
    /// names.
    ///
    /// # Example
    ///
    /// ```rust
    /// use divsharun::{AddressAllocator, AllocPolicy};
    ///
    /// let mut ports = AddressAllocator::new(0x3f0, 0x10)?;
    /// let serial = ports.allocate(8, 8, AllocPolicy::LastMatch)?;
    /// let names = [(serial, format!("ttyS{}", 0))];
    /// let names = names.iter().map(|(range, name)| (*range, name.as_str()));
    /// let layout = ports.layout().named(names);
    /// assert_eq!(layout.to_string(), "03f0-03f7 : gap\n03f8-03ff : ttyS0");
    /// # Ok::<(), divsharun::Error>(())
    /// ```
    #[must_use]
    pub fn named(self, names: impl IntoIterator<Item = (RangeInclusive, &'a str)>) -> Self {
        self.try_named(names).unwrap_or_else(|_| out_of_memory())
    }

    /// Adds names like [`named`](Self::named), but returns an error if memory runs out.
    ///
    /// # Errors
    ///
    /// - `OutOfMemory` if memory for the names runs out.
    ///
    /// # Example
    ///
    /// ```rust
    /// use divsharun::{AddressAllocator, AllocPolicy, TryError};
    ///
    /// let mut mmio = AddressAllocator::try_new(0xfec0_0000, 0x1000)?;
    /// let io_apic = mmio.try_allocate(0x1000, 0x1000, AllocPolicy::FirstMatch)?;
    /// match mmio.layout().try_named([(io_apic, "IOAPIC 0")]) {
    ///     Ok(layout) => assert_eq!(layout.to_string(), "fec00000-fec00fff : IOAPIC 0"),
    ///     Err(error) => assert_eq!(error, TryError::OutOfMemory),
    /// }
    /// # Ok::<(), TryError>(())
    /// ```
    pub fn try_named(
        mut self,
        names: impl IntoIterator<Item = (RangeInclusive, &'a str)>,
    ) -> Result<Self, TryError> {
        for (range, name) in names {
            let room = self.names.try_reserve(1);
            room.map_err(|_| TryError::OutOfMemory)?;
            self.names.push((range, self.names.len(), name));
        }
        self.names
            .sort_unstable_by_key(|(range, before, _)| (*range, *before));
        Ok(self)
    }

    /// Returns an iterator over the allocated ranges and the gaps, in ascending order.
    ///
    /// # Example
    ///
    /// ```rust
    /// use divsharun::{AddressAllocator, AllocPolicy};
    ///
    /// let mut mmio = AddressAllocator::new(0xd000_0000, 0x4000)?;
    /// let bar = mmio.allocate(0x1000, 0x1000, AllocPolicy::ExactMatch(0xd000_1000))?;
    /// let layout = mmio.layout().named([(bar, "virtio-net")]);
    /// let names: Vec<_> = layout.blocks().map(|block| block.to_string()).collect();
    /// assert_eq!(names, ["gap", "virtio-net", "gap"]);
    /// # Ok::<(), divsharun::Error>(())
    /// ```
    #[must_use]
    pub fn blocks(&self) -> Blocks<'_> {
        Blocks(self.allocator.0.blocks(), &self.names)
    }

    /// Returns the minimum number of digits of an address.
    pub(crate) fn digits(&self) -> usize {
        match self.allocator.end() {
            ..0x1_0000 => 4,
            _ => 8,
        }
    }
}

impl fmt::Display for Layout<'_> {
    fn fmt(&self, f: &mut fmt::Formatter<'_>) -> fmt::Result {
        let digits = self.digits();
        for block in self.blocks() {
            let (start, end) = (block.range.start(), block.range.end());
            if start != self.allocator.base() {
                f.write_str("\n")?;
            }
            write!(f, "{start:0digits$x}-{end:0digits$x} : {block}")?;
        }
        Ok(())
    }
}

/// An allocated range or a gap. Its `Display` writes its name, or `held` or `gap` if it has none.
///
/// # Example
///
/// ```rust
/// use divsharun::{AddressAllocator, NodeState};
///
/// let space = AddressAllocator::new(0x1000, 0x1000)?;
/// let layout = space.layout();
/// let block = layout.blocks().next().expect("a space has a block");
/// assert_eq!((block.range.len(), block.state), (0x1000, NodeState::Free));
/// assert_eq!(block.to_string(), "gap");
/// # Ok::<(), divsharun::Error>(())
/// ```
#[derive(Clone, Copy, Debug, PartialEq, Eq)]
pub struct Block<'a> {
    /// The addresses of the block.
    pub range: RangeInclusive,
    /// Whether the block is allocated.
    pub state: NodeState,
    /// The name of an allocated range, if [`named`](Layout::named) added one.
    pub name: Option<&'a str>,
}

impl<'a> Block<'a> {
    /// Returns the name, or `held` or `gap` if there is none.
    pub(crate) fn text(&self) -> &'a str {
        let by_state = match self.state {
            NodeState::Free => "gap",
            NodeState::Allocated => "held",
        };
        self.name.unwrap_or(by_state)
    }
}

impl fmt::Display for Block<'_> {
    fn fmt(&self, f: &mut fmt::Formatter<'_>) -> fmt::Result {
        f.pad(self.text())
    }
}

/// An iterator over the blocks of a [`Layout`], in ascending order or from both ends. Its length is
/// exact.
///
/// # Example
///
/// ```rust
/// use divsharun::{AddressAllocator, AllocPolicy, NodeState};
///
/// let mut space = AddressAllocator::new(0, 0x1000)?;
/// space.allocate(0x100, 0x100, AllocPolicy::ExactMatch(0x800))?;
/// let layout = space.layout();
/// let gaps = layout.blocks().filter(|block| block.state == NodeState::Free);
/// assert_eq!(gaps.map(|gap| gap.range.len()).max(), Some(0x800));
/// # Ok::<(), divsharun::Error>(())
/// ```
#[derive(Clone)]
pub struct Blocks<'a>(proved::AllBlocks<'a>, &'a [Named<'a>]);

/// Returns a block. If it is allocated, it has the last name that was given to its range.
fn named<'a>(
    (range, state): (proved::RangeInclusive, NodeState),
    names: &[Named<'a>],
) -> Block<'a> {
    let range = RangeInclusive(range);
    let upto = match state {
        NodeState::Free => 0,
        NodeState::Allocated => names.partition_point(|(named, ..)| *named <= range),
    };
    let last = names[..upto].last();
    let name = last.and_then(|(named, _, name)| (*named == range).then_some(*name));
    Block { range, state, name }
}

iterate!(Blocks: Block<'a>, |blocks, found| named(found, blocks.1));

impl ExactSizeIterator for Blocks<'_> {}
