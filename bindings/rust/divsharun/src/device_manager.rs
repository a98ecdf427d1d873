// SPDX-License-Identifier: Apache-2.0 OR BSD-3-Clause
use crate::address_allocator::ShortDebug;
use crate::convert::out_of_memory;
use crate::error::TryResult;
use crate::id_allocator::DebugIds;
use crate::proved::vm_devices as proved;
use crate::rattle::Global;
use crate::traits::{allocator, iterate, twins, DebugList};
use crate::RangeInclusive;
use crate::{
    AddressAllocator, AllocPolicy, Conflict, Constraint, IdAllocator, IdRequest, Result, Window,
};
use core::fmt;

/// The resources of a device: an id and a range of addresses.
///
/// # Example
///
/// ```rust
/// use divsharun::{AllocPolicy, DeviceManager, DeviceSlot};
///
/// let mut devices = DeviceManager::new(1, 31, 0xd000_0000, 0x2ec0_0000)?;
/// let DeviceSlot { id, range } = devices.reserve(0x1000, 0x1000, AllocPolicy::FirstMatch)?;
/// assert_eq!((id, range.start()), (1, 0xd000_0000));
/// # Ok::<(), divsharun::Error>(())
/// ```
#[derive(Clone, Copy, Debug, PartialEq, Eq)]
#[cfg_attr(feature = "serde", derive(serde::Serialize, serde::Deserialize))]
#[cfg_attr(feature = "serde", serde(deny_unknown_fields))]
pub struct DeviceSlot {
    /// The id of the device.
    pub id: u32,
    /// The addresses of the device.
    #[cfg_attr(feature = "serde", serde(rename = "mmio_range"))]
    pub range: RangeInclusive,
}

/// Allocates an id and a range of addresses for each device. If it cannot have both, it gets
/// neither.
///
/// Two devices never share an id or an address.
///
/// Two managers are equal if and only if their allocators are equal and they have the same devices.
///
/// # Example
///
/// ```rust
/// use divsharun::{AllocPolicy, DeviceManager, Error};
///
/// let mut devices = DeviceManager::new(0, 100, 0xd000_0000, 0x2ec0_0000)?;
/// let disk = devices.reserve(0x1000, 0x1000, AllocPolicy::FirstMatch)?;
/// devices.reserve(0x1000, 0x1000, AllocPolicy::FirstMatch)?;
///
/// devices.release(disk.id)?;
/// assert_eq!(devices.release(disk.id), Err(Error::NeverAllocated(disk.id)));
/// assert_eq!(devices.slot(disk.id), None);
/// // Plugged in again, it gets the same id and the same window.
/// assert_eq!(devices.reserve(0x1000, 0x1000, AllocPolicy::FirstMatch)?, disk);
/// # Ok::<(), Error>(())
/// ```
///
/// # Devices with several ranges
///
/// A manager fits devices of one id and one range each, such as those of virtio-mmio. A PCI function
/// has several BARs and interrupt vectors. Two calls allocate these, each all or none:
///
/// ```rust
/// use divsharun::{AddressAllocator, AllocPolicy, Constraint, Error, IdAllocator};
///
/// let mut space = AddressAllocator::new(0xc000_0000, 0x2_0000_0000)?;
/// let mut vectors = IdAllocator::new(32, 238)?;
///
/// let requests = [
///     Constraint::new(0x1000, 0x1000, AllocPolicy::FirstMatch)?.within(..=0xffff_ffff)?,
///     Constraint::new(0x4000_0000, 0x4000_0000, AllocPolicy::LastMatch)?,
/// ];
/// let ids = vectors.allocate_ids(4)?;
/// match space.allocate_all(&requests) {
///     Ok(bars) => assert_eq!((bars[0].start(), bars[1].start()), (0xc000_0000, 0x2_8000_0000)),
///     Err(error) => {
///         for id in ids {
///             vectors.free_id(id)?;
///         }
///         return Err(error.into());
///     }
/// }
/// # Ok::<(), Error>(())
/// ```
#[derive(PartialEq, Eq)]
pub struct DeviceManager(pub(crate) proved::DeviceManager);

impl DeviceManager {
    twins! {
        /// Creates a manager without devices, for the ids from `id_lo` to `id_hi`, both included, and
        /// the `size` addresses starting at `base`.
        ///
        /// # Errors
        ///
        /// In this order:
        /// - `InvalidRange(id_lo, id_hi)` if `id_hi` is less than `id_lo`.
        /// - `Underflow` if `size` is 0.
        /// - `Overflow` if the last address would be past `u64::MAX`.
        ///
        /// # Example
        ///
        /// ```rust
        /// use divsharun::{DeviceManager, Error};
        ///
        /// let devices = DeviceManager::new(5, 23, 0xd000_0000, 0x2ec0_0000)?;
        /// assert_eq!(devices.device_count(), 0);
        /// assert_eq!(DeviceManager::new(5, 23, 0xd000_0000, 0), Err(Error::Underflow));
        /// # Ok::<(), Error>(())
        /// ```
        pub fn new(id_lo: u32, id_hi: u32, base: u64, size: u64) -> Result<Self> {
            Ok(Self(proved::DeviceManager::new(Global, id_lo, id_hi, base, size)?))
        }

        pub fn try_new -> TryResult;

        /// Allocates the lowest free id and a range of `size` addresses for a new device. `policy` and
        /// `align` choose the range as in
        /// [`AddressAllocator::allocate`](crate::AddressAllocator::allocate).
        ///
        /// # Errors
        ///
        /// An error leaves ids, ranges and devices unchanged. In this order:
        /// - `Overflow` or `ResourceNotAvailable` if all ids are allocated, as for
        ///   [`IdAllocator::allocate_id`](crate::IdAllocator::allocate_id).
        /// - `InvalidSize`, `InvalidAlignment`, `UnalignedAddress`, `Overflow`, `ResourceNotAvailable`
        ///   or `InvalidStateTransition`, as for
        ///   [`AddressAllocator::allocate`](crate::AddressAllocator::allocate).
        ///
        /// # Example
        ///
        /// ```rust
        /// use divsharun::{AllocPolicy, DeviceManager, Error};
        ///
        /// let mut devices = DeviceManager::new(5, 6, 0xd000_0000, 0x1000_0000)?;
        /// let net = devices.reserve(0x1000, 0x1000, AllocPolicy::FirstMatch)?;
        /// let disk = devices.reserve(0x1000, 0x1000, AllocPolicy::FirstMatch)?;
        /// assert_eq!([net.id, disk.id], [5, 6]);
        /// assert_eq!([net.range.start(), disk.range.start()], [0xd000_0000, 0xd000_1000]);
        ///
        /// let third = devices.reserve(0x1000, 0x1000, AllocPolicy::FirstMatch);
        /// assert_eq!(third, Err(Error::ResourceNotAvailable));
        /// # Ok::<(), Error>(())
        /// ```
        #[doc(alias("allocate", "add", "insert"))]
        pub fn reserve(&mut self, size: u64, align: u64, policy: AllocPolicy) -> Result<DeviceSlot> {
            Ok(self.0.reserve(Global, size, align, policy)?.into())
        }

        pub fn try_reserve -> TryResult;

        /// Reserves like [`reserve`](Self::reserve), for a request that was made before. If the request
        /// has a [window](Constraint::within), the range lies in it.
        ///
        /// # Errors
        ///
        /// An error leaves ids, ranges and devices unchanged. In this order:
        /// - `Overflow` or `ResourceNotAvailable` if all ids are allocated, as for
        ///   [`IdAllocator::allocate_id`](crate::IdAllocator::allocate_id).
        /// - `Overflow`, `ResourceNotAvailable` or `InvalidStateTransition`, as for
        ///   [`AddressAllocator::allocate_constraint`](crate::AddressAllocator::allocate_constraint).
        ///
        /// # Example
        ///
        /// ```rust
        /// use divsharun::{AllocPolicy, Constraint, DeviceManager};
        ///
        /// let mut devices = DeviceManager::new(5, 23, 0xc000_0000, 0x2_0000_0000)?;
        /// let bar = Constraint::new(0x1000, 0x1000, AllocPolicy::LastMatch)?;
        /// let disk = devices.reserve_constraint(bar.within(..=0xffff_ffff)?)?;
        /// assert_eq!((disk.id, disk.range.start()), (5, 0xffff_f000));
        /// # Ok::<(), divsharun::Error>(())
        /// ```
        pub fn reserve_constraint(&mut self, request: Constraint) -> Result<DeviceSlot> {
            Ok(self.0.reserve_constraint(Global, request.0)?.into())
        }

        pub fn try_reserve_constraint -> TryResult;

        /// Reserves like [`reserve_constraint`](Self::reserve_constraint), with the id of another request
        /// instead of the lowest free one.
        ///
        /// A saved value lists each free id below the highest one that was ever allocated. So it can be too
        /// long for the memory after a reservation of a high id.
        ///
        /// # Errors
        ///
        /// An error leaves ids, ranges and devices unchanged. In this order:
        /// - The error of [`allocate_id`](crate::IdAllocator::allocate_id),
        ///   [`allocate_in`](crate::IdAllocator::allocate_in) or
        ///   [`allocate_exact`](crate::IdAllocator::allocate_exact) for the id.
        /// - The error of
        ///   [`AddressAllocator::allocate_constraint`](crate::AddressAllocator::allocate_constraint) for the
        ///   range.
        ///
        /// # Example
        ///
        /// ```rust
        /// use divsharun::{AllocPolicy, Constraint, DeviceManager, Error, IdRequest};
        ///
        /// let mut devices = DeviceManager::new(0, 31, 0xd000_0000, 0x1000_0000)?;
        /// let bar = Constraint::new(0x1000, 0x1000, AllocPolicy::FirstMatch)?;
        /// assert_eq!(devices.reserve_with_id(IdRequest::Exact(9), bar)?.id, 9);
        /// assert_eq!(devices.reserve_with_id(IdRequest::LowestIn(8, 15), bar)?.id, 8);
        /// assert_eq!(devices.reserve_with_id(IdRequest::Lowest, bar)?.id, 0);
        ///
        /// let again = devices.reserve_with_id(IdRequest::Exact(9), bar);
        /// assert_eq!(again, Err(Error::ResourceNotAvailable));
        /// # Ok::<(), Error>(())
        /// ```
        pub fn reserve_with_id(&mut self, id: IdRequest, request: Constraint) -> Result<DeviceSlot> {
            Ok(self.0.reserve_with_id(Global, id, request.0)?.into())
        }

        pub fn try_reserve_with_id -> TryResult;
    }

    /// Returns the reason why the range of an `ExactMatch` request is not free, like
    /// [`AddressAllocator::conflict`](crate::AddressAllocator::conflict). The ids do not matter.
    ///
    /// # Example
    ///
    /// ```rust
    /// use divsharun::{AllocPolicy, Conflict, Constraint, DeviceManager};
    ///
    /// let mut devices = DeviceManager::new(5, 5, 0xd000_0000, 0x1000_0000)?;
    /// let disk = devices.reserve(0x4000, 0x4000, AllocPolicy::FirstMatch)?;
    /// // The id is allocated, and these ranges are not.
    /// let net = |start| Constraint::new(0x1000, 0x1000, AllocPolicy::ExactMatch(start));
    /// assert_eq!(devices.conflict(net(0xd000_4000)?), None);
    /// assert_eq!(devices.conflict(net(0xd000_3000)?), Some(Conflict::Allocated(disk.range)));
    /// # Ok::<(), divsharun::Error>(())
    /// ```
    #[must_use]
    pub fn conflict(&self, request: Constraint) -> Option<Conflict> {
        let found = self.0.addresses().conflict(request.0);
        found.map(Into::into)
    }

    twins! {
        /// Moves a device to the place of a request, and returns its range there. It keeps its id. The
        /// range can overlap the one before.
        ///
        /// # Errors
        ///
        /// An error leaves ids, ranges and devices unchanged. In this order:
        /// - `NeverAllocated(id)` if no device has this id.
        /// - The error of
        ///   [`AddressAllocator::move_constraint`](crate::AddressAllocator::move_constraint) for its range.
        ///
        /// # Example
        ///
        /// ```rust
        /// use divsharun::{AllocPolicy, Constraint, DeviceManager, Error};
        ///
        /// let mut devices = DeviceManager::new(1, 31, 0xfe00_0000, 0x20_0000)?;
        /// let net = devices.reserve(0x4000, 0x4000, AllocPolicy::FirstMatch)?;
        /// // The guest programs its BAR.
        /// let bar = Constraint::new(0x4000, 0x4000, AllocPolicy::ExactMatch(0xfe10_0000))?;
        /// let moved = devices.move_constraint(net.id, bar)?;
        /// assert_eq!((moved.start(), devices.slot(net.id)), (0xfe10_0000, Some(moved)));
        /// assert_eq!(devices.move_constraint(2, bar), Err(Error::NeverAllocated(2)));
        /// # Ok::<(), Error>(())
        /// ```
        pub fn move_constraint(&mut self, id: u32, request: Constraint) -> Result<RangeInclusive> {
            Ok(RangeInclusive(self.0.move_constraint(Global, id, request.0)?))
        }

        pub fn try_move_constraint -> TryResult;

        /// Releases a device: frees its id and its range.
        ///
        /// # Errors
        ///
        /// - `NeverAllocated(id)` if no device has this id. Nothing changes then.
        ///
        /// # Example
        ///
        /// ```rust
        /// use divsharun::{AllocPolicy, DeviceManager, Error};
        ///
        /// let mut devices = DeviceManager::new(1, 31, 0xfe00_0000, 0x20_0000)?;
        /// let net = devices.reserve(0x2_0000, 0x2_0000, AllocPolicy::FirstMatch)?;
        /// devices.release(net.id)?;
        /// assert_eq!(devices.device_at(net.range.start()), None);
        /// assert_eq!(devices.release(2), Err(Error::NeverAllocated(2)));
        /// # Ok::<(), Error>(())
        /// ```
        #[doc(alias("free", "remove"))]
        pub fn release(&mut self, id: u32) -> Result<()> {
            Ok(self.0.release(id)?)
        }

        pub fn try_release -> TryResult;
    }

    /// Returns an iterator over the devices, like [`devices`](Self::devices).
    ///
    /// # Example
    ///
    /// ```rust
    /// use divsharun::{AllocPolicy, DeviceManager};
    ///
    /// let mut devices = DeviceManager::new(5, 23, 0xd000_0000, 0x2ec0_0000)?;
    /// for size in [0x4000, 0x1000] {
    ///     devices.reserve(size, size, AllocPolicy::FirstMatch)?;
    /// }
    /// let bytes: u64 = devices.iter().map(|device| device.range.len()).sum();
    /// assert_eq!(bytes, 0x5000);
    /// # Ok::<(), divsharun::Error>(())
    /// ```
    #[must_use]
    pub fn iter(&self) -> Devices<'_> {
        self.devices()
    }

    /// Returns an iterator over the devices in ascending order of ids. It does not allocate.
    ///
    /// # Example
    ///
    /// ```rust
    /// use divsharun::{AllocPolicy, DeviceManager};
    ///
    /// let mut devices = DeviceManager::new(5, 23, 0xd000_0000, 0x2ec0_0000)?;
    /// let net = devices.reserve(0x1000, 0x1000, AllocPolicy::LastMatch)?;
    /// let disk = devices.reserve(0x1000, 0x1000, AllocPolicy::LastMatch)?;
    /// assert!(net.range > disk.range);
    /// assert!(devices.devices().eq([net, disk]));
    /// # Ok::<(), divsharun::Error>(())
    /// ```
    #[must_use]
    pub fn devices(&self) -> Devices<'_> {
        Devices(self.0.devices())
    }

    /// Returns an iterator over the devices whose ids are in a window, which is a range of `u32`, in ascending
    /// order of ids. It begins in logarithmic time and does not allocate.
    ///
    /// # Example
    ///
    /// ```rust
    /// use divsharun::{AllocPolicy, DeviceManager};
    ///
    /// let mut devices = DeviceManager::new(5, 23, 0xd000_0000, 0x2ec0_0000)?;
    /// let net = devices.reserve(0x1000, 0x1000, AllocPolicy::FirstMatch)?;
    /// let disk = devices.reserve(0x1000, 0x1000, AllocPolicy::FirstMatch)?;
    /// assert!(devices.devices_in(net.id + 1..).eq([disk]));
    /// # Ok::<(), divsharun::Error>(())
    /// ```
    #[must_use]
    pub fn devices_in(&self, window: impl Window<u32>) -> DevicesIn<'_> {
        let (first, last) = window.limits();
        DevicesIn(self.0.devices_in(first, last))
    }

    /// Returns the number of devices in constant time. It does not allocate.
    ///
    /// # Example
    ///
    /// ```rust
    /// use divsharun::{AllocPolicy, DeviceManager};
    ///
    /// let mut devices = DeviceManager::new(1, 31, 0xfe00_0000, 0x20_0000)?;
    /// let disk = devices.reserve(0x4000, 0x4000, AllocPolicy::FirstMatch)?;
    /// devices.reserve(0x1000, 0x1000, AllocPolicy::FirstMatch)?;
    /// devices.release(disk.id)?;
    /// assert_eq!(devices.device_count(), 1);
    /// # Ok::<(), divsharun::Error>(())
    /// ```
    #[doc(alias("is_empty", "len"))]
    #[must_use]
    pub fn device_count(&self) -> u64 {
        self.0.device_count()
    }

    /// Returns a copy of the allocator of the addresses, to read its gaps, its layout and more. It takes
    /// linear time. Changes of the copy do not change the manager.
    ///
    /// # Example
    ///
    /// ```rust
    /// use divsharun::{AllocPolicy, DeviceManager};
    ///
    /// let mut devices = DeviceManager::new(5, 23, 0xa00_0000, 0x4000)?;
    /// devices.reserve(0x200, 0x200, AllocPolicy::LastMatch)?;
    /// assert_eq!(devices.addresses().longest_gap(), 0x3e00);
    /// # Ok::<(), divsharun::Error>(())
    /// ```
    #[must_use]
    pub fn addresses(&self) -> AddressAllocator {
        self.try_addresses().unwrap_or_else(|_| out_of_memory())
    }

    /// Copies like [`addresses`](Self::addresses), but returns an error if memory runs out.
    ///
    /// # Errors
    ///
    /// - `OutOfMemory` if memory for a node runs out.
    pub fn try_addresses(&self) -> TryResult<AddressAllocator> {
        Ok(AddressAllocator(self.0.addresses().try_clone(Global)?))
    }

    /// Returns a copy of the allocator of the ids, to read, like [`addresses`](Self::addresses).
    ///
    /// # Example
    ///
    /// ```rust
    /// use divsharun::{AllocPolicy, DeviceManager};
    ///
    /// let mut devices = DeviceManager::new(5, 23, 0xa00_0000, 0x4000)?;
    /// devices.reserve(0x200, 0x200, AllocPolicy::LastMatch)?;
    /// assert_eq!(devices.ids().peek_id()?, 6);
    /// # Ok::<(), divsharun::Error>(())
    /// ```
    #[must_use]
    pub fn ids(&self) -> IdAllocator {
        self.try_ids().unwrap_or_else(|_| out_of_memory())
    }

    /// Copies like [`ids`](Self::ids), but returns an error if memory runs out.
    ///
    /// # Errors
    ///
    /// - `OutOfMemory` if memory for the set of freed ids runs out.
    pub fn try_ids(&self) -> TryResult<IdAllocator> {
        Ok(IdAllocator(self.0.ids().try_clone(Global)?))
    }

    /// Returns the range of all addresses, free or allocated.
    ///
    /// # Example
    ///
    /// ```rust
    /// use divsharun::{AllocPolicy, DeviceManager};
    ///
    /// let mut devices = DeviceManager::new(5, 23, 0xa00_0000, 0x4000)?;
    /// let last = devices.reserve(0x200, 0x200, AllocPolicy::LastMatch)?;
    /// assert_eq!(devices.space().end(), last.range.end());
    /// # Ok::<(), divsharun::Error>(())
    /// ```
    #[must_use]
    pub fn space(&self) -> RangeInclusive {
        RangeInclusive(self.0.addresses().space())
    }

    /// Returns the device whose range contains the address, or `None` if there is none.
    ///
    /// It walks one path of the tree and looks up one entry of a table. It does not allocate.
    ///
    /// # Example
    ///
    /// ```rust
    /// use divsharun::{AllocPolicy, DeviceManager};
    ///
    /// let mut devices = DeviceManager::new(0, 100, 0xd000_0000, 0x2ec0_0000)?;
    /// let disk = devices.reserve(0x1000, 0x1000, AllocPolicy::FirstMatch)?;
    /// // The guest accesses this address.
    /// assert_eq!(devices.device_at(0xd000_0010), Some(disk));
    /// assert!(devices.devices().eq([disk]));
    /// # Ok::<(), divsharun::Error>(())
    /// ```
    #[doc(alias = "find")]
    #[must_use]
    pub fn device_at(&self, address: u64) -> Option<DeviceSlot> {
        self.0.device_at(address).map(Into::into)
    }

    /// Returns a copy, or an error if memory runs out.
    ///
    /// # Errors
    ///
    /// - `OutOfMemory` if memory runs out.
    pub fn try_clone(&self) -> TryResult<Self> {
        Ok(DeviceManager(self.0.try_clone(Global)?))
    }

    /// Returns the range of the device with this id, or `None` if there is no such device. It does
    /// not allocate.
    ///
    /// # Example
    ///
    /// ```rust
    /// use divsharun::{AllocPolicy, DeviceManager};
    ///
    /// let mut devices = DeviceManager::new(5, 23, 0xd000_0000, 0x2ec0_0000)?;
    /// let console = devices.reserve(0x1000, 0x1000, AllocPolicy::FirstMatch)?;
    /// assert_eq!(devices.slot(5), Some(console.range));
    /// assert_eq!(devices.slot(6), None);
    /// # Ok::<(), divsharun::Error>(())
    /// ```
    #[doc(alias = "get")]
    #[must_use]
    pub fn slot(&self, id: u32) -> Option<RangeInclusive> {
        self.0.slot(id).map(RangeInclusive)
    }
}

/// Writes the ids, the space and the devices, and not the tree.
impl fmt::Debug for DeviceManager {
    fn fmt(&self, f: &mut fmt::Formatter<'_>) -> fmt::Result {
        f.debug_struct("DeviceManager")
            .field("ids", &DebugIds(self.0.ids()))
            .field("addresses", &ShortDebug(self.0.addresses()))
            .field("devices", &DebugList(|| self.0.devices()))
            .finish()
    }
}

/// An iterator over the devices of a [`DeviceManager`], in ascending order of ids or from both ends.
/// Its length is exact.
///
/// It is created by [`devices`](DeviceManager::devices) and [`iter`](DeviceManager::iter).
///
/// # Example
///
/// ```rust
/// use divsharun::{AllocPolicy, DeviceManager};
///
/// let mut manager = DeviceManager::new(5, 23, 0xd000_0000, 0x2ec0_0000)?;
/// let net = manager.reserve(0x1000, 0x1000, AllocPolicy::FirstMatch)?;
/// let disk = manager.reserve(0x4000, 0x4000, AllocPolicy::FirstMatch)?;
/// let mut devices = manager.devices();
/// assert_eq!(devices.len(), 2);
/// assert!(devices.clone().rev().eq([disk, net]));
/// assert_eq!((devices.next(), devices.len()), (Some(net), 1));
/// # Ok::<(), divsharun::Error>(())
/// ```
#[derive(Clone)]
pub struct Devices<'a>(proved::Devices<'a>);

/// An iterator over the devices of a [`DeviceManager`] whose ids are in a window, in ascending order of ids or
/// from both ends.
///
/// It is created by [`devices_in`](DeviceManager::devices_in).
#[derive(Clone)]
pub struct DevicesIn<'a>(proved::DevicesIn<'a>);

iterate!(Devices, DevicesIn: DeviceSlot, |_devices, device| device.into());
allocator!(DeviceManager, Devices of DeviceSlot, "the devices");

impl ExactSizeIterator for Devices<'_> {}
