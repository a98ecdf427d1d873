// SPDX-License-Identifier: Apache-2.0 OR BSD-3-Clause
use crate::pad::pad;
use crate::proved::vm_addresses as proved;
use crate::{Conflict, Constraint, NodeState, RangeInclusive, RangeMap};
use alloc::vec::Vec;
use core::fmt;

/// The error of a call. A call that returns an error leaves the same ranges and ids allocated.
///
/// # Example
///
/// ```rust
/// use divsharun::{AddressAllocator, AllocPolicy, Error};
///
/// let mut ports = AddressAllocator::new(0xc000, 0x1000)?;
/// assert_eq!(
///     ports.allocate(0x2000, 1, AllocPolicy::FirstMatch),
///     Err(Error::ResourceNotAvailable)
/// );
/// assert_eq!(Error::OutOfRange(7).to_string(), "Specified id: 7 is not in the range.");
/// # Ok::<(), Error>(())
/// ```
#[derive(Copy, Clone, PartialEq, Eq, PartialOrd, Ord, Hash, Debug)]
pub enum Error {
    /// A range would end at or past `u64::MAX`, too few ids of a range up to `u32::MAX` are free, or too
    /// many ranges are allocated.
    Overflow,
    /// The id is outside the range of the allocator.
    OutOfRange(u32),
    /// The id to free was allocated and is already freed.
    AlreadyReleased(u32),
    /// The id to free was never allocated.
    NeverAllocated(u32),
    /// No free range fits the request, the range to free is not allocated, too few ids are free, or the
    /// requested id is already allocated.
    ResourceNotAvailable,
    /// The start is past the end, or the range has all 2^64 addresses.
    InvalidRange(u64, u64),
    /// The alignment is not a power of two.
    InvalidAlignment,
    /// The first range shares an address with the second. No public call returns it.
    Overlap(RangeInclusive, RangeInclusive),
    /// The range requested by `ExactMatch` is already allocated.
    InvalidStateTransition(RangeInclusive, NodeState),
    /// The start of `ExactMatch` is not a multiple of the alignment.
    UnalignedAddress,
    /// The size of a space is 0, or no free range is given for a space.
    Underflow,
    /// The size of a requested range is 0.
    InvalidSize(u64),
}

// The proved code has the texts.
impl fmt::Display for Error {
    fn fmt(&self, f: &mut fmt::Formatter<'_>) -> fmt::Result {
        pad(f, |to| write!(to, "{}", proved::Error::from(*self)))
    }
}

impl core::error::Error for Error {}

/// The result of a call: a value or an [`Error`].
///
/// # Example
///
/// ```rust
/// use divsharun::{Error, IdAllocator, Result};
///
/// fn first_of(base: u32, end: u32) -> Result<u32> {
///     IdAllocator::new(base, end)?.allocate_id()
/// }
///
/// assert_eq!(first_of(5, 23), Ok(5));
/// assert_eq!(first_of(23, 5), Err(Error::InvalidRange(23, 5)));
/// ```
pub type Result<T> = core::result::Result<T, Error>;

/// The results of calls with the prefix `try_`, of calls with a list, and of those with both.
pub(crate) type TryResult<T> = core::result::Result<T, TryError>;
pub(crate) type ListResult<T> = core::result::Result<T, ListError>;
pub(crate) type TryListResult<T> = core::result::Result<T, ListError<TryError>>;

/// The results of calls that allocate a range for a value.
pub(crate) type ValueResult<T> = core::result::Result<RangeInclusive, ValueError<T>>;
pub(crate) type TryValueResult<T> = core::result::Result<RangeInclusive, ValueError<T, TryError>>;

/// The result of a call with items of which each has a value.
pub(crate) type ItemsResult<R, K, T, E> =
    core::result::Result<R, ValueError<Vec<(K, T)>, ListError<E>>>;
pub(crate) type HeldResult<T> = ItemsResult<RangeMap<T>, RangeInclusive, T, Error>;
pub(crate) type TryHeldResult<T> = ItemsResult<RangeMap<T>, RangeInclusive, T, TryError>;
pub(crate) type AllResult<T> = ItemsResult<Vec<RangeInclusive>, Constraint, T, Error>;
pub(crate) type TryAllResult<T> = ItemsResult<Vec<RangeInclusive>, Constraint, T, TryError>;

/// The error of a call with the prefix `try_`. A call that returns an error leaves the same ranges and
/// ids allocated.
///
/// `Display` writes its error, so it has no `source`.
///
/// # Example
///
/// ```rust
/// use divsharun::{AddressAllocator, AllocPolicy, Error, TryError};
///
/// fn window(space: &mut AddressAllocator) -> Result<u64, TryError> {
///     Ok(space.try_allocate(0x1000, 0x1000, AllocPolicy::LastMatch)?.start())
/// }
///
/// let mut space = AddressAllocator::try_new(0x1000, 0x1000)?;
/// assert_eq!(window(&mut space)?, 0x1000);
/// assert_eq!(window(&mut space), Err(TryError::Refused(Error::ResourceNotAvailable)));
/// assert_eq!(TryError::OutOfMemory.error(), None);
/// # Ok::<(), TryError>(())
/// ```
#[derive(Copy, Clone, PartialEq, Eq, PartialOrd, Ord, Hash, Debug)]
#[non_exhaustive]
pub enum TryError {
    /// The error that the call without `try_` would return.
    Refused(Error),
    /// Memory ran out. This error comes after every other one. In a call with a list, that of a copy of
    /// the list comes first, and in a call of a [`RangeMap`](crate::RangeMap), that of a value.
    OutOfMemory,
}

impl TryError {
    /// Returns the error that the call without `try_` would return, or `None` if memory ran out.
    ///
    /// # Example
    ///
    /// ```rust
    /// use divsharun::{Error, IdAllocator, TryError};
    ///
    /// let mut lines = IdAllocator::new(5, 23)?;
    /// let refused = lines.try_free_id(9).map_err(|error| error.error());
    /// assert_eq!(refused, Err(Some(Error::NeverAllocated(9))));
    /// assert_eq!(TryError::OutOfMemory.error(), None);
    /// # Ok::<(), Error>(())
    /// ```
    #[must_use]
    pub const fn error(&self) -> Option<Error> {
        match self {
            TryError::Refused(error) => Some(*error),
            TryError::OutOfMemory => None,
        }
    }
}

impl fmt::Display for TryError {
    fn fmt(&self, f: &mut fmt::Formatter<'_>) -> fmt::Result {
        match self {
            TryError::Refused(error) => error.fmt(f),
            TryError::OutOfMemory => pad(f, |to| write!(to, "{}", proved::Error::OutOfMemory)),
        }
    }
}

impl core::error::Error for TryError {}

impl From<Error> for TryError {
    fn from(error: Error) -> TryError {
        TryError::Refused(error)
    }
}

/// The error of a call with a list. It names the item of the list that failed, and what is in its way.
///
/// `E` is [`TryError`] for a call with the prefix `try_`. The operator `?` converts it to its error.
/// `Display` writes that error after the item, so it has no `source`.
///
/// # Example
///
/// ```rust
/// use divsharun::{AddressAllocator, AllocPolicy, Constraint, Error, RangeInclusive};
///
/// fn bars(mmio: &mut AddressAllocator) -> divsharun::Result<Vec<RangeInclusive>> {
///     let registers = Constraint::new(0x1000, 0x1000, AllocPolicy::FirstMatch)?;
///     let buffer = Constraint::new(0x8000, 0x8000, AllocPolicy::FirstMatch)?;
///     let requests = [registers, buffer];
///     if let Err(failure) = mmio.allocate_all(&requests) {
///         assert_eq!(failure.index, Some(1));
///         assert_eq!(failure.conflict, None);
///         assert_eq!(failure.to_string(), "item 1: The requested resource is not available.");
///     }
///     Ok(mmio.allocate_all(&requests)?)
/// }
///
/// let mut mmio = AddressAllocator::new(0xd000_0000, 0x4000)?;
/// assert_eq!(bars(&mut mmio), Err(Error::ResourceNotAvailable));
/// # Ok::<(), Error>(())
/// ```
///
/// An error type of your own can be made from [`Error`] and [`TryError`] only:
///
/// ```rust
/// use divsharun::{AddressAllocator, Error, RangeInclusive, TryError};
///
/// #[derive(Debug, PartialEq)]
/// enum NoMachine {
///     Refused(Error),
///     OutOfMemory,
/// }
///
/// impl From<Error> for NoMachine {
///     fn from(error: Error) -> Self {
///         NoMachine::Refused(error)
///     }
/// }
///
/// impl From<TryError> for NoMachine {
///     fn from(error: TryError) -> Self {
///         error.error().map_or(NoMachine::OutOfMemory, NoMachine::Refused)
///     }
/// }
///
/// fn bridge(windows: &[RangeInclusive]) -> Result<[AddressAllocator; 2], NoMachine> {
///     let mmio = AddressAllocator::with_free(windows).map_err(Error::from)?;
///     let restored = AddressAllocator::try_with_free(windows).map_err(TryError::from)?;
///     Ok([mmio, restored])
/// }
///
/// assert_eq!(bridge(&[]), Err(NoMachine::Refused(Error::Underflow)));
/// ```
#[derive(Copy, Clone, PartialEq, Eq, PartialOrd, Ord, Hash, Debug)]
pub struct ListError<E = Error> {
    /// The index of the item that failed, or `None` if no item is the cause.
    pub index: Option<usize>,
    /// The error.
    pub error: E,
    /// The reason why the item is not allocated, if there is one: why `with_held` or `with_free` refused the
    /// range, or the [`conflict`](crate::AddressAllocator::conflict) of the request of `allocate_all` after the
    /// requests before it. So an allocated range can be that of an earlier request, which is free again.
    pub conflict: Option<Conflict>,
}

impl<E: fmt::Display> fmt::Display for ListError<E> {
    fn fmt(&self, f: &mut fmt::Formatter<'_>) -> fmt::Result {
        match self.index {
            Some(index) => pad(f, |to| write!(to, "item {index}: {}", self.error)),
            None => self.error.fmt(f),
        }
    }
}

impl<E: core::error::Error> core::error::Error for ListError<E> {}

impl From<ListError> for Error {
    fn from(failure: ListError) -> Error {
        failure.error
    }
}

impl<E: Into<TryError>> From<ListError<E>> for TryError {
    fn from(failure: ListError<E>) -> TryError {
        failure.error.into()
    }
}

/// The error of a call that was given a value, or a list of items with values. It returns the value or the list.
///
/// `E` is [`TryError`] for a call with the prefix `try_`, and a [`ListError`] for a call with a list. The operator
/// `?` converts it to its error, and drops the value. `Display` writes that error, so it has no `source`.
///
/// # Example
///
/// ```rust
/// use divsharun::{AllocPolicy, Error, RangeMap};
///
/// let mut bus = RangeMap::new(0xd000_0000, 0x1000)?;
/// let disk = bus.allocate(0x1000, 0x1000, AllocPolicy::FirstMatch, "disk")?;
/// let refused = bus.allocate(0x1000, 0x1000, AllocPolicy::FirstMatch, "net").unwrap_err();
/// assert_eq!(refused.error, Error::ResourceNotAvailable);
/// assert_eq!(refused.to_string(), "The requested resource is not available.");
///
/// bus.free(&disk)?;
/// bus.allocate(0x1000, 0x1000, AllocPolicy::FirstMatch, refused.value)?;
/// assert_eq!(bus.get(0xd000_0000), Some((disk, &"net")));
/// # Ok::<(), Error>(())
/// ```
#[derive(Copy, Clone, PartialEq, Eq, PartialOrd, Ord, Hash, Debug)]
pub struct ValueError<T, E = Error> {
    /// The error.
    pub error: E,
    /// The value or the list that the call was given.
    pub value: T,
}

impl<T, E: fmt::Display> fmt::Display for ValueError<T, E> {
    fn fmt(&self, f: &mut fmt::Formatter<'_>) -> fmt::Result {
        self.error.fmt(f)
    }
}

impl<T: fmt::Debug, E: core::error::Error> core::error::Error for ValueError<T, E> {}

impl<T> From<ValueError<T>> for Error {
    fn from(refused: ValueError<T>) -> Error {
        refused.error
    }
}

impl<T> From<ValueError<T, ListError>> for Error {
    fn from(refused: ValueError<T, ListError>) -> Error {
        refused.error.error
    }
}

impl<T, E: Into<TryError>> From<ValueError<T, E>> for TryError {
    fn from(refused: ValueError<T, E>) -> TryError {
        refused.error.into()
    }
}
