// SPDX-License-Identifier: Apache-2.0 OR BSD-3-Clause
//! Converts values and errors of the proved code to those of callers.
//!
//! The messages of rustc list the impls of `From` for a public type. `do_not_recommend` leaves an impl out,
//! unless it is the only one. Such a conversion is an impl of `Into` for the proved type instead.
#![allow(clippy::from_over_into)]

use crate::error::ItemsResult;
use crate::proved::{vm_addresses as proved, vm_devices, vm_range_map};
use crate::rattle::Global;
use crate::TryError;
use crate::{AddressAllocator, Conflict, DeviceSlot, Error, ListError, RangeInclusive, ValueError};
use alloc::vec::Vec;

/// Implements the conversions between the errors of callers and those of the proved code, which have the same
/// variants. Only the proved code has `OutOfMemory`: the process then ends, as with Rust's collections.
macro_rules! convert_errors {
    ($($variant:ident $(($($field:ident),+))?),+) => {
        #[diagnostic::do_not_recommend]
        impl From<proved::Error> for Error {
            fn from(error: proved::Error) -> Self {
                match error {
                    $(proved::Error::$variant $(($($field),+))? => {
                        Self::$variant $(($($field.into()),+))?
                    })+
                    proved::Error::OutOfMemory => out_of_memory(),
                }
            }
        }

        impl From<Error> for proved::Error {
            fn from(error: Error) -> Self {
                match error {
                    $(Error::$variant $(($($field),+))? => {
                        Self::$variant $(($($field.into()),+))?
                    })+
                }
            }
        }
    };
}

convert_errors! {
    Overflow, OutOfRange(id), AlreadyReleased(id), NeverAllocated(id), ResourceNotAvailable,
    InvalidRange(start, end), InvalidAlignment, Overlap(new, old),
    InvalidStateTransition(range, state), UnalignedAddress, Underflow, InvalidSize(size)
}

impl Into<RangeInclusive> for proved::RangeInclusive {
    fn into(self) -> RangeInclusive {
        RangeInclusive(self)
    }
}

impl From<RangeInclusive> for proved::RangeInclusive {
    fn from(range: RangeInclusive) -> Self {
        range.0
    }
}

impl Into<DeviceSlot> for vm_devices::DeviceSlot {
    fn into(self) -> DeviceSlot {
        let (id, range) = (self.id, self.range.into());
        DeviceSlot { id, range }
    }
}

impl Into<Conflict> for proved::Conflict {
    fn into(self) -> Conflict {
        match self {
            proved::Conflict::OutsideSpace(space) => Conflict::OutsideSpace(space.into()),
            proved::Conflict::OutsideWindow(window) => Conflict::OutsideWindow(window.into()),
            proved::Conflict::Allocated(range) => Conflict::Allocated(range.into()),
        }
    }
}

impl Into<Conflict> for proved::ListConflict {
    fn into(self) -> Conflict {
        match self {
            proved::ListConflict::NotAfter(before) => Conflict::NotAfter(before.into()),
            proved::ListConflict::OutsideSpace(space) => Conflict::OutsideSpace(space.into()),
            proved::ListConflict::EndsAtMax => Conflict::EndsAtMax,
        }
    }
}

#[diagnostic::do_not_recommend]
impl From<proved::Error> for TryError {
    fn from(error: proved::Error) -> Self {
        match error {
            proved::Error::OutOfMemory => TryError::OutOfMemory,
            refused => TryError::Refused(refused.into()),
        }
    }
}

#[diagnostic::do_not_recommend]
impl<T, E: From<proved::Error>> From<vm_range_map::Refused<T>> for ValueError<T, E> {
    fn from(refused: vm_range_map::Refused<T>) -> Self {
        let (error, value) = (refused.error.into(), refused.value);
        ValueError { error, value }
    }
}

/// Converts the error of a call with a list. `conflict` returns the conflict of the item with an index.
pub(crate) fn list_error<E: From<proved::Error>, C: Into<Conflict>>(
    failure: impl Into<proved::ListError>,
    conflict: impl FnOnce(usize) -> Option<C>,
) -> ListError<E> {
    let failure = failure.into();
    ListError {
        index: failure.index,
        error: failure.error.into(),
        conflict: failure.index.and_then(conflict).map(Into::into),
    }
}

/// Makes a call with a list of items and their values, which can be on an object. An error returns the list.
/// The items are given with the functions that convert one to that of the proved code and back. `conflict` returns
/// the conflict of the item with an index.
pub(crate) fn with_items<S, R, K, P, T, C: Into<Conflict>, E: From<proved::Error>>(
    mut object: S,
    (mut items, to, from): (Vec<(K, T)>, impl Fn(K) -> P, impl Fn(P) -> K),
    call: impl FnOnce(
        &mut S,
        vm_range_map::ValuedList<P, T>,
    ) -> core::result::Result<R, vm_range_map::RefusedList<P, T>>,
    conflict: impl FnOnce(S, &[P], usize) -> Option<C>,
) -> ItemsResult<R, K, T, E> {
    let Ok(mut list) = vm_range_map::ValuedList::with_capacity(Global, items.len()) else {
        return Err(refused_items(items));
    };
    for (item, value) in items.drain(..) {
        // The list has the capacity for each item.
        let _ = list.push(to(item), value);
    }
    call(&mut object, list).map_err(|refused| {
        let (of_proved, values) = refused.list.into_lists();
        let error = list_error(refused.error, |index| conflict(object, &of_proved, index));
        let converted = Vec::from(of_proved).into_iter().map(from);
        items.extend(converted.zip(Vec::from(values)));
        ValueError {
            error,
            value: items,
        }
    })
}

/// Returns the error of a call with a list of items if memory runs out.
pub(crate) fn refused_items<V, E: From<proved::Error>>(value: V) -> ValueError<V, ListError<E>> {
    let error = list_error(proved::Error::OutOfMemory, |_| None::<Conflict>);
    ValueError { error, value }
}

/// Ends the process, as Rust's collections do.
///
/// The proved code does not report the size of the missing memory, so the size in the message
/// has no meaning.
pub(crate) fn out_of_memory() -> ! {
    alloc::alloc::handle_alloc_error(core::alloc::Layout::new::<AddressAllocator>())
}
