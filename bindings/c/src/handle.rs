// SPDX-License-Identifier: Apache-2.0 OR BSD-3-Clause
//! The objects that C has pointers to.

use crate::proved::vm_addresses::{Error, Result as Answer};
use crate::rattle::{AllocError, Global, Vec};
use crate::status::{dvs_status, DVS_BUSY, DVS_NULL};
use crate::CallError;
use alloc::boxed::Box;
use core::cell::UnsafeCell;
use core::ffi::{c_int, c_void};
use core::sync::atomic::{AtomicUsize, Ordering};

/// An object behind a C pointer.
pub struct Handle<T> {
    object: UnsafeCell<T>,
    // The number of visits that are running on the object.
    visits: AtomicUsize,
}

/// Returns the referent of a pointer, or `Null` if it is null.
pub(crate) fn non_null<T>(pointer: Option<T>) -> Result<T, dvs_status> {
    pointer.ok_or(DVS_NULL)
}

impl<T> Handle<T> {
    /// Moves an object to the heap, and returns a pointer for C.
    ///
    /// # Errors
    ///
    /// - `AllocError` if the allocation fails.
    pub(crate) fn new(object: T) -> Result<*mut Handle<T>, AllocError> {
        // A vector reports a failed allocation, and a box does not.
        let mut one = alloc::vec::Vec::from(Vec::with_capacity(Global, 1)?);
        one.push(Handle {
            object: UnsafeCell::new(object),
            visits: AtomicUsize::new(0),
        });
        Ok(Box::into_raw(one.into_boxed_slice()).cast())
    }

    /// Drops an object. It does nothing if the pointer is null.
    ///
    /// # Errors
    ///
    /// - `Busy` if the object is being visited. It is not dropped then.
    ///
    /// # Safety
    ///
    /// The pointer is null or from `new`, and is not used after a call that drops the object.
    pub(crate) unsafe fn destroy(pointer: *mut Handle<T>) -> Result<(), CallError> {
        // SAFETY: it is null or points to a handle that `new` made.
        if let Some(handle) = unsafe { pointer.as_ref() } {
            handle.get_mut()?;
            // SAFETY: `new` made it as a box of one handle, and it is dropped only here.
            drop(unsafe { Box::from_raw(pointer) });
        }
        Ok(())
    }

    /// Returns the object for reading.
    pub(crate) fn get(&self) -> &T {
        // SAFETY: no call changes the object meanwhile. The header forbids such a call on another
        // thread, and `get_mut` returns an error during a visit.
        unsafe { &*self.object.get() }
    }

    /// Returns the object for writing, or `Busy` if it is being visited.
    #[allow(clippy::mut_from_ref)]
    pub(crate) fn get_mut(&self) -> Result<&mut T, CallError> {
        match self.visits.load(Ordering::Relaxed) {
            // SAFETY: no visit reads the object, and the header forbids other calls on it at the same
            // time.
            0 => Ok(unsafe { &mut *self.object.get() }),
            _ => Err(DVS_BUSY.into()),
        }
    }
}

/// A visitor that C passes. If it unwinds, the process ends.
pub type Visitor<T> = extern "C-unwind" fn(context: *mut c_void, item: T) -> c_int;

/// Calls `visitor` with each item that `items` returns, until it returns a number other than 0. The
/// object cannot be changed meanwhile. If `items` fails, `visitor` is not called.
pub(crate) fn visit<'a, T, I: Iterator>(
    handle: Option<&'a Handle<T>>,
    items: impl FnOnce(&'a T) -> Answer<I>,
    visitor: Option<impl Fn(I::Item) -> c_int>,
) -> Result<(), CallError> {
    let (handle, visitor) = (non_null(handle)?, non_null(visitor)?);
    let items = items(handle.get())?;
    handle.visits.fetch_add(1, Ordering::Relaxed);
    for item in items {
        if visitor(item) != 0 {
            break;
        }
    }
    handle.visits.fetch_sub(1, Ordering::Relaxed);
    Ok(())
}

/// Returns the item that a look-up has found.
///
/// # Errors
///
/// - `ResourceNotAvailable` if there is none.
pub(crate) fn found<T, A: From<T>>(item: Option<T>) -> Result<A, CallError> {
    Ok(item.ok_or(Error::ResourceNotAvailable)?.into())
}
