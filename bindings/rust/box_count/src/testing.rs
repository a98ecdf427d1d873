// SPDX-License-Identifier: Apache-2.0 OR BSD-3-Clause
//! Items that the tests of the sources use. They are in scope in every test, as in Rattle's prelude.
use core::fmt;
use core::ops::Deref;

pub use crate::rattle::{AllocError, Box, Global, Vec};
#[doc(inline)]
pub use crate::{__assert as assert, __assert_eq as assert_eq};

/// The argument of a test, which has the allocator.
pub struct HostRuntime;

/// A type whose failed assertion ends the test.
pub trait Abort {}

impl Abort for HostRuntime {}

/// A type that returns the allocator.
pub trait AllocGlobal {
    fn alloc(&self) -> Global {
        Global
    }
}

impl AllocGlobal for HostRuntime {}

/// A type whose values can be dropped. Every type of Rust is one.
pub trait Drop {}

impl<T> Drop for T {}

/// A type with clones. In Rattle a clone can fail, as it can allocate.
pub trait Clone: Sized {
    fn clone(value: &Self) -> Result<Self, AllocError>;
}

impl<T: core::clone::Clone> Clone for T {
    fn clone(value: &T) -> Result<T, AllocError> {
        Ok(value.clone())
    }
}

/// A string that reports a failed allocation.
#[derive(Debug)]
pub struct String(alloc::string::String);

impl Deref for String {
    type Target = alloc::string::String;

    fn deref(&self) -> &alloc::string::String {
        &self.0
    }
}

/// A value that can be written as a text.
pub trait ToString {
    fn to_string(&self, alloc: Global) -> Result<String, AllocError>;
}

impl<T: fmt::Display> ToString for T {
    fn to_string(&self, _alloc: Global) -> Result<String, AllocError> {
        Ok(String(alloc::format!("{self}")))
    }
}

/// `assert!(rt; condition, message)`
#[doc(hidden)]
#[macro_export]
macro_rules! __assert {
    ($runtime:expr; $($rest:tt)*) => { ::core::assert!($($rest)*) };
}

/// `assert_eq!(rt; one, other, message)`
#[doc(hidden)]
#[macro_export]
macro_rules! __assert_eq {
    ($runtime:expr; $($rest:tt)*) => { ::core::assert_eq!($($rest)*) };
}
