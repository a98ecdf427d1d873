// SPDX-License-Identifier: Apache-2.0 OR BSD-3-Clause
//! Writes objects with serde.

use super::{Map, ValuedRange};
use crate::proved::vm_addresses::{AddressAllocator, WrittenBlocks, WrittenTree};
use crate::rattle::Global;
use crate::TryError;
use core::fmt;
use serde::ser::{Error, SerializeSeq};
use serde::{Serialize, Serializer};

/// Implements `Serialize` for structures with these fields.
macro_rules! write_fields {
    ($(
        $object:ty as $name:literal, $this:ident: $($field:ident = $value:expr),*;
    )*) => {$(
        impl serde::Serialize for $object {
            #[inline]
            fn serialize<S: serde::Serializer>(&self, to: S) -> Result<S::Ok, S::Error> {
                use serde::ser::SerializeStruct;
                let $this = self;
                let mut fields = to.serialize_struct($name, [$(stringify!($field)),*].len())?;
                $(fields.serialize_field(stringify!($field), &$value)?;)*
                fields.end()
            }
        }
    )*};
}

write_fields! {
    crate::Constraint as "Constraint", this:
        size = this.size(),
        align = this.align(),
        policy = this.policy(),
        window = this.window();
}

#[path = "fields.rs"]
mod fields;
use fields::{List, WithBlocks};

/// A view of an object, which is serialized as the object, and without allocating memory.
///
/// [`AddressAllocator::try_saved`](crate::AddressAllocator::try_saved) and
/// [`DeviceManager::try_saved`](crate::DeviceManager::try_saved) create it.
pub struct Saved<'a, T> {
    object: &'a T,
    blocks: WrittenBlocks,
}

impl<T: fmt::Debug> fmt::Debug for Saved<'_, T> {
    fn fmt(&self, f: &mut fmt::Formatter<'_>) -> fmt::Result {
        f.debug_tuple("Saved").field(self.object).finish()
    }
}

/// Implements the writing of objects and of their views.
macro_rules! write_objects {
    ($($object:ty),+) => {$(
        impl Serialize for $object {
            fn serialize<S: Serializer>(&self, to: S) -> Result<S::Ok, S::Error> {
                self.try_saved().map_err(S::Error::custom)?.serialize(to)
            }
        }

        impl Serialize for Saved<'_, $object> {
            fn serialize<S: Serializer>(&self, to: S) -> Result<S::Ok, S::Error> {
                WithBlocks(&self.object.0, &self.blocks).serialize(to)
            }
        }
    )+};
}

write_objects! { crate::AddressAllocator, crate::DeviceManager }

impl<'a, T> Saved<'a, T> {
    /// Returns the view of an object with this space.
    fn of(object: &'a T, space: &AddressAllocator) -> Result<Self, TryError> {
        let blocks = space.written_blocks(Global);
        let blocks = blocks.map_err(|_| TryError::OutOfMemory)?;
        Ok(Saved { object, blocks })
    }
}

impl crate::AddressAllocator {
    /// Returns a view that is serialized as this allocator, and without allocating memory.
    ///
    /// The memory of a format is not part of this: `serde_json::to_string` allocates its text, and ends
    /// the process if memory for it runs out.
    ///
    /// # Errors
    ///
    /// - `OutOfMemory` if memory for a list of the blocks runs out.
    ///
    /// # Example
    ///
    /// ```rust
    /// # #[cfg(feature = "serde")]
    /// # fn main() -> Result<(), Box<dyn std::error::Error>> {
    /// use divsharun::{AddressAllocator, AllocPolicy};
    ///
    /// let mut mmio = AddressAllocator::new(0xd000_0000, 0x2ec0_0000)?;
    /// mmio.allocate(0x1000, 0x1000, AllocPolicy::FirstMatch)?;
    /// let mut buffer = [0; 0x400];
    /// let mut rest = &mut buffer[..];
    /// serde_json::to_writer(&mut rest, &mmio.try_saved()?)?;
    /// let end = 0x400 - rest.len();
    /// assert_eq!(serde_json::from_slice::<AddressAllocator>(&buffer[..end])?, mmio);
    /// # Ok(())
    /// # }
    /// # #[cfg(not(feature = "serde"))]
    /// # fn main() {}
    /// ```
    pub fn try_saved(&self) -> Result<Saved<'_, Self>, TryError> {
        Saved::of(self, &self.0)
    }
}

impl crate::DeviceManager {
    /// Returns a view that is serialized as this manager, and without allocating memory, as
    /// [`AddressAllocator::try_saved`](crate::AddressAllocator::try_saved) does.
    ///
    /// # Errors
    ///
    /// - `OutOfMemory` if memory for a list of the blocks runs out.
    ///
    /// # Example
    ///
    /// ```rust
    /// # #[cfg(feature = "serde")]
    /// # fn main() -> Result<(), Box<dyn std::error::Error>> {
    /// use divsharun::{AllocPolicy, DeviceManager, TryError};
    ///
    /// let mut devices = DeviceManager::new(5, 23, 0xd000_0000, 0x2ec0_0000)?;
    /// devices.reserve(0x1000, 0x1000, AllocPolicy::FirstMatch)?;
    /// match devices.try_saved() {
    ///     Ok(view) => assert_eq!(serde_json::to_value(view)?, serde_json::to_value(devices)?),
    ///     Err(error) => assert_eq!(error, TryError::OutOfMemory),
    /// }
    /// # Ok(())
    /// # }
    /// # #[cfg(not(feature = "serde"))]
    /// # fn main() {}
    /// ```
    pub fn try_saved(&self) -> Result<Saved<'_, Self>, TryError> {
        Saved::of(self, self.0.addresses())
    }
}

impl Serialize for WrittenTree<'_> {
    #[inline]
    fn serialize<S: Serializer>(&self, to: S) -> Result<S::Ok, S::Error> {
        if self.is_empty() {
            to.serialize_none()
        } else {
            serialize_root(self, to)
        }
    }
}

/// Writes the root of a tree. A call for each node is faster than one for each link, of which there are
/// twice as many.
#[inline(never)]
fn serialize_root<S: Serializer>(tree: &WrittenTree<'_>, to: S) -> Result<S::Ok, S::Error> {
    tree.root().serialize(to)
}

impl<T: Serialize> Serialize for crate::RangeMap<T> {
    fn serialize<S: Serializer>(&self, to: S) -> Result<S::Ok, S::Error> {
        let item = |(range, value)| ValuedRange { range, value };
        let ranges = List(self.held_count() as usize, || self.iter().map(item));
        let (base, size) = (self.space().start(), self.space().len());
        Map { base, size, ranges }.serialize(to)
    }
}

impl<F: Fn() -> I, I: IntoIterator<Item: Serialize>> Serialize for List<F> {
    fn serialize<S: Serializer>(&self, to: S) -> Result<S::Ok, S::Error> {
        let mut list = to.serialize_seq(Some(self.0))?;
        for item in (self.1)() {
            list.serialize_element(&item)?;
        }
        list.end()
    }
}
