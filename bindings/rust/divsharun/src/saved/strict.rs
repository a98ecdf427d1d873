// SPDX-License-Identifier: Apache-2.0 OR BSD-3-Clause
use core::ops::{Deref, DerefMut};
use serde::Serialize;

/// An address allocator that is read strictly: a value with a missing subtree is an error.
///
/// It accepts only a balanced tree with correct heights and one node for each allocated range and each
/// gap. The tree need not be the one that this crate writes. It is serialized as the allocator, and can be
/// a field, or be in an `Option`, a list or a map.
///
/// The `Deserialize` of an [`AddressAllocator`](crate::AddressAllocator) also accepts the trees that a bug
/// of `vm-allocator` led to, with gaps and without nodes. So it cannot notice that a subtree is missing,
/// and its ranges with it. Read with it only what `vm-allocator` saved, and then check with
/// [`holds`](crate::AddressAllocator::holds) that the range of each device is allocated. The other types
/// need no wrapper, because their readers are strict.
///
/// # Example
///
/// ```rust
/// # #[cfg(feature = "serde")]
/// # fn main() -> Result<(), Box<dyn std::error::Error>> {
/// use divsharun::{AddressAllocator, AllocPolicy, Strict};
///
/// let mut mmio = Strict::from(AddressAllocator::new(0, 16)?);
/// mmio.allocate(4, 4, AllocPolicy::LastMatch)?;
/// let mut saved = serde_json::to_value([Some(&mmio)])?;
/// let read: [Option<Strict<AddressAllocator>>; 1] = serde_json::from_value(saved.clone())?;
/// assert_eq!(read, [Some(mmio)]);
///
/// saved[0]["interval_tree"]["root"]["left"] = serde_json::Value::Null;
/// let cut: Result<[Option<Strict<AddressAllocator>>; 1], _> = serde_json::from_value(saved);
/// assert!(cut.is_err());
/// # Ok(())
/// # }
/// # #[cfg(not(feature = "serde"))]
/// # fn main() {}
/// ```
#[derive(Clone, Copy, Debug, Default, PartialEq, Eq, PartialOrd, Ord, Hash, Serialize)]
#[serde(transparent)]
pub struct Strict<T>(T);

impl<T> Strict<T> {
    /// Returns the allocator.
    ///
    /// # Example
    ///
    /// ```rust
    /// # #[cfg(feature = "serde")]
    /// # fn main() -> Result<(), Box<dyn std::error::Error>> {
    /// use divsharun::{AddressAllocator, Strict};
    ///
    /// let text = serde_json::to_string(&AddressAllocator::new(0xa00_0000, 0x4000)?)?;
    /// let mmio: AddressAllocator = serde_json::from_str::<Strict<_>>(&text)?.into_inner();
    /// assert_eq!(mmio.free_len(), 0x4000);
    /// # Ok(())
    /// # }
    /// # #[cfg(not(feature = "serde"))]
    /// # fn main() {}
    /// ```
    pub fn into_inner(self) -> T {
        self.0
    }
}

impl<T> From<T> for Strict<T> {
    fn from(allocator: T) -> Self {
        Strict(allocator)
    }
}

impl<T> Deref for Strict<T> {
    type Target = T;

    fn deref(&self) -> &T {
        &self.0
    }
}

impl<T> DerefMut for Strict<T> {
    fn deref_mut(&mut self) -> &mut T {
        &mut self.0
    }
}
