// Written by bindings/erase from crates/vm_range_map/src/range_map/comparing.rt: do not edit.

//! Equality of maps.

use super::RangeMap;

impl<T: PartialEq> PartialEq for RangeMap<T> {
    /// Returns `true` if both maps have the same space and the same allocated ranges with equal values.
    ///
    /// It stops at the first difference and does not allocate.
    fn eq(&self, other: &RangeMap<T>) -> bool {
        self.addresses == other.addresses && self.iter().eq(other.iter())
    }
}

impl<T: Eq> Eq for RangeMap<T> {}
