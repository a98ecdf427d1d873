// SPDX-License-Identifier: Apache-2.0 OR BSD-3-Clause
//! Tests of `vm-allocator` 0.1.4, by their names. The sources in Rattle have the others, with their rows.

use vm_allocator::{Error, IdAllocator, RangeInclusive};

/// The errors of `free_id` show the result of the private call that is tested there.
#[test]
fn test_id_sanity_checks() {
    let mut ids = IdAllocator::new(5, 23).unwrap();
    for (id, error) in [
        (4, Error::OutOfRange(4)),
        (6, Error::NeverAllocated(6)),
        (25, Error::OutOfRange(25)),
    ] {
        assert_eq!(ids.free_id(id), Err(error));
    }
}

#[test]
fn test_range_upper_bound() {
    let answer = RangeInclusive::new(0, u64::MAX);
    assert_eq!(answer, Err(Error::InvalidRange(0, u64::MAX)));
}
