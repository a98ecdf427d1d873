// SPDX-License-Identifier: Apache-2.0 OR BSD-3-Clause
//! Uses each public item of `vm-allocator` 0.1.4 with its signature and its traits. It compiles
//! with both libraries, so callers of one can call the other.

use std::cmp::Ord;
use std::error::Error as StdError;
use std::fmt::{Debug, Display};
use std::hash::Hash;
use std::panic::{RefUnwindSafe, UnwindSafe};
use vm_allocator::{
    AddressAllocator, AllocPolicy, Constraint, Error, IdAllocator, RangeInclusive, Result,
    DEFAULT_CONSTRAINT_ALIGN,
};

fn is_shared_and_sent<T: Send + Sync + Unpin + UnwindSafe + RefUnwindSafe + 'static>() {}

#[test]
fn ranges() {
    fn has_traits<T: Copy + Ord + Hash + Debug>() {}
    has_traits::<RangeInclusive>();
    is_shared_and_sent::<RangeInclusive>();
    let _: fn(u64, u64) -> Result<RangeInclusive> = RangeInclusive::new;
    let _: fn(&RangeInclusive) -> u64 = RangeInclusive::len;
    let _: fn(&RangeInclusive, &RangeInclusive) -> bool = RangeInclusive::overlaps;
    let _: fn(&RangeInclusive, &RangeInclusive) -> bool = RangeInclusive::contains;
    let _: fn(&RangeInclusive) -> u64 = RangeInclusive::start;
    let _: fn(&RangeInclusive) -> u64 = RangeInclusive::end;
    let range = RangeInclusive::new(16, 19).unwrap();
    assert_eq!(
        format!("{range:?}"),
        "RangeInclusive { start: 16, end: 19 }"
    );
}

#[test]
fn requests() {
    fn has_traits<T: Copy + Eq + Debug>() {}
    fn has_default<T: Default>() {}
    has_traits::<Constraint>();
    has_traits::<AllocPolicy>();
    has_default::<AllocPolicy>();
    is_shared_and_sent::<Constraint>();
    is_shared_and_sent::<AllocPolicy>();
    let _: fn(u64, u64, AllocPolicy) -> Result<Constraint> = Constraint::new;
    let _: fn(Constraint) -> u64 = Constraint::align;
    let _: fn(Constraint) -> u64 = Constraint::size;
    let _: u64 = DEFAULT_CONSTRAINT_ALIGN;
    let policies = [
        AllocPolicy::FirstMatch,
        AllocPolicy::LastMatch,
        AllocPolicy::ExactMatch(4),
    ];
    assert_eq!(policies[0], AllocPolicy::default());
}

#[test]
fn address_allocators() {
    fn has_traits<T: Clone + Ord + Debug>() {}
    has_traits::<AddressAllocator>();
    is_shared_and_sent::<AddressAllocator>();
    type Allocate = fn(&mut AddressAllocator, u64, u64, AllocPolicy) -> Result<RangeInclusive>;
    let _: fn(u64, u64) -> Result<AddressAllocator> = AddressAllocator::new;
    let _: Allocate = AddressAllocator::allocate;
    let _: fn(&mut AddressAllocator, &RangeInclusive) -> Result<()> = AddressAllocator::free;
    let _: fn(&AddressAllocator) -> u64 = AddressAllocator::base;
    let _: fn(&AddressAllocator) -> u64 = AddressAllocator::end;
}

#[test]
fn id_allocators() {
    fn has_traits<T: Clone + Debug>() {}
    has_traits::<IdAllocator>();
    is_shared_and_sent::<IdAllocator>();
    let _: fn(u32, u32) -> Result<IdAllocator> = IdAllocator::new;
    let _: fn(&mut IdAllocator) -> Result<u32> = IdAllocator::allocate_id;
    let _: fn(&IdAllocator, u32) -> bool = IdAllocator::is_allocated;
    let _: fn(&mut IdAllocator, u32) -> Result<u32> = IdAllocator::free_id;
}

#[test]
fn errors() {
    fn has_traits<T: Copy + Ord + Debug + Display + StdError>() {}
    has_traits::<Error>();
    is_shared_and_sent::<Error>();
    let range = RangeInclusive::new(16, 19).unwrap();
    let mut space = AddressAllocator::new(16, 4).unwrap();
    space.allocate(4, 1, AllocPolicy::FirstMatch).unwrap();
    let held = space
        .allocate(4, 1, AllocPolicy::ExactMatch(16))
        .unwrap_err();
    let errors = [
        Error::Overflow,
        Error::OutOfRange(1),
        Error::AlreadyReleased(2),
        Error::NeverAllocated(3),
        Error::ResourceNotAvailable,
        Error::InvalidRange(5, 4),
        Error::InvalidAlignment,
        Error::Overlap(range, range),
        held,
        Error::UnalignedAddress,
        Error::Underflow,
        Error::InvalidSize(0),
    ];
    // The order is that of the variants.
    assert!(errors.windows(2).all(|pair| pair[0] < pair[1]));
    let texts: Vec<String> = errors.iter().map(Error::to_string).collect();
    assert_eq!(texts, TEXTS);
    assert!(errors.iter().all(is_one_of_twelve));
}

/// Checks that there is no other variant.
fn is_one_of_twelve(error: &Error) -> bool {
    match error {
        Error::Overflow | Error::Underflow | Error::ResourceNotAvailable => true,
        Error::OutOfRange(_) | Error::AlreadyReleased(_) | Error::NeverAllocated(_) => true,
        Error::InvalidRange(_, _) | Error::InvalidAlignment | Error::InvalidSize(_) => true,
        Error::Overlap(_, _) | Error::InvalidStateTransition(_, _) => true,
        Error::UnalignedAddress => true,
    }
}

const TEXTS: [&str; 12] = [
    "Management operations on desired resource resulted in overflow.",
    "Specified id: 1 is not in the range.",
    "Specified id: 2 is already released.",
    "Specified id: 3 was never allocated, can't release it.",
    "The requested resource is not available.",
    "The range specified: 5-4 is not valid.",
    "Alignment value is invalid.",
    "Addresses are overlapping.RangeInclusive { start: 16, end: 19 } intersects with existing \
     RangeInclusive { start: 16, end: 19 }",
    "Invalid state transition for node RangeInclusive { start: 16, end: 19 } from Allocated to \
     NodeState::Free",
    "The address is not aligned.",
    "Management operations on desired resource resulted in underflow.",
    "The specified size: 0 is not valid.",
];

#[cfg(feature = "serde")]
#[test]
fn saved() {
    fn is_saved<T: serde::Serialize + for<'de> serde::Deserialize<'de>>() {}
    is_saved::<RangeInclusive>();
    is_saved::<AddressAllocator>();
    is_saved::<IdAllocator>();
}
