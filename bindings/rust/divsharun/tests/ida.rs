// SPDX-License-Identifier: Apache-2.0 OR BSD-3-Clause
//! Guards against an id that is lost or allocated twice while ids become dense or sparse.
//!
//! The subjects are those of the tests of `ida`, which allocates ids in Linux. The expected results
//! follow from the rule of the lowest free id and from the pages of the calls.

use divsharun::{Error, IdAllocator, Result};
use std::collections::BTreeSet;
use Call::{Exact, Free, In, Next};
use Error::{AlreadyReleased, NeverAllocated, OutOfRange, Overflow, ResourceNotAvailable};

const MAX: u32 = u32::MAX;
/// The highest id of `ida`.
const INT_MAX: u32 = i32::MAX as u32;
const BIT_31: u32 = 1 << 31;
const BIT_24: u32 = 1 << 24;
/// The number of ids that become dense, and the first of them in each run.
const MANY: u32 = 2048;
const BASES: [u32; 6] = [0, 1, BIT_24, INT_MAX, BIT_31, MAX - (MANY - 1)];
/// The orders in which they are freed: ascending, descending, every second id first, and mixed.
const ORDERS: [fn(u32) -> u32; 4] = [
    |i| i,
    |i| MANY - 1 - i,
    |i| 2 * i % MANY + 2 * i / MANY,
    |i| 643 * i % MANY,
];

#[derive(Debug)]
enum Call {
    Next,
    Exact(u32),
    In(u32, u32),
    Free(u32),
}

/// Makes the calls on an allocator for the ids up to `last`, and checks which ids are allocated then.
fn run(last: u32, rows: &[(Call, Result<u32>)], held: &[u32]) {
    let mut ids = IdAllocator::new(0, last).unwrap();
    for (number, (call, result)) in rows.iter().enumerate() {
        let returned = match *call {
            Next => ids.allocate_id(),
            Exact(id) => ids.allocate_exact(id),
            In(first, last) => ids.allocate_in(first..=last),
            Free(id) => ids.free_id(id),
        };
        assert_eq!(returned, *result, "row {number}: {call:?}");
    }
    assert!(ids.held_ids().eq(held.iter().copied()));
    assert_eq!(ids.held_count(), held.len() as u64);
    assert_eq!(ids.free_count(), u64::from(last) + 1 - ids.held_count());
}

/// Allocates the highest ids of an allocator whose first id `first` returns, given the first of those.
fn allocate_highest(first: fn(u32) -> u32) {
    for (last, full) in [(INT_MAX, ResourceNotAvailable), (MAX, Overflow)] {
        for base in (0..=16).map(|bits| last - ((1 << bits) - 1)) {
            let mut ids = IdAllocator::new(first(base), last).unwrap();
            assert!((base..=last).all(|id| ids.allocate_in(base..) == Ok(id)));
            assert_eq!(ids.allocate_in(base..), Err(ResourceNotAvailable));
            let below = (first(base) < base).then_some(0);
            assert_eq!(ids.allocate_id(), below.ok_or(full));
        }
    }
}

/// Fills a window of ids, frees half of them, fills it again and frees all.
fn fill_and_free(first: fn(u32) -> u32) {
    for base in BASES {
        let window = || base..=base + (MANY - 1);
        let mut ids = IdAllocator::new(first(base), MAX).unwrap();
        let count = ids.free_count();
        for order in ORDERS {
            let freed: Vec<u32> = (0..MANY).map(|i| base + order(i)).collect();
            let (half, rest) = freed.split_at(MANY as usize / 2);
            let sorted = |ids: &[u32]| BTreeSet::from_iter(ids.to_vec()).into_iter();
            assert!(window().all(|id| ids.allocate_in(window()) == Ok(id)));
            assert_eq!(ids.allocate_in(window()), Err(ResourceNotAvailable));
            assert!(half.iter().all(|id| ids.free_id(*id) == Ok(*id)));
            assert!(ids.held_ids().eq(sorted(rest)));
            assert!(sorted(half).all(|id| ids.allocate_in(window()) == Ok(id)));
            assert!(freed.iter().all(|id| ids.free_id(*id) == Ok(*id)));
            assert_eq!((ids.held_count(), ids.free_count()), (0, count));
        }
    }
}

#[test]
fn dense_ids() {
    let rows = [
        (Free(0), Err(NeverAllocated(0))),
        (Free(BIT_31), Err(OutOfRange(BIT_31))),
        (In(10, 11), Ok(10)),
        (In(10, 11), Ok(11)),
        (In(10, 11), Err(ResourceNotAvailable)),
        (In(11, MAX), Ok(12)),
        (In(0, 9), Ok(0)),
        (Free(9), Err(AlreadyReleased(9))),
        (Free(13), Err(NeverAllocated(13))),
        (Free(11), Ok(11)),
        (Free(11), Err(AlreadyReleased(11))),
        (Exact(14), Ok(14)),
        (Exact(14), Err(ResourceNotAvailable)),
        (In(10, MAX), Ok(11)),
        (In(10, MAX), Ok(13)),
        (Next, Ok(1)),
    ];
    run(INT_MAX, &rows, &[0, 1, 10, 11, 12, 13, 14]);

    let mut rows: Vec<_> = (0..10_000).map(|id| (Next, Ok(id))).collect();
    rows.extend([20, 21].map(|id| (Free(id), Ok(id))));
    rows.extend([20, 21, 10_000].map(|id| (Next, Ok(id))));
    run(INT_MAX, &rows, &Vec::from_iter(0..=10_000));

    allocate_highest(|base| base);
    fill_and_free(|base| base);
}

#[test]
fn sparse_ids() {
    let rows = [
        (Exact(BIT_24), Ok(BIT_24)),
        (Exact(BIT_31), Ok(BIT_31)),
        (Exact(INT_MAX), Ok(INT_MAX)),
        (Free(INT_MAX - 1), Err(AlreadyReleased(INT_MAX - 1))),
        (Free(BIT_31 + 1), Err(NeverAllocated(BIT_31 + 1))),
        (Exact(MAX - 1), Ok(MAX - 1)),
        (Free(MAX), Err(NeverAllocated(MAX))),
        (In(MAX - 1, MAX), Ok(MAX)),
        (In(MAX - 1, MAX), Err(ResourceNotAvailable)),
        (In(BIT_24, BIT_31), Ok(BIT_24 + 1)),
        (In(INT_MAX, MAX), Ok(BIT_31 + 1)),
        (Free(BIT_31), Ok(BIT_31)),
        (Free(BIT_31), Err(AlreadyReleased(BIT_31))),
        (In(INT_MAX, MAX), Ok(BIT_31)),
        (Free(MAX), Ok(MAX)),
        (Free(MAX), Err(AlreadyReleased(MAX))),
        (Next, Ok(0)),
    ];
    let high = [INT_MAX, BIT_31, BIT_31 + 1, MAX - 1];
    run(MAX, &rows, &[&[0, BIT_24, BIT_24 + 1], &high[..]].concat());

    allocate_highest(|_| 0);
    fill_and_free(|_| 0);
}
