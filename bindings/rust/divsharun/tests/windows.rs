// SPDX-License-Identifier: Apache-2.0 OR BSD-3-Clause
//! Guards against a form of a call that loses the window, the policy or the alignment of its request.
//!
//! Requests in each form, with a window or without, and moves by them are compared with tables.

mod model;

use divsharun::{
    AddressAllocator, AllocPolicy, Constraint, DeviceManager, DeviceSlot, Error, ListError,
    NodeState, RangeInclusive, Result, TryError,
};
use model::{refused, WIDTH};
use std::ops::Bound::{Excluded, Included, Unbounded};
use AllocPolicy::{ExactMatch, FirstMatch, LastMatch};
use Error::{InvalidStateTransition, Overflow, ResourceNotAvailable};

/// The first of 100 ids.
const FIRST_ID: u32 = u32::MAX - 99;
const MAX: u64 = u64::MAX;

const fn range(start: u64, end: u64) -> RangeInclusive {
    match RangeInclusive::new(start, end) {
        Ok(range) => range,
        Err(_) => panic!(),
    }
}

/// Returns the result of a counted call, which counts the nodes that it enters.
fn counted<T>((answer, nodes): (Result<T>, u64)) -> Result<T> {
    assert!(nodes > 0 || answer.is_err());
    answer
}

fn only(ranges: Result<Vec<RangeInclusive>>) -> Result<RangeInclusive> {
    ranges.map(|ranges| {
        assert_eq!(ranges.len(), 1);
        ranges[0]
    })
}

fn range_of(device: Result<DeviceSlot>) -> Result<RangeInclusive> {
    device.map(|device| device.range)
}

/// A form of a call. Calls by numbers have no window.
type Form<O> = fn(&mut O, Constraint) -> Result<RangeInclusive>;

const OF_SPACES: [Form<AddressAllocator>; 8] = [
    |space, request| space.allocate_constraint(request),
    |space, request| refused(space.try_allocate_constraint(request)),
    |space, request| counted(space.allocate_constraint_counted(request)),
    |space, request| only(space.allocate_all(&[request]).map_err(Error::from)),
    |space, request| only(refused(space.try_allocate_all(&[request]))),
    |space, request| match request.window() {
        None => space.allocate(request.size(), request.align(), request.policy()),
        Some(_) => space.allocate_constraint(request),
    },
    |space, request| match request.window() {
        None => refused(space.try_allocate(request.size(), request.align(), request.policy())),
        Some(_) => space.allocate_constraint(request),
    },
    |space, request| match request.window() {
        None => {
            let (size, align) = (request.size(), request.align());
            counted(space.allocate_counted(size, align, request.policy()))
        }
        Some(_) => space.allocate_constraint(request),
    },
];

const OF_DEVICES: [Form<DeviceManager>; 4] = [
    |devices, request| range_of(devices.reserve_constraint(request)),
    |devices, request| range_of(refused(devices.try_reserve_constraint(request))),
    |devices, request| match request.window() {
        None => range_of(devices.reserve(request.size(), request.align(), request.policy())),
        Some(_) => range_of(devices.reserve_constraint(request)),
    },
    |devices, request| match request.window() {
        None => {
            let (size, align) = (request.size(), request.align());
            range_of(refused(devices.try_reserve(size, align, request.policy())))
        }
        Some(_) => range_of(devices.reserve_constraint(request)),
    },
];

/// A space or a manager for each form of a call. All have the same history.
struct Forms {
    spaces: [AddressAllocator; 8],
    devices: [DeviceManager; 4],
}

impl Forms {
    /// Creates spaces of [`WIDTH`] addresses, times a power of two.
    fn new(base: u64, scale: u32) -> Forms {
        let (base, size) = (base << scale, WIDTH << scale);
        let devices = |_| DeviceManager::new(FIRST_ID, u32::MAX, base, size).unwrap();
        Forms {
            spaces: [(); 8].map(|_| AddressAllocator::new(base, size).unwrap()),
            devices: [(); 4].map(devices),
        }
    }

    /// Makes a request in each form, and returns their result.
    fn allocate(&mut self, request: Constraint) -> Result<RangeInclusive> {
        let spaces = OF_SPACES.iter().zip(&mut self.spaces);
        let devices = OF_DEVICES.iter().zip(&mut self.devices);
        let answers: Vec<_> = spaces
            .map(|(form, space)| form(space, request))
            .chain(devices.map(|(form, devices)| form(devices, request)))
            .collect();
        assert!(
            answers.iter().all(|answer| *answer == answers[0]),
            "{request}: {answers:?}"
        );
        answers[0]
    }
}

/// A window by its ends, a request by size, alignment and policy, and the start of its range.
type Row = ((u64, u64), (u64, u64, AllocPolicy), Result<u64>);

const NONE: Result<u64> = Err(ResourceNotAvailable);
const IS_HELD: Error = InvalidStateTransition(range(32, 39), NodeState::Allocated);
const LAST_EIGHT: (u64, u64) = (MAX - 7, MAX);

/// Rows for the space [16, 79] with [32, 39] allocated.
const IN_THE_MIDDLE: &[Row] = &[
    // Both ends of a window.
    ((42, 61), (4, 1, FirstMatch), Ok(42)),
    ((42, 61), (4, 1, LastMatch), Ok(58)),
    ((42, 61), (4, 1, ExactMatch(42)), Ok(42)),
    ((42, 61), (4, 1, ExactMatch(58)), Ok(58)),
    ((42, 61), (4, 1, ExactMatch(41)), NONE),
    ((42, 61), (4, 1, ExactMatch(59)), NONE),
    ((42, 61), (4, 1, ExactMatch(62)), NONE),
    ((42, 61), (4, 8, FirstMatch), Ok(48)),
    ((42, 61), (4, 8, LastMatch), Ok(56)),
    ((42, 61), (4, 8, ExactMatch(48)), Ok(48)),
    ((42, 61), (4, 8, ExactMatch(40)), NONE),
    // As long as the window, and longer.
    ((42, 61), (20, 1, FirstMatch), Ok(42)),
    ((42, 61), (20, 1, LastMatch), Ok(42)),
    ((42, 61), (20, 1, ExactMatch(42)), Ok(42)),
    ((42, 61), (20, 2, FirstMatch), Ok(42)),
    ((42, 61), (20, 4, LastMatch), NONE),
    ((42, 61), (21, 1, FirstMatch), NONE),
    ((42, 61), (21, 1, LastMatch), NONE),
    ((42, 61), (21, 1, ExactMatch(42)), NONE),
    // A window of one address.
    ((50, 50), (1, 1, FirstMatch), Ok(50)),
    ((50, 50), (1, 1, LastMatch), Ok(50)),
    ((50, 50), (1, 1, ExactMatch(50)), Ok(50)),
    ((50, 50), (2, 1, FirstMatch), NONE),
    ((50, 50), (1, 4, LastMatch), NONE),
    // A window beside the space, or with one address in common.
    ((0, 15), (1, 1, FirstMatch), NONE),
    ((0, 15), (1, 1, LastMatch), NONE),
    ((0, 15), (1, 1, ExactMatch(16)), NONE),
    ((80, MAX), (1, 1, FirstMatch), NONE),
    ((80, MAX), (1, 1, LastMatch), NONE),
    ((80, MAX), (1, 1, ExactMatch(80)), NONE),
    ((0, 16), (1, 1, LastMatch), Ok(16)),
    ((79, MAX), (1, 1, FirstMatch), Ok(79)),
    // A window without one of its limits.
    ((0, 61), (4, 1, FirstMatch), Ok(16)),
    ((0, 61), (4, 1, LastMatch), Ok(58)),
    ((42, MAX), (4, 1, FirstMatch), Ok(42)),
    ((42, MAX), (4, 1, LastMatch), Ok(76)),
    ((0, MAX - 1), (16, 16, FirstMatch), Ok(16)),
    ((1, MAX), (16, 16, LastMatch), Ok(64)),
    // The allocated range, and gaps on both sides of it.
    ((30, 41), (2, 1, FirstMatch), Ok(30)),
    ((30, 41), (2, 1, LastMatch), Ok(40)),
    ((30, 41), (3, 1, FirstMatch), NONE),
    ((32, 39), (1, 1, FirstMatch), NONE),
    ((32, 39), (1, 1, LastMatch), NONE),
    ((30, 41), (8, 1, ExactMatch(32)), Err(IS_HELD)),
    ((30, 33), (8, 1, ExactMatch(32)), Err(IS_HELD)),
    ((33, 41), (8, 1, ExactMatch(32)), NONE),
    ((30, 41), (4, 1, ExactMatch(32)), NONE),
    ((30, 41), (MAX, 1, ExactMatch(32)), Err(Overflow)),
    ((33, 41), (MAX, 1, ExactMatch(32)), NONE),
    ((30, 41), (1, 1, ExactMatch(MAX)), Err(Overflow)),
];

/// Rows for the space [0, 63].
const AT_ZERO: &[Row] = &[
    ((0, 0), (1, 1, FirstMatch), Ok(0)),
    ((0, 0), (1, 1 << 63, LastMatch), Ok(0)),
    ((0, 0), (1, 1, ExactMatch(0)), Ok(0)),
    ((0, 7), (8, 1, FirstMatch), Ok(0)),
    ((0, 7), (8, 1, LastMatch), Ok(0)),
    ((0, 7), (9, 1, LastMatch), NONE),
    ((1, 8), (1, 8, FirstMatch), Ok(8)),
    ((1, 7), (1, 8, LastMatch), NONE),
];

/// Rows for the last 64 addresses.
const AT_MAX: &[Row] = &[
    ((MAX, MAX), (1, 1, FirstMatch), Err(Overflow)),
    ((MAX, MAX), (1, 1, LastMatch), Err(Overflow)),
    ((MAX, MAX), (1, 1, ExactMatch(MAX)), Err(Overflow)),
    (LAST_EIGHT, (4, 1, FirstMatch), Ok(MAX - 7)),
    (LAST_EIGHT, (4, 1, LastMatch), Err(Overflow)),
    (LAST_EIGHT, (4, 4, LastMatch), Err(Overflow)),
    (LAST_EIGHT, (8, 1, FirstMatch), Err(Overflow)),
    (LAST_EIGHT, (9, 1, FirstMatch), NONE),
    (LAST_EIGHT, (4, 1, ExactMatch(MAX - 3)), Err(Overflow)),
    (LAST_EIGHT, (5, 1, ExactMatch(MAX - 3)), Err(Overflow)),
    // A window that ends below `MAX` avoids the error.
    ((MAX - 7, MAX - 1), (4, 1, LastMatch), Ok(MAX - 4)),
    ((MAX - 7, MAX - 1), (4, 4, LastMatch), Ok(MAX - 7)),
    ((MAX - 7, MAX - 1), (4, 1, ExactMatch(MAX - 3)), NONE),
    ((MAX - 1, MAX - 1), (1, 1, FirstMatch), Ok(MAX - 1)),
    ((0, MAX - 64), (1, 1, LastMatch), NONE),
];

/// Rows for the 2^62 addresses from 5/8 * 2^62.
const LARGE: &[Row] = &[
    ((0, MAX), (1, 1 << 62, FirstMatch), Ok(1 << 62)),
    ((0, MAX), (1 << 61, 1 << 62, LastMatch), Ok(1 << 62)),
    ((0, MAX), (1, 1 << 63, FirstMatch), NONE),
    ((0, MAX), (1, 1 << 63, LastMatch), NONE),
    ((0, MAX), (1 << 62, 1, FirstMatch), Ok(40 << 56)),
    ((0, MAX), ((1 << 62) + 1, 1, LastMatch), NONE),
    ((0, MAX), (1 << 63, 1, FirstMatch), NONE),
    ((0, MAX), (MAX, 1, LastMatch), NONE),
];

#[test]
fn each_policy_at_the_ends_of_windows() {
    for (base, scale, held, rows) in [
        (16, 0, Some((8, 32)), IN_THE_MIDDLE),
        (0, 0, None, AT_ZERO),
        (MAX - 63, 0, None, AT_MAX),
        (40, 56, None, LARGE),
    ] {
        for &((start, end), (size, align, policy), want) in rows {
            let mut spaces = Forms::new(base, scale);
            if let Some((size, start)) = held {
                let request = Constraint::new(size, 1, ExactMatch(start)).unwrap();
                assert_eq!(
                    spaces.allocate(request),
                    Ok(range(start, start + (size - 1)))
                );
            }
            let request = Constraint::new(size, align, policy).unwrap();
            let request = request.within(start..=end).unwrap();
            let want = want.map(|start| range(start, start + (size - 1)));
            assert_eq!(spaces.allocate(request), want, "{request}");
        }
    }
}

/// Checks that each form by numbers has the errors of a request.
#[test]
fn numbers_that_are_no_request() {
    for (size, align, policy, error) in [
        (0, 1, FirstMatch, Error::InvalidSize(0)),
        (1, 0, LastMatch, Error::InvalidAlignment),
        (8, 3, ExactMatch(0), Error::InvalidAlignment),
        (8, 8, ExactMatch(4), Error::UnalignedAddress),
        (1, 1 << 63, ExactMatch(1 << 62), Error::UnalignedAddress),
        (MAX, MAX, FirstMatch, Error::InvalidAlignment),
        (1, (1 << 63) + (1 << 41), LastMatch, Error::InvalidAlignment),
    ] {
        assert_eq!(Constraint::new(size, align, policy), Err(error));
        let mut space = AddressAllocator::new(0, WIDTH).unwrap();
        let mut devices = DeviceManager::new(0, 0, 0, WIDTH).unwrap();
        let answers = [
            space.allocate(size, align, policy),
            refused(space.try_allocate(size, align, policy)),
            space.allocate_counted(size, align, policy).0,
            range_of(devices.reserve(size, align, policy)),
            range_of(refused(devices.try_reserve(size, align, policy))),
        ];
        assert_eq!(answers, [Err(error); 5]);
    }
}

/// Moves of a range, each with the range, the window, the request and the new start. In the space
/// [16, 79], only [32, 39] is allocated.
const MOVES: &[((u64, u64), Row)] = &[
    // Elsewhere, also with another size.
    ((32, 39), ((0, MAX), (8, 8, FirstMatch), Ok(16))),
    ((32, 39), ((0, 61), (8, 8, LastMatch), Ok(48))),
    ((32, 39), ((42, 61), (4, 8, LastMatch), Ok(56))),
    ((32, 39), ((40, MAX), (16, 16, ExactMatch(64)), Ok(64))),
    // The addresses of the range count as free.
    ((32, 39), ((0, MAX), (64, 1, FirstMatch), Ok(16))),
    ((32, 39), ((0, MAX), (65, 1, LastMatch), NONE)),
    ((32, 39), ((0, MAX), (8, 1, ExactMatch(33)), Ok(33))),
    ((32, 39), ((0, MAX), (4, 1, ExactMatch(32)), Ok(32))),
    ((32, 39), ((0, MAX), (24, 8, ExactMatch(24)), Ok(24))),
    // To its own place.
    ((32, 39), ((0, MAX), (8, 8, ExactMatch(32)), Ok(32))),
    ((32, 39), ((32, 39), (8, 8, ExactMatch(32)), Ok(32))),
    ((32, 39), ((33, MAX), (8, 8, ExactMatch(32)), NONE)),
    ((32, 39), ((0, 38), (8, 8, ExactMatch(32)), NONE)),
    // Outside the window, and outside the space.
    ((32, 39), ((0, 61), (8, 8, ExactMatch(56)), NONE)),
    ((32, 39), ((0, MAX), (8, 8, ExactMatch(80)), NONE)),
    ((32, 39), ((0, MAX), (1, 1, ExactMatch(MAX)), Err(Overflow))),
    // A range that is not allocated. Its error precedes the others.
    ((32, 38), ((0, MAX), (1, 1, ExactMatch(MAX)), NONE)),
    ((40, 47), ((0, MAX), (8, 8, FirstMatch), NONE)),
];

#[test]
fn moves_to_places_and_errors_in_order() {
    for &((first, last), ((start, end), (size, align, policy), want)) in MOVES {
        let mut space = AddressAllocator::with_held(16, WIDTH, &[range(32, 39)]).unwrap();
        let request = Constraint::new(size, align, policy).unwrap();
        let request = request.within(start..=end).unwrap();
        let want = want.map(|start| range(start, start + (size - 1)));
        let answer = space.move_constraint(&range(first, last), request);
        assert_eq!(answer, want, "{request}");
        let held = want.unwrap_or(range(32, 39));
        assert!(space.held_ranges().eq([held]), "{request}");
    }
}

/// Checks the window of each kind of range, and the error of each empty one.
#[test]
fn windows_are_ranges_of_any_kind() {
    let request = Constraint::new(1, 1, FirstMatch).unwrap();
    let whole = [
        request.within(..),
        request.within(0..),
        request.within(..=MAX),
        request.within(0..=MAX),
        request.within((Unbounded, Included(MAX))),
    ];
    for window in whole {
        // A window replaces the one before it.
        let limited = request.within(5..9).unwrap();
        assert_eq!((limited.window(), window), (Some(range(5, 8)), Ok(request)));
        assert_eq!(limited.within(..), Ok(request));
    }
    let borrowed = &range(1, MAX);
    for (window, (start, end)) in [
        (request.within(..MAX), (0, MAX - 1)),
        (request.within(1..), (1, MAX)),
        (request.within(..=5), (0, 5)),
        (request.within(..5), (0, 4)),
        (request.within(0..1), (0, 0)),
        (request.within(5..=9), (5, 9)),
        (request.within(5..9), (5, 8)),
        (request.within(1 << 40..1 << 41), (1 << 40, (1 << 41) - 1)),
        (request.within(MAX..), (MAX, MAX)),
        (request.within(MAX..=MAX), (MAX, MAX)),
        (request.within((Excluded(4), Excluded(9))), (5, 8)),
        (request.within((Excluded(4), Unbounded)), (5, MAX)),
        (request.within(range(5, 9)), (5, 9)),
        (request.within(borrowed), (1, MAX)),
    ] {
        assert_eq!(window.map(Constraint::window), Ok(Some(range(start, end))));
    }
    let mut spent = 7..=7;
    spent.next();
    // Clippy finds that some of these ranges are empty.
    #[allow(clippy::reversed_empty_ranges)]
    let empty = [
        (request.within(5..5), (5, 4)),
        (request.within(9..5), (9, 4)),
        (request.within(5..=4), (5, 4)),
        (request.within(MAX..=0), (MAX, 0)),
        (request.within(spent), (7, 6)),
        (request.within((Excluded(5), Excluded(6))), (6, 5)),
        (request.within(..0), (1, 0)),
        (request.within(0..0), (1, 0)),
        (request.within(5..0), (1, 0)),
        (request.within((Excluded(MAX), Unbounded)), (1, 0)),
    ];
    for (window, (first, last)) in empty {
        assert_eq!(window, Err(Error::InvalidRange(first, last)));
    }
}

/// Makes requests with different windows in one call, the last of which fails.
#[test]
fn windows_of_one_call_are_separate() {
    let request = |policy| Constraint::new(4, 4, policy).unwrap();
    let within = |policy, window: RangeInclusive| request(policy).within(window).unwrap();
    let requests = [
        within(FirstMatch, range(20, 39)),
        within(LastMatch, range(20, 39)),
        request(FirstMatch),
        within(LastMatch, range(0, 47)),
        within(FirstMatch, range(20, 27)),
        request(LastMatch),
    ];
    let starts = [20, 36, 0, 44, 24, 60];
    let mut space = AddressAllocator::new(0, WIDTH).unwrap();
    let mut other = space.clone();
    let ranges = starts.map(|start| range(start, start + 3)).to_vec();
    assert_eq!(space.allocate_all(&requests), Ok(ranges.clone()));
    assert_eq!(other.try_allocate_all(&requests), Ok(ranges));

    let before = space.clone();
    let failing = [requests[2], within(FirstMatch, range(20, 27))];
    let failure = ListError {
        index: Some(1),
        error: ResourceNotAvailable,
        conflict: None,
    };
    assert_eq!(space.allocate_all(&failing), Err(failure));
    let answer = space.try_allocate_all(&failing);
    assert_eq!(refused(answer), Err(ResourceNotAvailable));
    assert_eq!(space, before);
}

/// Checks that the error of the ids precedes that of the request.
#[test]
fn errors_of_devices_in_windows() {
    let all = |policy| Constraint::new(WIDTH, 1, policy).unwrap();
    let outside = all(FirstMatch).within(WIDTH..).unwrap();
    for (last_id, error) in [(5, ResourceNotAvailable), (u32::MAX, Overflow)] {
        let mut devices = DeviceManager::new(last_id, last_id, 0, WIDTH).unwrap();
        for answer in [
            devices.reserve_constraint(outside),
            refused(devices.try_reserve_constraint(outside)),
        ] {
            assert_eq!(answer, Err(ResourceNotAvailable));
        }
        assert_eq!(devices.device_count(), 0);
        let window = range(0, WIDTH - 1);
        let device = devices.reserve_constraint(all(LastMatch).within(window).unwrap());
        assert_eq!(
            device.map(|device| (device.id, device.range)),
            Ok((last_id, window))
        );
        assert_eq!(devices.slot(last_id), Some(window));
        for request in [
            outside,
            all(ExactMatch(0)),
            all(ExactMatch(0)).within(window).unwrap(),
        ] {
            assert_eq!(devices.reserve_constraint(request), Err(error));
            let answer = devices.try_reserve_constraint(request);
            assert_eq!(answer, Err(TryError::Refused(error)));
        }
    }
}
