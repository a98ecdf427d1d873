// SPDX-License-Identifier: Apache-2.0 OR BSD-3-Clause
//! Guards against a wrapper that passes on a wrong argument, or converts a result wrongly.
//!
//! Calls are compared with a plain model of a small space. Those that `vm-allocator` does not have, and
//! the texts that the library writes, are compared with tables.

mod draw;
mod items;
mod model;

use divsharun::{
    AddressAllocator, AllocPolicy, Block, Blocks, Conflict, Constraint, DeviceManager, DeviceSlot,
    Devices, DevicesIn, Error, Gaps, GapsIn, HeldIds, HeldIdsIn, HeldRanges, HeldRangesIn,
    IdAllocator, IdRequest, Layout, ListError, NodeState, ParseRangeError, RangeInclusive,
    RangeMap, TryError, ValueError, ValuedRanges, ValuedRangesIn,
};
use draw::Draw;
use items::{exact, expect_in_order, expect_items, inexact};
use model::{refused, Model, Scale, WIDTH};
use std::collections::{BTreeSet, HashSet};
use std::fmt::{Debug, Display};
use std::hash::{DefaultHasher, Hash, Hasher};
use std::iter::FusedIterator;
use std::ops::Bound::{Excluded, Included, Unbounded};

const BASE: u64 = 1000;

/// Uses calls in constants.
const _: () = {
    let (Ok(request), Ok(range), Ok(other)) = (
        Constraint::new(8, 4, AllocPolicy::LastMatch),
        RangeInclusive::new(1, 4),
        RangeInclusive::from_start_len(4, 2),
    ) else {
        panic!()
    };
    assert!(request.size() == 8 && request.align() == 4 && request.window().is_none());
    assert!(matches!(request.policy(), AllocPolicy::LastMatch));
    assert!(range.start() == 1 && range.end() == 4 && range.len() == 4);
    assert!(range.overlaps(&other) && !range.contains(&other) && range.contains_address(4));
    assert!(matches!(range.offset_of(3), Some(2)) && TryError::OutOfMemory.error().is_none());
};

/// Returns the range of an id allocator, also in a constant.
const fn range_of_ids(ids: &IdAllocator) -> (u32, u32) {
    (ids.range_base(), ids.range_end())
}

/// Returns the blocks with these allocated ranges and gaps, in order.
fn blocks_of(held: &[RangeInclusive], gaps: &[RangeInclusive]) -> Vec<Block<'static>> {
    let of = |ranges: &[RangeInclusive], state| -> Vec<Block<'static>> {
        let name = None;
        let block = |range: &RangeInclusive| Block {
            range: *range,
            state,
            name,
        };
        ranges.iter().map(block).collect()
    };
    let mut blocks = of(held, NodeState::Allocated);
    blocks.extend(of(gaps, NodeState::Free));
    blocks.sort_by_key(|block| block.range);
    blocks
}

/// Moves a range in both forms. The alignment is 1, and there is no window.
fn move_range(
    space: &mut AddressAllocator,
    model: &mut Model,
    scale: Scale,
    number: usize,
    to: u64,
) {
    let held = model.held[number];
    let mut tried = space.clone();
    let request = Constraint::new(held.len(), 1, AllocPolicy::ExactMatch(to)).unwrap();
    let conflict = model.move_conflict(number, request);
    let want = scale.answer(model.move_to(number, request));
    let (held, to) = (scale.range(held), to << scale.0);
    let far = scale.request(request);
    assert_eq!(
        space.move_conflict(&held, far),
        conflict.map(|found| scale.conflict(found))
    );
    assert_eq!(space.move_range(&held, to), want);
    assert_eq!(refused(tried.try_move_range(&held, to)), want);
    assert_eq!(tried, *space);
}

/// Compares small and large addresses, and the first and the last ones.
#[test]
fn answers_are_those_of_a_plain_model() {
    let mut draw = Draw(1);
    for (base, scale) in [(BASE, 0), (0, 0), (u64::MAX - WIDTH + 1, 0), (112, 56)] {
        expect_answers(base, Scale(scale), &mut draw);
    }
}

fn expect_answers(base: u64, scale: Scale, draw: &mut Draw) {
    let mut model = Model::new(base);
    let (start, length) = (base << scale.0, WIDTH << scale.0);
    let mut space = AddressAllocator::new(start, length).unwrap();
    for _ in 0..8_000 {
        let (size, align) = (1 + draw.below(6), 1 << draw.below(3));
        let at = base + draw.below(WIDTH);
        let any = draw.below(model.held.len().max(1) as u64) as usize;
        let policy = match draw.below(9) {
            0..=2 => AllocPolicy::FirstMatch,
            3 => AllocPolicy::LastMatch,
            4 => AllocPolicy::ExactMatch(at - at % align),
            _ if model.held.is_empty() => continue,
            5 => {
                move_range(&mut space, &mut model, scale, any, at);
                continue;
            }
            _ => {
                let held = scale.range(model.held.swap_remove(any));
                assert_eq!(space.free(&held), Ok(()));
                continue;
            }
        };
        let request = Constraint::new(size, align, policy).unwrap();
        let answer = model.allocate(request);
        model.held.extend(answer.ok());
        let request = scale.request(request);
        let range = space.allocate(request.size(), request.align(), request.policy());
        assert_eq!(range, scale.answer(answer));
        assert_eq!(space.held_count(), model.held.len() as u64);
        assert_eq!(
            space.gap_count(),
            space.gaps().fold(0, |count, _| count + 1)
        );
    }
    let held = model.held.iter().map(|held| scale.range(*held));
    let mut held: Vec<_> = held.collect();
    held.sort();
    assert!(space.held_ranges().eq(held.iter().copied()));
    let gaps: Vec<_> = space.gaps().collect();
    let layout = space.layout();
    let blocks = blocks_of(&held, &gaps);
    for _ in 0..40 {
        expect_items(space.held_ranges(), &held, exact, draw);
        expect_items((&space).into_iter(), &held, exact, draw);
        expect_items(space.iter(), &held, exact, draw);
        expect_items(space.gaps(), &gaps, exact, draw);
        let items = layout.blocks();
        expect_items(items, &blocks, |items| Some(items.len()), draw);
    }
    let last = u64::MAX >> scale.0;
    let near = base.saturating_sub(2)..=last.min(base.saturating_add(WIDTH + 1));
    let addresses: BTreeSet<_> = near.chain([0, last]).collect();
    let pairs = addresses.iter().flat_map(|start| {
        let ends = addresses.range(start..).copied();
        ends.map(|end| (*start, end))
    });
    for (start, end) in pairs.filter(|pair| *pair != (0, last)) {
        let window = scale.range(RangeInclusive::new(start, end).unwrap());
        expect_queries(&space, &held, &gaps, &window, draw);
    }
    if (9..=BASE).contains(&base) {
        expect_conflicts(&space, &model, scale);
    }
    let lengths = || gaps.iter().map(RangeInclusive::len);
    assert_eq!(space.longest_gap(), lengths().max().unwrap_or(0));
    assert_eq!(space.free_len(), lengths().sum());
    assert_eq!(space.gap_count(), gaps.len() as u64);
    let created = AddressAllocator::try_with_held(start, length, &held);
    assert_eq!(created.as_ref(), Ok(&space));
    let created = AddressAllocator::with_held(start, length, &held);
    assert_eq!(created, Ok(space));
}

/// Checks the queries of a range, and of its ends.
fn expect_queries(
    space: &AddressAllocator,
    held: &[RangeInclusive],
    gaps: &[RangeInclusive],
    window: &RangeInclusive,
    draw: &mut Draw,
) {
    let meeting = |ranges: &[RangeInclusive]| -> Vec<RangeInclusive> {
        let meets = |range: &&RangeInclusive| range.overlaps(window);
        ranges.iter().filter(meets).copied().collect()
    };
    expect_items(space.held_ranges_in(window), &meeting(held), inexact, draw);
    expect_items(space.gaps_in(window), &meeting(gaps), inexact, draw);
    for address in [window.start(), window.end()] {
        let at = |ranges: &[RangeInclusive]| -> Option<RangeInclusive> {
            let has = |range: &&RangeInclusive| range.contains_address(address);
            ranges.iter().find(has).copied()
        };
        assert_eq!(space.held_at(address), at(held));
        assert_eq!(space.gap_at(address), at(gaps));
    }
}

/// Checks the queries and layouts of spaces with the first or the last addresses.
#[test]
fn queries_of_the_first_and_the_last_addresses() {
    const MAX: u64 = u64::MAX;
    const HALF: u64 = 1 << 63;
    let numbers = [0, 1, 2, 1 << 40, HALF - 1, HALF, MAX - 2, MAX - 1, MAX];
    let mut draw = Draw(13);
    for (base, size, held, gaps) in [
        (0, 1, &[(0, 0)][..], &[][..]),
        (0, 1, &[], &[(0, 0)]),
        (MAX, 1, &[], &[(MAX, MAX)]),
        (MAX - 1, 2, &[(MAX - 1, MAX - 1)], &[(MAX, MAX)]),
        (1, MAX, &[(1, MAX - 1)], &[(MAX, MAX)]),
        (0, MAX, &[(2, MAX - 3)], &[(0, 1), (MAX - 2, MAX - 1)]),
        (1, MAX, &[(2, MAX - 2)], &[(1, 1), (MAX - 1, MAX)]),
        (0, MAX, &[(0, 0), (MAX - 1, MAX - 1)], &[(1, MAX - 2)]),
        (
            1,
            MAX,
            &[(1, HALF - 1), (MAX - 1, MAX - 1)],
            &[(HALF, MAX - 2), (MAX, MAX)],
        ),
    ] {
        let ranges = |ends: &[(u64, u64)]| -> Vec<RangeInclusive> {
            let range = |(start, end): &(u64, u64)| RangeInclusive::new(*start, *end).unwrap();
            ends.iter().map(range).collect()
        };
        let (held, gaps) = (ranges(held), ranges(gaps));
        let mut devices = DeviceManager::new(u32::MAX - 1, u32::MAX, base, size).unwrap();
        for (id, range) in [u32::MAX - 1, u32::MAX].into_iter().zip(&held) {
            let policy = AllocPolicy::ExactMatch(range.start());
            let device = DeviceSlot { id, range: *range };
            assert_eq!(devices.reserve(range.len(), 1, policy), Ok(device));
            assert_eq!(devices.slot(id), Some(*range));
        }
        let space = AddressAllocator::with_held(base, size, &held).unwrap();
        let layout = space.layout();
        let blocks = blocks_of(&held, &gaps);
        for block in &blocks {
            let is_held = block.state == NodeState::Allocated;
            assert_eq!(space.holds(&block.range), is_held);
        }
        expect_items(
            layout.blocks(),
            &blocks,
            |items| Some(items.len()),
            &mut draw,
        );
        for (start, end) in numbers
            .iter()
            .flat_map(|start| numbers.map(|end| (*start, end)))
        {
            if let Ok(window) = RangeInclusive::new(start, end) {
                expect_queries(&space, &held, &gaps, &window, &mut draw);
            }
            let device = devices.device_at(start).map(|device| device.range);
            assert_eq!(device, space.held_at(start));
        }
    }
}

/// Checks the conflicts of each range near the space: without a window, in windows that change nothing,
/// and in one that ends too early.
fn expect_conflicts(space: &AddressAllocator, model: &Model, scale: Scale) {
    let base = model.base;
    let addresses = base - 2..base + WIDTH + 2;
    let conflict_in = |request| space.conflict(scale.request(request));
    for start in addresses.clone() {
        for end in start..addresses.end {
            let policy = AllocPolicy::ExactMatch(start);
            let exact = Constraint::new(end - start + 1, 1, policy).unwrap();
            let conflict = model.conflict(exact).map(|found| scale.conflict(found));
            assert_eq!(conflict_in(exact), conflict);
            for same in [
                exact.within(start..=end),
                exact.within(base..base + WIDTH),
                exact.within(base - 9..),
                exact.within(..base + WIDTH),
            ] {
                assert_eq!(conflict_in(same.unwrap()), conflict);
            }
            let below = exact.within(start - 1..end).unwrap();
            let conflict = model.conflict(below).map(|found| scale.conflict(found));
            assert_eq!(conflict_in(below), conflict);
        }
    }
}

/// Checks spaces with the first or the last addresses: the ranges of spaces, and queries in windows that
/// have no limit, no address or only addresses outside.
#[test]
fn spaces_and_windows_of_queries() {
    const MAX: u64 = u64::MAX;
    for (base, size) in [(0, 4), (8, 8), (MAX - 3, 4), (0, MAX), (1, MAX)] {
        let range = RangeInclusive::from_start_len(base, size).unwrap();
        let mut space = AddressAllocator::over(range);
        assert_eq!(AddressAllocator::new(base, size).as_ref(), Ok(&space));
        assert_eq!(AddressAllocator::try_over(range).as_ref(), Ok(&space));
        let devices = DeviceManager::new(0, 0, base, size).unwrap();
        assert_eq!((space.space(), devices.space()), (range, range));

        let held = space.allocate(1, 1, AllocPolicy::FirstMatch).unwrap();
        let gap = RangeInclusive::new(base + 1, range.end()).unwrap();
        for (window, meets_held, meets_gap) in [
            ((Unbounded, Unbounded), true, true),
            ((Unbounded, Included(base)), true, false),
            ((Excluded(base), Unbounded), false, true),
            ((Included(range.end()), Included(MAX)), false, true),
            ((Unbounded, Excluded(base)), false, false),
            ((Excluded(range.end()), Unbounded), false, false),
            ((Included(base), Excluded(base)), false, false),
            ((Included(base + 1), Included(base)), false, false),
        ] {
            assert!(space.held_ranges_in(window).eq(meets_held.then_some(held)));
            assert!(space.gaps_in(window).eq(meets_gap.then_some(gap)));
        }
    }
}

/// Checks that a range is read from each text that is written of it, and from no other text.
#[test]
fn ranges_are_read_from_their_texts() {
    for (start, end) in [(0, 0), (0xd0, 0xd7), (0x1000, u64::MAX), (0, u64::MAX - 1)] {
        let range = RangeInclusive::new(start, end).unwrap();
        for text in [
            format!("{range}"),
            format!("{range:#}"),
            format!("{range:x}"),
            format!("{range:#018x}"),
            range.to_string().to_uppercase(),
        ] {
            assert_eq!(text.parse(), Ok(range), "{text}");
        }
    }
    for text in [
        "",
        "-",
        "5",
        "5-",
        "-5",
        "5-4",
        "5 - 7",
        " 5-7",
        "5-7 ",
        "5-7-9",
        "5--7",
        "+5-7",
        "5-+7",
        "0x-5",
        "0X5-7",
        "0x+5-7",
        "0x0x5-7",
        "g-7",
        "0-ffffffffffffffff",
        "5-10000000000000000",
        "5..=7",
    ] {
        let error = text.parse::<RangeInclusive>().unwrap_err();
        let want = "the text is not a range of addresses, such as d0000000-d0000fff";
        assert_eq!(error.to_string(), want, "{text}");
    }
}

/// Checks that a call with a list has an error in both forms.
fn expect_refused<T: PartialEq + Debug>(
    answer: Result<T, ListError>,
    tried: Result<T, ListError<TryError>>,
    (index, error, conflict): (Option<usize>, Error, Option<Conflict>),
) {
    assert_eq!(
        answer,
        Err(ListError {
            index,
            error,
            conflict
        })
    );
    let error = TryError::Refused(error);
    assert_eq!(
        tried,
        Err(ListError {
            index,
            error,
            conflict
        })
    );
}

/// Checks each error of `with_held`, `with_free` and `allocate_all` in both forms, with its conflict.
#[test]
fn errors_of_calls_with_lists() {
    use Error::{InvalidRange, InvalidStateTransition, Overflow, ResourceNotAvailable, Underflow};

    let range = |start, end| RangeInclusive::new(start, end).unwrap();
    let max = u64::MAX;
    let (first, second) = (
        [range(20, 23), range(23, 24)],
        [range(20, 23), range(24, 32)],
    );
    let after = |range| Some(Conflict::NotAfter(range));
    let outside = Some(Conflict::OutsideSpace(range(16, 31)));
    let at_max = Some(Conflict::EndsAtMax);
    for (base, size, held, index, error, conflict) in [
        (16, 0, [range(4, 5), range(max, max)], None, Underflow, None),
        (max, 2, [range(4, 5), range(4, 5)], None, Overflow, None),
        (
            16,
            16,
            first,
            Some(1),
            ResourceNotAvailable,
            after(first[0]),
        ),
        (
            16,
            16,
            [range(31, 31), range(max, max)],
            Some(1),
            Overflow,
            at_max,
        ),
        (16, 16, second, Some(1), ResourceNotAvailable, outside),
        (
            16,
            16,
            [range(15, 16), range(17, 18)],
            Some(0),
            ResourceNotAvailable,
            outside,
        ),
        (
            max - 15,
            16,
            [range(max - 15, max), range(4, 5)],
            Some(0),
            Overflow,
            at_max,
        ),
    ] {
        let answer = AddressAllocator::with_held(base, size, &held);
        let tried = AddressAllocator::try_with_held(base, size, &held);
        expect_refused(answer, tried, (index, error, conflict));
    }

    for (free, index, error, conflict) in [
        (&[][..], None, Underflow, None),
        (
            &[range(5, 9), range(9, 12), range(1, 2)],
            Some(1),
            ResourceNotAvailable,
            after(range(5, 9)),
        ),
        (
            &[range(5, 9), range(10, 12), range(0, max - 1)],
            Some(2),
            ResourceNotAvailable,
            after(range(10, 12)),
        ),
        (
            &[range(0, 4), range(9, max), range(max, max)],
            Some(2),
            ResourceNotAvailable,
            after(range(9, max)),
        ),
        (
            &[range(0, 4), range(9, max)],
            None,
            InvalidRange(0, max),
            None,
        ),
    ] {
        let answer = AddressAllocator::with_free(free);
        let tried = AddressAllocator::try_with_free(free);
        expect_refused(answer, tried, (index, error, conflict));
    }

    let exact = |start| Constraint::new(8, 8, AllocPolicy::ExactMatch(start)).unwrap();
    let held = [range(16, 23)];
    let outside = Some(Conflict::OutsideSpace(range(0, 63)));
    let mut space = AddressAllocator::with_held(0, 64, &held).unwrap();
    for (start, error, conflict) in [
        (
            16,
            InvalidStateTransition(held[0], NodeState::Allocated),
            Some(Conflict::Allocated(held[0])),
        ),
        (64, ResourceNotAvailable, outside),
        (max - 7, ResourceNotAvailable, outside),
        // The first request is in the way.
        (
            0,
            InvalidStateTransition(range(0, 7), NodeState::Allocated),
            Some(Conflict::Allocated(range(0, 7))),
        ),
    ] {
        let requests = [exact(0), exact(start), exact(8)];
        let answer = space.allocate_all(&requests);
        let tried = space.try_allocate_all(&requests);
        expect_refused(answer, tried, (Some(1), error, conflict));
        assert!(space.held_ranges().eq(held));
    }
}

/// Makes a call with a list whose item 1 fails.
fn refused_list<E: From<ListError>>(call: usize) -> Result<(), E> {
    let range = RangeInclusive::new(0, 7).unwrap();
    let request = Constraint::new(8, 1, AllocPolicy::FirstMatch).unwrap();
    match call {
        0 => drop(AddressAllocator::with_held(0, 8, &[range, range])?),
        1 => drop(AddressAllocator::with_free(&[range, range])?),
        _ => drop(AddressAllocator::with_free(&[range])?.allocate_all(&[request, request])?),
    }
    Ok(())
}

/// Makes the `try_` variant of a call of [`refused_list`].
fn try_refused_list<E: From<ListError<TryError>>>(call: usize) -> Result<(), E> {
    let range = RangeInclusive::new(0, 7).unwrap();
    let request = Constraint::new(8, 1, AllocPolicy::FirstMatch).unwrap();
    match call {
        0 => drop(AddressAllocator::try_with_held(0, 8, &[range, range])?),
        1 => drop(AddressAllocator::try_with_free(&[range, range])?),
        _ => {
            let mut space = AddressAllocator::try_with_free(&[range])?;
            drop(space.try_allocate_all(&[request, request])?);
        }
    }
    Ok(())
}

/// Checks that `?` converts the error of each call with a list, and its texts.
#[test]
fn errors_of_lists_convert() {
    type Boxed = Box<dyn std::error::Error>;

    let error = Error::ResourceNotAvailable;
    let text = "item 1: The requested resource is not available.";
    for call in 0..3 {
        assert_eq!(refused_list(call), Err(error));
        assert_eq!(refused_list(call), Err(TryError::Refused(error)));
        assert_eq!(try_refused_list(call), Err(TryError::Refused(error)));
        for answer in [refused_list(call), try_refused_list(call)] {
            assert_eq!(
                answer.map_err(|error: Boxed| error.to_string()),
                Err(text.into())
            );
        }
    }
    let index = None;
    let text = "The requested resource is not available.";
    let conflict = None;
    assert_eq!(
        ListError {
            index,
            error,
            conflict
        }
        .to_string(),
        text
    );
}

/// Checks calls with lists of more items than 16 bits can count.
#[test]
fn long_lists_are_passed_on() {
    const COUNT: u32 = 70_000;
    let numbers = || (0..u64::from(COUNT)).map(|at| 2 * at);
    let list: Vec<_> = numbers()
        .map(|at| RangeInclusive::new(at, at).unwrap())
        .collect();
    let requests = vec![Constraint::new(1, 1, AllocPolicy::FirstMatch).unwrap(); list.len()];
    let size = 2 * u64::from(COUNT);
    let held = AddressAllocator::with_held(0, size, &list).unwrap();
    assert!(held.held_ranges().eq(list.iter().copied()));
    let tried = AddressAllocator::try_with_held(0, size, &list);
    assert_eq!(tried.as_ref(), Ok(&held));
    let mut free = AddressAllocator::with_free(&list).unwrap();
    let mut tried = AddressAllocator::try_with_free(&list).unwrap();
    assert!(free.gaps().eq(list.iter().copied()) && free == tried);
    assert_eq!(free.allocate_all(&requests).as_ref(), Ok(&list));
    assert_eq!(tried.try_allocate_all(&requests).as_ref(), Ok(&list));
    let ids: Vec<u32> = numbers().map(|at| at as u32).collect();
    let mut held = IdAllocator::with_held(0, 2 * COUNT, &ids).unwrap();
    let mut tried = IdAllocator::try_with_held(0, 2 * COUNT, &ids).unwrap();
    assert!(held.held_ids().eq(ids.iter().copied()) && held == tried);
    let others: Vec<u32> = ids.iter().map(|id| id + 1).collect();
    assert_eq!(held.allocate_ids(others.len()).as_ref(), Ok(&others));
    assert_eq!(tried.try_allocate_ids(others.len()).as_ref(), Ok(&others));
}

/// Checks iterators over more items than a byte can count.
#[test]
fn long_lists_are_walked() {
    let mut draw = Draw(9);
    let all = RangeInclusive::new(0, 599).unwrap();
    let list: Vec<_> = (0..300)
        .map(|at| RangeInclusive::new(2 * at, 2 * at).unwrap())
        .collect();
    let held = AddressAllocator::with_held(0, 600, &list).unwrap();
    let free = AddressAllocator::with_free(&list).unwrap();
    expect_items(held.held_ranges(), &list, exact, &mut draw);
    expect_items(held.held_ranges_in(all), &list, inexact, &mut draw);
    expect_items(free.gaps(), &list, exact, &mut draw);
    expect_items(free.gaps_in(all), &list, inexact, &mut draw);
    let ids: Vec<u32> = (0..300).map(|at| 2 * at).collect();
    let allocator = IdAllocator::with_held(0, 600, &ids).unwrap();
    expect_items(allocator.held_ids(), &ids, exact, &mut draw);
    let mut devices = DeviceManager::new(0, 300, 0, 600).unwrap();
    let reserved = (0..300).map(|_| devices.reserve(2, 1, AllocPolicy::FirstMatch).unwrap());
    let slots: Vec<_> = reserved.collect();
    expect_items(
        devices.devices(),
        &slots,
        |items| Some(items.len()),
        &mut draw,
    );
}

#[test]
fn held_ranges_can_be_asked_for() {
    let mut space = AddressAllocator::new(0, 8).unwrap();
    let first = space.allocate(2, 1, AllocPolicy::FirstMatch).unwrap();
    let second = space.allocate(2, 1, AllocPolicy::FirstMatch).unwrap();
    let mut ranges = space.held_ranges();
    assert_eq!(ranges.clone().collect::<Vec<_>>(), [first, second]);
    assert_eq!(ranges.next(), Some(first));
    assert_eq!(ranges.clone().collect::<Vec<_>>(), [second]);
    assert!(space.holds(&first));
    for (start, end) in [(0, 0), (0, 3), (4, 7)] {
        assert!(!space.holds(&RangeInclusive::new(start, end).unwrap()));
    }
    assert_eq!((space.held_count(), space.height()), (2, 1));
}

/// The space has the maximum number of addresses.
#[test]
fn counts_follow_each_change() {
    let counts = |space: &AddressAllocator| {
        let gaps = space.gap_count();
        (space.held_count(), space.free_len(), gaps)
    };
    let mut space = AddressAllocator::new(0, u64::MAX).unwrap();
    assert_eq!(counts(&space), (0, u64::MAX, 1));
    let size = u64::MAX - 1;
    let range = space.allocate(size, 1, AllocPolicy::FirstMatch).unwrap();
    assert_eq!(counts(&space), (1, 1, 1));
    let refused = space.allocate(2, 1, AllocPolicy::LastMatch);
    assert_eq!(refused, Err(Error::ResourceNotAvailable));
    assert_eq!(counts(&space), (1, 1, 1));
    let clone = space.clone();
    assert_eq!(space.free(&range), Ok(()));
    assert_eq!(counts(&space), (0, u64::MAX, 1));
    assert_eq!(space.free(&range), Err(Error::ResourceNotAvailable));
    assert_eq!(counts(&space), (0, u64::MAX, 1));
    let created = AddressAllocator::try_with_held(0, u64::MAX, &[range]).unwrap();
    assert_eq!((counts(&clone), counts(&created)), ((1, 1, 1), (1, 1, 1)));
}

#[test]
fn spaces_begin_and_end_anywhere() {
    use Error::{Overflow, Underflow};
    let numbers = [0, 1, 2, 16, u64::MAX - 1, u64::MAX];
    for (base, size) in numbers
        .into_iter()
        .flat_map(|base| numbers.map(|size| (base, size)))
    {
        let end = match size.checked_sub(1) {
            None => Err(Underflow),
            Some(more) => base.checked_add(more).ok_or(Overflow),
        };
        let space = AddressAllocator::new(base, size);
        let ends = space.as_ref().map(|space| (space.base(), space.end()));
        assert_eq!(ends.map_err(|error| *error), end.map(|end| (base, end)));
        let or_try_error = AddressAllocator::try_new(base, size);
        assert_eq!(or_try_error, space.map_err(TryError::Refused));
        for (first, last) in [(1, 0), (0, 0), (5, u32::MAX)] {
            let made = DeviceManager::new(first, last, base, size);
            let want = match (first > last, end) {
                (true, _) => Err(Error::InvalidRange(first.into(), last.into())),
                (false, end) => end.map(|_| 0),
            };
            assert_eq!(
                made.as_ref().map(DeviceManager::device_count),
                want.as_ref().copied()
            );
            let or_try_error = DeviceManager::try_new(first, last, base, size);
            assert_eq!(or_try_error, made.map_err(TryError::Refused));
        }
    }
}

#[test]
fn held_ids_are_taken_from_both_ends() {
    let held: Vec<_> = (0..600).filter(|id| id % 7 > 2).collect();
    let ids = IdAllocator::with_held(0, 900, &held).unwrap();
    expect_items(ids.held_ids(), &held, exact, &mut Draw(3));
    expect_in_order(ids.iter(), &held);
    let draw = &mut Draw(4);
    for most in [10, 100, 500, 1000] {
        let (mut items, mut want) = (ids.held_ids(), held.iter().copied());
        while items.len() > 0 {
            let count = draw.below(most) as usize;
            if draw.below(2) == 0 {
                assert_eq!(items.nth(count), want.nth(count));
            } else {
                assert_eq!(items.nth_back(count), want.nth_back(count));
            }
            assert_eq!(items.len(), want.len());
            expect_in_order(items.clone(), &want.clone().collect::<Vec<_>>());
        }
    }
    let mut items = ids.held_ids();
    assert_eq!((items.nth(usize::MAX), items.next_back()), (None, None));
    let mut items = ids.held_ids();
    assert_eq!((items.nth_back(usize::MAX), items.next()), (None, None));
}

/// The ids 0 to 599, of which 3 to 6 of each 7 are held, and devices with the held ids.
#[test]
fn ids_and_devices_are_taken_from_windows() {
    let held: Vec<u32> = (0..600).filter(|id| id % 7 > 2).collect();
    let mut devices = DeviceManager::new(0, 599, 0, 600).unwrap();
    for id in &held {
        let exact = Constraint::new(1, 1, AllocPolicy::ExactMatch(u64::from(*id))).unwrap();
        devices
            .reserve_with_id(IdRequest::Exact(*id), exact)
            .unwrap();
    }
    let draw = &mut Draw(5);
    for first in (0..24).chain(590..602).chain([u32::MAX]) {
        for last in [
            first,
            first.saturating_add(1),
            first ^ 5,
            300,
            599,
            600,
            u32::MAX,
        ] {
            let want: Vec<_> = held
                .iter()
                .copied()
                .filter(|id| (first..=last).contains(id))
                .collect();
            expect_items(
                devices.ids().held_ids_in(first..=last),
                &want,
                inexact,
                draw,
            );
            let slots: Vec<_> = want.iter().map(|id| devices.slot(*id).unwrap()).collect();
            let found = devices.devices_in(first..=last);
            assert!(found
                .clone()
                .map(|device| device.id)
                .eq(want.iter().copied()));
            expect_items(found.map(|device| device.range), &slots, inexact, draw);
        }
    }
}

#[test]
fn ids_can_be_looked_at() {
    let mut ids = IdAllocator::new(5, 7).unwrap();
    for id in 5..=7 {
        assert_eq!((ids.peek_id(), ids.allocate_id()), (Ok(id), Ok(id)));
    }
    assert_eq!(ids.peek_id(), Err(Error::ResourceNotAvailable));
    assert_eq!(ids.free_id(6), Ok(6));
    assert_eq!((ids.peek_id(), ids.held_count()), (Ok(6), 2));
    assert_eq!(Vec::from_iter(&ids), [5, 7]);
    let mut clone = ids.clone();
    assert_eq!(clone.allocate_id(), Ok(6));
    assert!(clone.is_allocated(6) && !ids.is_allocated(6));
}

#[test]
fn a_device_gets_both_or_neither() {
    let mut devices = DeviceManager::new(0, 0, 0x1000, 0x1000).unwrap();
    let slot = devices.reserve(0x800, 1, AllocPolicy::FirstMatch).unwrap();
    let range = RangeInclusive::new(0x1000, 0x17ff).unwrap();
    assert_eq!(slot, DeviceSlot { id: 0, range });
    let refused = devices.reserve(0x800, 1, AllocPolicy::FirstMatch);
    assert_eq!(refused, Err(Error::ResourceNotAvailable));
    assert_eq!(devices.slot(0), Some(range));
    assert_eq!(devices.release(0), Ok(()));
    let refused = devices.reserve(0, 1, AllocPolicy::FirstMatch);
    assert_eq!(refused, Err(Error::InvalidSize(0)));
    assert!(devices.reserve(0x1000, 1, AllocPolicy::FirstMatch).is_ok());
}

#[test]
fn devices_are_listed_by_their_ids() {
    let mut draw = Draw(4);
    let mut devices = DeviceManager::new(u32::MAX - 9, u32::MAX, BASE, WIDTH).unwrap();
    let mut list: Vec<DeviceSlot> = Vec::new();
    for _ in 0..500 {
        let id = u32::MAX - draw.below(10) as u32;
        let (size, policy) = (1 + draw.below(6), AllocPolicy::LastMatch);
        let request = Constraint::new(size, 1, policy).unwrap();
        match draw.below(9) {
            0 => list.extend(devices.reserve(size, 1, policy)),
            1 => list.extend(devices.try_reserve(size, 1, policy)),
            2 => list.extend(devices.reserve_constraint(request)),
            3 => list.extend(devices.try_reserve_constraint(request)),
            4 => list.extend(devices.reserve_with_id(IdRequest::Exact(id), request)),
            form => {
                let count = list.len();
                list.retain(|device| device.id != id);
                let is_held = list.len() < count;
                // DIFFERENCES.md: "Releasing again is `AlreadyReleased` | `DeviceManager`: both or
                // neither. Releasing again is `NeverAllocated`."
                let released = match form {
                    5 | 6 => devices.release(id),
                    _ => refused(devices.try_release(id)),
                };
                assert_eq!(
                    released,
                    is_held.then_some(()).ok_or(Error::NeverAllocated(id))
                );
            }
        }
        let device = list.iter().find(|device| device.id == id);
        assert_eq!(devices.slot(id), device.map(|device| device.range));
        list.sort_by_key(|device| device.id);
        expect_items(
            devices.devices(),
            &list,
            |items| Some(items.len()),
            &mut draw,
        );
    }
}

/// Checks that a value has the same text in lines as in one line.
fn expect_in_lines(value: &dyn Debug) {
    let [line, lines] = [format!("{value:?}"), format!("{value:#?}")];
    let packed = |text: &str| {
        let text = text.replace([' ', '\n'], "").replace(",}", "}");
        text.replace(",]", "]").replace(",)", ")")
    };
    assert!(lines.contains(",\n"), "{lines}");
    assert_eq!(packed(&lines), packed(&line));
}

/// Checks the names and values of fields. An allocator shows its allocated ranges and not its tree.
// DIFFERENCES.md: "Debug texts show trees | Allocated ranges"
#[test]
fn debug_texts_show_the_fields() {
    let mut space = AddressAllocator::new(16, 4).unwrap();
    let held = space.allocate(1, 1, AllocPolicy::LastMatch).unwrap();
    let held_text = "RangeInclusive { start: 19, end: 19 }";
    let in_lines = "RangeInclusive {\n    start: 19,\n    end: 19,\n}";
    assert_eq!(format!("{held:#?}"), in_lines);
    assert_eq!(
        format!("{space:?}"),
        format!(
            "AddressAllocator {{ base: 16, end: 19, held_count: 1, held_ranges: [{held_text}] }}"
        )
    );
    let mut ids = IdAllocator::new(5, 23).unwrap();
    for id in [5, 6] {
        assert_eq!(ids.allocate_id(), Ok(id));
    }
    ids.free_id(5).unwrap();
    let ids_text = "IdAllocator { range_base: 5, next_id: Some(7), range_end: 23, held_ids: [6] }";
    assert_eq!(format!("{ids:?}"), ids_text);
    let mut devices = DeviceManager::new(0, 1, 16, 3).unwrap();
    let slot = devices.reserve(1, 1, AllocPolicy::FirstMatch).unwrap();
    let range_text = "RangeInclusive { start: 16, end: 16 }";
    let slot_text = format!("DeviceSlot {{ id: 0, range: {range_text} }}");
    assert_eq!(format!("{slot:?}"), slot_text);
    let last = devices.reserve(1, 1, AllocPolicy::LastMatch).unwrap();
    assert_eq!(
        format!("{devices:?}"),
        format!(
            "DeviceManager {{ ids: IdAllocator {{ range_base: 0, next_id: Some(2), range_end: 1, \
             held_ids: [0, 1] }}, addresses: AddressAllocator {{ base: 16, end: 18, held_count: 2, \
             held_ranges: [{range_text}, {:?}] }}, devices: [{slot_text}, {last:?}] }}",
            last.range
        )
    );
    let request = Constraint::new(1, 1, AllocPolicy::FirstMatch).unwrap();
    let objects: [&dyn Debug; 4] = [&space, &ids, &devices, &request];
    objects.into_iter().for_each(expect_in_lines);
    let mut gaps = AddressAllocator::new(0, 8).unwrap();
    gaps.allocate(2, 1, AllocPolicy::ExactMatch(3)).unwrap();
    assert!(format!("{gaps:?}").contains("end: 7, held_count: 1, held_ranges: ["));
    assert_eq!(format!("{:?}", space.held_ranges()), "HeldRanges { .. }");
    let mut many = AddressAllocator::new(0, 66).unwrap();
    let shown = [64, 65].map(|count| {
        while many.held_count() < count {
            many.allocate(1, 1, AllocPolicy::FirstMatch).unwrap();
        }
        format!("{many:?}")
    });
    assert!(shown[0].ends_with("end: 63 }] }"), "{}", shown[0]);
    assert!(shown[1].ends_with("end: 63 }, ..] }"), "{}", shown[1]);
    let layout = space.layout().named([(held, "disk")]);
    let names = r#"names: [(RangeInclusive { start: 19, end: 19 }, 0, "disk")] }"#;
    assert!(format!("{layout:?}").ends_with(names));
    assert!(NodeState::Free < NodeState::Allocated);
}

/// A space by its base and size, allocated ranges by start, size and name, and the expected layout.
type Written = (
    u64,
    u64,
    &'static [(u64, u64, Option<&'static str>)],
    &'static str,
);

// src/layout.rs: "space ends below 2^16, it writes addresses of four digits, like `/proc/ioports`."

/// Checks that addresses have at least four digits if the last one is below 2^16, and at least
/// eight otherwise.
const LAYOUTS: [Written; 7] = [
    (0, 0x100, &[], "0000-00ff : gap"),
    (0xff00, 0x100, &[], "ff00-ffff : gap"),
    (0xff00, 0x101, &[], "0000ff00-00010000 : gap"),
    (0xffff_ffff, 2, &[], "ffffffff-100000000 : gap"),
    (0, u64::MAX, &[], "00000000-fffffffffffffffe : gap"),
    (
        0,
        0x100,
        &[
            (0x60, 5, Some("keyboard")),
            (0x70, 2, None),
            (0x80, 0x80, Some("")),
        ],
        "0000-005f : gap\n0060-0064 : keyboard\n0065-006f : gap\n0070-0071 : held\n\
         0072-007f : gap\n0080-00ff : ",
    ),
    (
        7,
        2,
        &[(7, 1, Some("first")), (8, 1, Some("gap"))],
        "0007-0007 : first\n0008-0008 : gap",
    ),
];

#[test]
fn a_layout_is_written_as_the_kernel_does() {
    for (base, size, ranges, text) in LAYOUTS {
        let mut space = AddressAllocator::new(base, size).unwrap();
        let (mut names, mut others) = (Vec::new(), Vec::new());
        for (start, size, name) in ranges {
            let range = space
                .allocate(*size, 1, AllocPolicy::ExactMatch(*start))
                .unwrap();
            names.extend(name.map(|name| (range, name)));
            let ends = [start + size / 2, start + size].into_iter();
            let beside = ends.filter(|end| *end != range.end());
            others.extend(beside.map(|end| (RangeInclusive::new(*start, end).unwrap(), "none")));
        }
        let layout = space.layout();
        let gaps = layout
            .blocks()
            .filter(|block| block.state == NodeState::Free);
        others.extend(gaps.map(|gap| (gap.range, "none")));
        // Only exactly an allocated range has a name. A second list adds names. The last name of a range
        // is shown.
        let before = names.iter().map(|(range, _)| (*range, "before"));
        let twice: Vec<_> = before.chain(names.iter().copied()).collect();
        for layout in [
            space.layout().named(names.clone()).named(others.clone()),
            space.layout().named(others).named(twice).clone(),
        ] {
            assert_eq!(layout.to_string(), text);
        }
    }
}

/// The row of a picture: its class, its height, and the texts of its columns.
type Row = (&'static str, u64, [&'static str; 3]);

// src/svg.rs: "The row of the shortest block is 14 units high, and others are one unit higher for each
// doubling of the length. Lengths are rounded down: for the height to a power of two, and as text to a
// hundredth of the largest unit. Names are escaped, and U+FFFD replaces each character that XML cannot
// have."

/// Lengths of 2^12, 255 * 2^12, 3 * 2^19 and 8 * 2^20 - 1.
const ROWS: [Row; 4] = [
    (
        "held",
        14,
        [
            "d0000000",
            "4 KiB",
            "a&lt;b&gt; &amp;amp; \u{fffd}\u{fffd}\u{fffd}\u{fffd}\u{10000}ü\"",
        ],
    ),
    ("gap", 14 + 7, ["d0001000", "1020 KiB", "gap"]),
    ("held", 14 + 8, ["d0100000", "1.50 MiB", "held"]),
    ("gap", 14 + 10, ["d0280000", "7.99 MiB", "gap"]),
];

/// The longest block is 2^64 - 2 addresses long.
const LONGEST: [Row; 2] = [
    ("held", 14, ["00000000", "1 B", ""]),
    ("gap", 14 + 63, ["00000001", "15.99 EiB", "gap"]),
];

/// Returns the number of an attribute that a text has first.
fn attribute(text: &str, name: &str) -> u64 {
    let value = text.split_once(&format!(" {name}=\"")).unwrap().1;
    value.split_once('"').unwrap().0.parse().unwrap()
}

/// Checks the rows of a picture, and that each begins where the one before ends.
fn expect_picture(picture: &str, rows: &[Row]) {
    let (head, body) = picture.split_once("<rect ").unwrap();
    let mut top = 0;
    let mut found = body.split("<rect ");
    for (class, height, columns) in rows {
        let row = found.next().unwrap();
        assert!(row.starts_with(&format!("class=\"{class}\"")), "{row}");
        assert_eq!(
            (attribute(row, "y"), attribute(row, "height")),
            (top, *height)
        );
        top += height;
        let texts = row.split("</text>").take(3);
        let texts: Vec<_> = texts.map(|text| text.rsplit_once('>').unwrap().1).collect();
        assert_eq!(texts, columns);
    }
    assert!(found.next().is_none());
    assert_eq!(attribute(head, "height"), top);
    assert!(head.contains(&format!("viewBox=\"0 0 640 {top}\"")) && picture.ends_with("</svg>\n"));
}

#[test]
fn a_picture_has_a_row_for_each_block() {
    let mut space = AddressAllocator::new(0xd000_0000, 0x28_0000 + 0x7f_ffff).unwrap();
    let exact = AllocPolicy::ExactMatch;
    let named = space.allocate(0x1000, 1, exact(0xd000_0000)).unwrap();
    space.allocate(0x18_0000, 1, exact(0xd010_0000)).unwrap();
    let layout = space
        .layout()
        .named([(named, "a<b> &amp; \n\u{1f}\u{fffe}\u{ffff}\u{10000}ü\"")]);
    expect_picture(&layout.svg(), &ROWS);
    let mut space = AddressAllocator::new(0, u64::MAX).unwrap();
    let named = space.allocate(1, 1, exact(0)).unwrap();
    expect_picture(&space.layout().named([(named, "")]).svg(), &LONGEST);
}

/// Checks a layout with many ranges and many names for each, in lists of any order.
#[test]
fn the_last_of_many_names_is_shown() {
    let mut space = AddressAllocator::new(0, 0x1000).unwrap();
    let mut allocate = || space.allocate(0x10, 0x10, AllocPolicy::FirstMatch).unwrap();
    let ranges: Vec<_> = (0..40).map(|_| allocate()).collect();
    let texts: Vec<_> = (0..50).map(|name| format!("name {name}")).collect();
    let mut layout = space.layout();
    for (number, name) in texts.iter().enumerate() {
        let each = ranges.iter().map(|range| (*range, name.as_str()));
        layout = match number % 3 {
            0 => layout.named(each),
            1 => layout.named(each.rev()),
            _ => layout.try_named(each).unwrap(),
        };
    }
    let mut lines: Vec<_> = ranges
        .iter()
        .map(|range| format!("{:04x}-{:04x} : name 49", range.start(), range.end()))
        .collect();
    lines.push("0280-0fff : gap".into());
    assert_eq!(layout.to_string(), lines.join("\n"));
}

#[test]
fn ranges_convert_and_are_written_in_hexadecimal() {
    let range = RangeInclusive::new(0xd000_0000, 0xd000_0fff).unwrap();
    assert_eq!(range.to_string(), "d0000000-d0000fff");
    assert_eq!(format!("{range:x}"), "d0000000-d0000fff");
    assert_eq!(format!("{range:#012x}"), "0x00d0000000-0x00d0000fff");
    let ends = std::ops::RangeInclusive::from(range);
    assert_eq!(ends, 0xd000_0000..=0xd000_0fff);
    assert_eq!(RangeInclusive::try_from(ends), Ok(range));

    const REFUSED: Result<RangeInclusive, Error> = RangeInclusive::new(8, 7);
    assert_eq!(REFUSED, Err(Error::InvalidRange(8, 7)));
    let refused = |start, end| Err(Error::InvalidRange(start, end));
    // Clippy finds that this range is empty.
    #[allow(clippy::reversed_empty_ranges)]
    let reversed = 5..=4;
    assert_eq!(RangeInclusive::try_from(reversed), refused(5, 4));
    assert_eq!(RangeInclusive::try_from(0..=u64::MAX), refused(0, u64::MAX));
    let mut spent = 7..=7;
    spent.next();
    assert_eq!(RangeInclusive::try_from(spent), refused(7, 7));
}

/// Checks that a report of an error and its sources has each text once.
#[test]
fn errors_that_write_another_have_no_source() {
    let error = TryError::Refused(Error::Overflow);
    let of_item = ListError {
        index: Some(1),
        error,
        conflict: None,
    };
    let errors: [&dyn std::error::Error; 4] =
        [&Error::Overflow, &error, &TryError::OutOfMemory, &of_item];
    assert!(errors.iter().all(|error| error.source().is_none()));
    assert_eq!(error.error(), Some(Error::Overflow));
    assert_eq!(TryError::OutOfMemory.error(), None);
}

/// Checks that a format has the same result for an object and for its text.
fn expect_formats(object: impl Display, text: &str) {
    macro_rules! expect_same {
        ($($format:literal)*) => {$(assert_eq!(format!($format, object), format!($format, text));)*};
    }
    expect_same!(
        "{}" "{:3}" "{:160}" "{:<400}" "{:>400}" "{:^400}" "{:é^401}" "{:.0}" "{:.3}" "{:.290}"
        "{:*>9.4}" "{:€<9.4}" "{:0^10.5}"
    );
}

/// Checks each text, and that a width applies to a whole text.
#[test]
fn texts_are_padded_as_a_whole() {
    let range = RangeInclusive::new(0xd0, 0xd7).unwrap();
    let long = ["x".repeat(300), "é€😀".repeat(100)];
    let of_long = long.each_ref().map(|error| ListError {
        index: Some(usize::MAX),
        error,
        conflict: None,
    });
    let long_texts = long
        .each_ref()
        .map(|text| format!("item {}: {text}", usize::MAX));
    let no_range = "".parse::<RangeInclusive>().unwrap_err();
    let texts: [(&dyn Display, &str); 24] = [
        (
            &no_range,
            "the text is not a range of addresses, such as d0000000-d0000fff",
        ),
        (&range, "d0-d7"),
        (
            &Error::Overflow,
            "Management operations on desired resource resulted in overflow.",
        ),
        (
            &Error::Underflow,
            "Management operations on desired resource resulted in underflow.",
        ),
        (
            &Error::OutOfRange(7),
            "Specified id: 7 is not in the range.",
        ),
        (
            &Error::AlreadyReleased(7),
            "Specified id: 7 is already released.",
        ),
        (
            &Error::NeverAllocated(7),
            "Specified id: 7 was never allocated, can't release it.",
        ),
        (
            &TryError::Refused(Error::ResourceNotAvailable),
            "The requested resource is not available.",
        ),
        (
            &Error::InvalidRange(8, 7),
            "The range specified: 8-7 is not valid.",
        ),
        (&Error::InvalidAlignment, "Alignment value is invalid."),
        (
            &Error::InvalidStateTransition(range, NodeState::Allocated),
            "Invalid state transition for node RangeInclusive { start: 208, end: 215 } from \
             Allocated to NodeState::Free",
        ),
        (&Error::UnalignedAddress, "The address is not aligned."),
        (
            &Error::InvalidSize(7),
            "The specified size: 7 is not valid.",
        ),
        (&TryError::OutOfMemory, "There is not enough memory."),
        (
            &ListError {
                index: None,
                error: TryError::OutOfMemory,
                conflict: None,
            },
            "There is not enough memory.",
        ),
        (
            &ListError {
                index: Some(2),
                error: Error::InvalidAlignment,
                conflict: Some(Conflict::EndsAtMax),
            },
            "item 2: Alignment value is invalid.",
        ),
        (
            &Error::Overlap(range, range),
            "Addresses are overlapping.RangeInclusive { start: 208, end: 215 } intersects with \
             existing RangeInclusive { start: 208, end: 215 }",
        ),
        (&of_long[0], &long_texts[0]),
        (&of_long[1], &long_texts[1]),
        (
            &Conflict::OutsideSpace(range),
            "an address is outside the space 0xd0-0xd7",
        ),
        (
            &Conflict::OutsideWindow(range),
            "an address is outside the window 0xd0-0xd7",
        ),
        (
            &Conflict::NotAfter(range),
            "it does not start after 0xd0-0xd7",
        ),
        (&Conflict::EndsAtMax, "it ends at the last address"),
        (
            &Conflict::Allocated(range),
            "an address is in the allocated range 0xd0-0xd7",
        ),
    ];
    assert_eq!(format!("{range:#}"), format!("{range:#x}"));
    assert_eq!(format!("{range:#20}"), format!("{:20}", "0xd0-0xd7"));
    for (object, text) in texts {
        expect_formats(object, text);
    }
    let space = AddressAllocator::new(0, 8).unwrap();
    expect_formats(space.layout().blocks().next().unwrap(), "gap");
}

/// Requests by size, alignment and policy, with a window or without, and their texts.
type WrittenRequest = ((u64, u64, AllocPolicy), Option<(u64, u64)>, &'static str);

const REQUESTS: [WrittenRequest; 5] = [
    (
        (0x1000, 0x10, AllocPolicy::FirstMatch),
        None,
        "size 0x1000, alignment 0x10, FirstMatch",
    ),
    (
        (1, 1, AllocPolicy::LastMatch),
        Some((0, 0xffff_ffff)),
        "size 0x1, alignment 0x1, LastMatch, window 0x0-0xffffffff",
    ),
    (
        (1, 1, AllocPolicy::LastMatch),
        Some((1, 0xffff_ffff)),
        "size 0x1, alignment 0x1, LastMatch, window 0x1-0xffffffff",
    ),
    (
        (10, 16, AllocPolicy::ExactMatch(0xd000_0000)),
        None,
        "size 0xa, alignment 0x10, ExactMatch(0xd0000000)",
    ),
    (
        (u64::MAX, 1 << 63, AllocPolicy::ExactMatch(0)),
        Some((1, u64::MAX)),
        "size 0xffffffffffffffff, alignment 0x8000000000000000, ExactMatch(0x0), \
         window 0x1-0xffffffffffffffff",
    ),
];

/// Checks that different requests are different as keys of a set, and have different hashes.
#[test]
fn requests_are_written_in_one_line_and_hashed() {
    let (mut seen, mut hashes) = (HashSet::new(), HashSet::new());
    for ((size, align, policy), window, text) in REQUESTS {
        let mut request = Constraint::new(size, align, policy).unwrap();
        assert_eq!(request.window(), None);
        if let Some((start, end)) = window {
            let window = RangeInclusive::new(start, end).unwrap();
            // A window replaces the window before it.
            request = request.within(5..=6).unwrap().within(window).unwrap();
            assert_eq!(request.window(), Some(window));
        }
        expect_formats(request, text);
        let numbers = (request.size(), request.align(), request.policy());
        assert_eq!(numbers, (size, align, policy));
        assert!(seen.insert(request) && !seen.insert(request));
        let mut hasher = DefaultHasher::new();
        request.hash(&mut hasher);
        assert!(hashes.insert(hasher.finish()), "{text}");
    }
}

/// Checks that values are equal to themselves and to no other of these values.
fn expect_distinct<T: PartialEq + Debug>(values: &[T]) {
    for (number, value) in values.iter().enumerate() {
        for (other, of) in values.iter().enumerate() {
            assert_eq!(value == of, number == other, "{value:?} and {of:?}");
        }
    }
}

/// Checks that each field decides whether values are equal.
#[test]
fn different_values_are_not_equal() {
    let [range, other] = [5, 6].map(|end| RangeInclusive::new(4, end).unwrap());
    let policies = [
        AllocPolicy::FirstMatch,
        AllocPolicy::LastMatch,
        AllocPolicy::ExactMatch(0),
        AllocPolicy::ExactMatch(4),
    ];
    expect_distinct(&policies);
    let mut requests = policies
        .map(|policy| Constraint::new(4, 4, policy).unwrap())
        .to_vec();
    requests.extend(
        [(3, 4), (4, 2)]
            .map(|(size, align)| Constraint::new(size, align, AllocPolicy::FirstMatch).unwrap()),
    );
    requests.extend([range, other].map(|window| requests[0].within(window).unwrap()));
    expect_distinct(&requests);
    expect_distinct(
        &[(1, range), (2, range), (1, other)].map(|(id, range)| DeviceSlot { id, range }),
    );
    let mut errors = Vec::from([1, 2].map(Error::InvalidSize));
    errors.extend([1, 2].map(Error::OutOfRange));
    errors.extend([1, 2].map(Error::AlreadyReleased));
    errors.extend([1, 2].map(Error::NeverAllocated));
    errors.extend([(1, 2), (1, 3), (2, 2)].map(|(start, end)| Error::InvalidRange(start, end)));
    errors.extend(
        [(range, range), (range, other), (other, range)].map(|(a, b)| Error::Overlap(a, b)),
    );
    errors
        .extend([range, other].map(|range| Error::InvalidStateTransition(range, NodeState::Free)));
    errors.push(Error::InvalidStateTransition(range, NodeState::Allocated));
    expect_distinct(&errors);
    let tried = errors.iter().map(|error| TryError::Refused(*error));
    expect_distinct(&tried.chain([TryError::OutOfMemory]).collect::<Vec<_>>());
    let indices = [None, Some(0), Some(1)];
    expect_distinct(&indices.map(|index| ListError {
        index,
        error: errors[0],
        conflict: None,
    }));
    let lists = errors.iter().map(|error| ListError {
        index: None,
        error: *error,
        conflict: None,
    });
    expect_distinct(&lists.collect::<Vec<_>>());
}

#[test]
fn ranges_of_lengths() {
    const MAX: u64 = u64::MAX;
    let numbers = [0, 1, 2, 1 << 40, 1 << 63, MAX - 1, MAX];
    for (start, len) in numbers
        .into_iter()
        .flat_map(|start| numbers.map(|len| (start, len)))
    {
        let range = RangeInclusive::from_start_len(start, len);
        let Some(last) = len.checked_sub(1) else {
            assert_eq!(range, Err(Error::InvalidSize(0)));
            continue;
        };
        let end = start.checked_add(last);
        let want = end.map(|end| RangeInclusive::new(start, end).unwrap());
        assert_eq!(range, want.ok_or(Error::Overflow));
        for (range, address) in range.iter().flat_map(|range| numbers.map(|at| (range, at))) {
            let offset = address.checked_sub(start).filter(|offset| *offset < len);
            assert_eq!((range.offset_of(address), range.len()), (offset, len));
        }
    }
}

#[test]
fn ranges_meet_in_what_both_have() {
    let ranges = || {
        let starts = [0, 1, 2, 3, u64::MAX - 2, u64::MAX - 1, u64::MAX];
        let pairs = starts
            .into_iter()
            .flat_map(move |start| starts.map(|end| (start, end)));
        pairs.filter_map(|(start, end)| RangeInclusive::new(start, end).ok())
    };
    for (range, other) in ranges().flat_map(|range| ranges().map(move |other| (range, other))) {
        let common = range.intersection(&other);
        assert_eq!(common.is_some(), range.overlaps(&other));
        assert_eq!(range.contains(&other), common == Some(other));
        let ends = |range: &RangeInclusive| (range.start(), range.end());
        assert_eq!(range.cmp(&other), ends(&range).cmp(&ends(&other)));
        assert_eq!(range == other, ends(&range) == ends(&other));
        for address in [
            0,
            1,
            2,
            3,
            4,
            u64::MAX - 3,
            u64::MAX - 2,
            u64::MAX - 1,
            u64::MAX,
        ] {
            let in_range = std::ops::RangeInclusive::from(range).contains(&address);
            assert_eq!(range.contains_address(address), in_range);
            let in_both = in_range && other.contains_address(address);
            assert_eq!(
                common.is_some_and(|common| common.contains_address(address)),
                in_both
            );
        }
    }
}

#[test]
fn a_request_is_allocated_as_its_numbers_are() {
    let mut spaces = [0x100, 0x100].map(|size| AddressAllocator::new(0, size).unwrap());
    for policy in [
        AllocPolicy::LastMatch,
        AllocPolicy::FirstMatch,
        AllocPolicy::ExactMatch(0x40),
    ] {
        let request = Constraint::new(0x20, 0x20, policy).unwrap();
        assert_eq!(
            (request.size(), request.align(), request.policy()),
            (0x20, 0x20, policy)
        );
        let [by_request, by_numbers] = &mut spaces;
        let range = by_numbers.allocate(0x20, 0x20, policy);
        assert_eq!(by_request.allocate_constraint(request), range);
    }
    assert_eq!(spaces[0], spaces[1]);
    let request = Constraint::new(0x20, 0x20, AllocPolicy::ExactMatch(0x40)).unwrap();
    let error = spaces[0].allocate_constraint(request).unwrap_err();
    assert_eq!(
        spaces[0].try_allocate_constraint(request),
        Err(TryError::Refused(error))
    );
}

#[test]
fn ids_are_allocated_by_number() {
    let mut ids = IdAllocator::new(5, 23).unwrap();
    assert_eq!(ids.free_count(), 19);
    assert_eq!(ids.allocate_exact(4), Err(Error::OutOfRange(4)));
    assert_eq!(ids.try_allocate_exact(8), Ok(8));
    let taken = TryError::Refused(Error::ResourceNotAvailable);
    assert_eq!(ids.try_allocate_exact(8), Err(taken));
    let text = "IdAllocator { range_base: 5, next_id: Some(9), range_end: 23, held_ids: [8] }";
    assert_eq!(format!("{ids:?}"), text);
    let mut many = IdAllocator::new(0, 64).unwrap();
    let ended = [64, 65].map(|id| {
        while many.held_count() < id {
            many.allocate_id().unwrap();
        }
        format!("{many:?}").split_once("62, ").unwrap().1.to_owned()
    });
    assert_eq!(ended, ["63] }", "63, ..] }"]);
    for id in [6, 7] {
        assert_eq!(ids.allocate_in(6..=8), Ok(id));
    }
    assert_eq!(ids.try_allocate_in(6..9), Err(taken));
    assert_eq!(ids.allocate_in(8..8), Err(Error::InvalidRange(8, 7)));
    assert_eq!(ids.allocate_in(..0), Err(Error::InvalidRange(1, 0)));
    assert_eq!(ids.try_allocate_in(10..), Ok(10));
    assert!(ids.held_ids().eq([6, 7, 8, 10]));
    let same = IdAllocator::try_with_held(5, 23, &[6, 7, 8, 10]);
    assert_eq!(same, Ok(ids));
}

#[test]
fn several_ids_are_those_of_single_calls() {
    let mut ids = IdAllocator::with_held(5, 12, &[6, 9]).unwrap();
    let mut single = ids.clone();
    let list = ids.allocate_ids(4).unwrap();
    assert_eq!(list, [5, 7, 8, 10]);
    assert!(list.iter().all(|id| single.allocate_id() == Ok(*id)));
    assert_eq!(ids, single);
    let too_many = TryError::Refused(Error::ResourceNotAvailable);
    assert_eq!(ids.try_allocate_ids(3), Err(too_many));
    assert_eq!((&ids, ids.free_count()), (&single, 2));
    assert_eq!(ids.try_allocate_ids(0), Ok(Vec::new()));
    let mut last = IdAllocator::new(u32::MAX, u32::MAX).unwrap();
    assert_eq!(last.allocate_ids(2), Err(Error::Overflow));
    assert_eq!(last.allocate_ids(1), Ok(vec![u32::MAX]));
}

/// Makes each call with the last id, in each form.
#[test]
fn the_last_id() {
    const LAST: u32 = u32::MAX;
    type Form = fn(&mut IdAllocator) -> Result<u32, Error>;
    let forms: [Form; 7] = [
        |ids| ids.allocate_id(),
        |ids| ids.allocate_exact(LAST),
        |ids| refused(ids.try_allocate_exact(LAST)),
        |ids| ids.allocate_in(LAST..=LAST),
        |ids| refused(ids.try_allocate_in(LAST..)),
        |ids| ids.allocate_ids(1).map(|list| list[0]),
        |ids| refused(ids.try_allocate_ids(1)).map(|list| list[0]),
    ];
    for form in forms {
        let mut ids = IdAllocator::new(LAST, LAST).unwrap();
        assert_eq!((ids.peek_id(), form(&mut ids)), (Ok(LAST), Ok(LAST)));
        assert!(ids.is_allocated(LAST) && ids.held_ids().eq([LAST]));
        assert_eq!(ids.clone().free_id(LAST), Ok(LAST));
        assert_eq!(ids.try_free_id(LAST), Ok(LAST));
        assert_eq!((ids.held_count(), ids.free_count()), (0, 1));
    }
    let all = IdAllocator::new(0, LAST).map(|ids| ids.free_count());
    assert_eq!(all, Ok(1 << 32));
}

#[test]
fn held_ids_are_checked_in_order() {
    let errors = [
        (23, 5, &[4][..], Error::InvalidRange(23, 5)),
        (5, 23, &[7, 4, 3], Error::OutOfRange(4)),
        (5, 23, &[7, 24, 7], Error::OutOfRange(24)),
        (5, 23, &[7, 7, 24], Error::ResourceNotAvailable),
    ];
    for (first, last, held, error) in errors {
        assert_eq!(IdAllocator::with_held(first, last, held), Err(error));
    }
}

#[test]
fn objects_are_equal_by_what_they_hold() {
    let ids = |first, freed: &[u32]| {
        let mut ids = IdAllocator::new(first, 9).unwrap();
        (0..3).for_each(|_| assert!(ids.allocate_id().is_ok()));
        freed
            .iter()
            .for_each(|id| assert_eq!(ids.free_id(*id), Ok(*id)));
        ids
    };
    assert_eq!(ids(5, &[6]), ids(5, &[6]).clone());
    assert_ne!(ids(5, &[6]), ids(5, &[]));
    assert_ne!(ids(5, &[]), ids(6, &[]));
    assert!(ids(5, &[6]).held_ids().eq([5, 7]));
    assert_eq!(range_of_ids(&ids(5, &[])), (5, 9));

    let devices = |policy| {
        let mut devices = DeviceManager::new(1, 9, 0x1000, 0x1000).unwrap();
        for size in [0x10, 0x20] {
            devices.reserve(size, size, policy).unwrap();
        }
        devices
    };
    let first = devices(AllocPolicy::FirstMatch);
    assert_eq!(first, first.clone());
    assert_ne!(first, devices(AllocPolicy::LastMatch));
    let listed: Vec<DeviceSlot> = (&first).into_iter().collect();
    assert!(first.iter().eq(listed.iter().copied()));
    assert_eq!(
        (listed.len() as u64, listed[1].id),
        (first.device_count(), 2)
    );
    assert_eq!(first.device_at(0x1020), Some(listed[1]));
    assert_eq!(first.device_at(0x1010), None);
}

const SOURCES: [&str; 3] = [
    include_str!("../src/address_allocator.rs"),
    include_str!("../src/id_allocator.rs"),
    include_str!("../src/device_manager.rs"),
];

const TESTS: [&str; 4] = [
    include_str!("calls.rs"),
    include_str!("costs.rs"),
    include_str!("long.rs"),
    include_str!("memory.rs"),
];

/// Checks that each call of an object makes the proved call of its name, and no other work, and that a
/// test makes it.
#[test]
fn calls_are_those_of_the_proved_code() {
    let mut count = 0;
    for text in SOURCES.iter().flat_map(|text| text.split("  pub ")) {
        let Some((head, rest)) = text.split_once('(') else {
            continue;
        };
        // The second call of a pair has the body of the first one.
        let Some(name) = head.trim_start_matches("const ").strip_prefix("fn ") else {
            continue;
        };
        if name.contains(';') {
            count += 1;
            continue;
        }
        let body: String = rest
            .split("\n\n")
            .next()
            .unwrap()
            .split_whitespace()
            .collect();
        // A manager passes a query of its addresses on.
        let body = body.replace(".addresses()", "");
        let plain = name.trim_start_matches("try_");
        let [proved, same] = [plain, name].map(|name| format!("self.0.{name}("));
        let made = format!("::{plain}(Global");
        let tried = format!(
            "elf{}try_{name}(",
            if body.contains("Self::") { "::" } else { "." }
        );
        let is_one = [&proved, &same, &made, &tried]
            .iter()
            .any(|call| body.contains(*call));
        let is_other = [
            "iter",
            "layout",
            "space",
            "try_addresses",
            "try_ids",
            "try_over",
        ]
        .contains(&name);
        assert!(is_one || is_other, "{name}: {body}");
        let uses = [format!(".{name}("), format!("::{name}")];
        let is_used = |text: &&str| uses.iter().any(|call| text.contains(call));
        assert!(TESTS.iter().any(is_used), "no test calls {name}");
        count += 1;
    }
    assert!(count > 50, "{count} calls");
}

/// Checks that the documentation finds a call by other words for it.
#[test]
fn other_words_find_a_call() {
    for (call, words) in [
        ("pub fn allocate(", &["alloc", "reserve_range"][..]),
        ("pub fn move_constraint(", &["resize"]),
        ("pub fn free(", &["release", "remove"]),
        ("pub fn held_ranges(", &["allocated_ranges"]),
        ("pub fn held_ranges_in(", &["is_free"]),
        ("pub fn holds(", &["contains", "is_allocated"]),
        ("pub fn held_at(", &["find", "get"]),
        ("pub fn gaps(", &["free_ranges"]),
        ("pub fn longest_gap(", &["largest_gap"]),
        ("pub fn free_len(", &["free_space", "available"]),
        ("pub fn held_count(", &["allocated_count", "is_empty"]),
        ("pub fn is_allocated(", &["is_free"]),
        ("pub fn held_ids(", &["allocated_ids"]),
        ("pub fn reserve(", &["allocate", "insert"]),
        ("pub fn slot(", &["get"]),
    ] {
        let text = SOURCES.iter().find_map(|text| text.split_once(call));
        let attributes = text.unwrap().0.rsplit("    ///").next().unwrap();
        for word in words {
            assert!(attributes.contains(&format!("{word:?}")), "{call} {word}");
        }
    }
}

/// Checks the height of a space with this number of allocated ranges. All leaves are at the same depth. A leaf has at least
/// 12 blocks, and a node at least 5 children, or 2 if it is the root.
fn expect_low(space: &AddressAllocator, held: u64) {
    let height = space.height() as u32;
    assert_eq!(space.held_count(), held);
    assert!(height == 1 || 24 * 5_u64.pow(height - 2) <= 2 * held + 1);
}

/// Checks the counts in a space that is filled by single addresses, of which every second one is then freed.
#[test]
fn counts_and_heights_have_their_bounds() {
    let mut space = AddressAllocator::new(0, 2047).unwrap();
    let no_size = space.allocate_counted(0, 1, AllocPolicy::FirstMatch);
    assert_eq!(
        (space.height(), no_size),
        (1, (Err(Error::InvalidSize(0)), 0))
    );
    for held in 0..2047 {
        let height = space.height();
        let (range, count) = space.allocate_counted(1, 1, AllocPolicy::FirstMatch);
        assert_eq!(range.map(|range| range.start()), Ok(held));
        assert!(
            height.div_ceil(2) <= count && count <= height,
            "{count} of {height}"
        );
        expect_low(&space, held + 1);
    }
    for freed in 0..1023 {
        let (at, most) = (2 * freed + 1, 3 * space.height());
        let (answer, count) = space.free_counted(&RangeInclusive::new(at, at).unwrap());
        assert_eq!(answer, Ok(()));
        assert!(1 <= count && count <= most, "{count} of {most}");
        expect_low(&space, 2046 - freed);
    }
    assert_eq!(space.layout().blocks().count(), 2047);
    let no_place = (Err(Error::ResourceNotAvailable), 0);
    for (alignment, policy) in [
        (1, AllocPolicy::FirstMatch),
        (1, AllocPolicy::LastMatch),
        (2, AllocPolicy::FirstMatch),
    ] {
        assert_eq!(space.allocate_counted(2, alignment, policy), no_place);
    }
    for (policy, start) in [(AllocPolicy::FirstMatch, 1), (AllocPolicy::LastMatch, 2045)] {
        let (range, count) = space.allocate_counted(1, 1, policy);
        assert_eq!(range.map(|range| range.start()), Ok(start));
        assert!(count <= space.height());
    }
    for at in [1, 2] {
        assert_eq!(space.free(&RangeInclusive::new(at, at).unwrap()), Ok(()));
    }
    let range = space.allocate(3, 1, AllocPolicy::FirstMatch);
    assert_eq!(range, RangeInclusive::new(1, 3));
}

/// Names each public type with its traits. All are `Send` and `Sync`.
#[test]
fn types_have_their_traits() {
    fn values<T: Copy + Ord + Hash + Debug + Send + Sync>() {}
    values::<(RangeInclusive, Error, TryError, NodeState)>();
    values::<(ListError, ListError<TryError>, Conflict)>();
    values::<(ValueError<u64>, ValueError<u64, TryError>)>();
    fn plain<T: Copy + Eq + Debug + Send + Sync>() {}
    plain::<(DeviceSlot, Block<'_>, IdRequest, ParseRangeError)>();
    fn requests<T: Copy + Eq + Hash + Debug + Send + Sync>() {}
    requests::<(Constraint, AllocPolicy)>();
    fn objects<T: Clone + Eq + Debug + Send + Sync>() {}
    objects::<(IdAllocator, DeviceManager, RangeMap<u64>)>();
    fn ordered<T: Clone + Ord + Debug + Send + Sync>() {}
    ordered::<AddressAllocator>();
    fn shown<T: Clone + Debug + Display + Send + Sync>() {}
    shown::<Layout<'_>>();
    shown::<Block<'_>>();
    shown::<RangeInclusive>();
    fn errors<T: std::error::Error + Send + Sync + 'static>() {}
    errors::<Error>();
    errors::<TryError>();
    errors::<ParseRangeError>();
    errors::<ListError<TryError>>();
    errors::<ValueError<u64, TryError>>();
    fn iterators<T: DoubleEndedIterator + FusedIterator + Clone + Debug + Send + Sync>() {}
    iterators::<HeldRangesIn<'_>>();
    iterators::<GapsIn<'_>>();
    iterators::<ValuedRangesIn<'_, String>>();
    iterators::<HeldIdsIn<'_>>();
    iterators::<DevicesIn<'_>>();
    fn counted<T: ExactSizeIterator + DoubleEndedIterator + FusedIterator + Clone + Debug>() {}
    counted::<HeldRanges<'_>>();
    counted::<Gaps<'_>>();
    counted::<HeldIds<'_>>();
    counted::<Devices<'_>>();
    counted::<Blocks<'_>>();
    counted::<ValuedRanges<'_, String>>();
    fn shared<T: Send + Sync>() {}
    shared::<(
        HeldRanges<'_>,
        Gaps<'_>,
        HeldIds<'_>,
        Devices<'_>,
        Blocks<'_>,
    )>();
    shared::<ValuedRanges<'_, u64>>();
}
