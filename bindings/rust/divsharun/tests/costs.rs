// SPDX-License-Identifier: Apache-2.0 OR BSD-3-Clause
//! Guards against a call that goes through all items, although it takes constant or logarithmic
//! time, and against calls that take quadratic time. The root of the crate promises these times.

#[cfg(feature = "serde")]
mod packed;
mod processor;

use divsharun::AllocPolicy::{ExactMatch, FirstMatch, LastMatch};
#[cfg(feature = "serde")]
use divsharun::Strict;
use divsharun::{
    AddressAllocator, Conflict, Constraint, DeviceManager, DeviceSlot, Error, IdAllocator,
    IdRequest, RangeInclusive, RangeMap,
};
use processor::processor_time;
use std::cmp::Ordering;

/// The numbers of items. A call that moves a word of each item takes a hundred times as long in the second object, also
/// if the call is quick in the first one.
const COUNTS: [u64; 2] = [300, 1_000_000];
/// The limit of the growth of a quick call.
const LIMIT: u64 = 20;
/// The same for a call that goes through all items. A quadratic one grows by more than a million. Page faults and the
/// caches of other processes can lengthen a linear one.
const LINEAR_LIMIT: u64 = 200_000;

/// Calls of an object at an address or id of one of its items. They change nothing in the end, and
/// return whether the results were right.
type Calls<O> = fn(&mut O, u64) -> bool;

/// Every second address is allocated.
const OF_SPACES: [Calls<AddressAllocator>; 20] = [
    |space, at| space.held_at(at).is_some() && space.gap_at(at + 1).is_some(),
    |space, at| space.holds(&one(at)) && !space.holds(&one(at + 1)),
    |space, _| space.held_count() == space.gap_count() && space.free_len() == space.gap_count(),
    |space, _| space.longest_gap() == 1 && space.base() < space.end() && space.height() > 1,
    |space, at| AddressAllocator::over(space.space()).free_len() > at,
    |space, at| space.conflict(exact(at)).is_some() && space.conflict(exact(at + 1)).is_none(),
    |space, at| {
        let near = Constraint::new(1, 1, FirstMatch).unwrap().within(from(at));
        let [first, last, none] = [(1, FirstMatch), (1, LastMatch), (2, LastMatch)]
            .map(|(size, policy)| space.peek(Constraint::new(size, 1, policy).unwrap()));
        first == Ok(one(1))
            && last == Ok(one(space.end()))
            && none.is_err()
            && space.peek(near.unwrap()) == Ok(one(at + 1))
            && space.peek(exact(at + 1)) == Ok(one(at + 1))
            && space.longest_gap_in(from(at)).is_some()
    },
    |space, _| has_ends(space.held_ranges(), is_counted),
    |space, _| has_ends(space.gaps(), is_counted),
    |space, at| {
        has_ends(space.held_ranges_in(from(at)), |items| {
            items.size_hint().0 <= 5
        })
    },
    |space, at| has_ends(space.gaps_in(from(at)), |items| items.size_hint().0 <= 5),
    |space, _| has_ends(space.layout().blocks(), is_counted),
    |space, at| {
        let allocated = [
            space.allocate(1, 1, ExactMatch(at + 1)),
            space.allocate_constraint(exact(at + 3)),
            space.allocate(1, 1, LastMatch),
            space.allocate(1, 1, FirstMatch),
        ];
        allocated.map(|range| space.free(&range.unwrap())) == [Ok(()); 4]
    },
    |space, at| {
        let moved = space.move_range(&one(at), at + 1);
        space.move_constraint(&moved.unwrap(), exact(at)) == Ok(one(at))
    },
    |space, at| {
        // A range grows over the gap behind it, and shrinks again.
        let both = Constraint::new(2, 1, ExactMatch(at)).unwrap();
        let grown = space.move_constraint(&one(at), both).unwrap();
        space.move_conflict(&grown, exact(at + 2)).is_some()
            && space.move_constraint(&grown, exact(at)) == Ok(one(at))
    },
    |space, at| {
        let in_window = Constraint::new(1, 1, LastMatch).unwrap().within(from(at));
        let moved = space.try_move_constraint(&one(at), in_window.unwrap());
        moved == Ok(one(at + 7)) && space.try_move_range(&one(at + 7), at) == Ok(one(at))
    },
    |space, at| {
        let near = |policy| {
            Constraint::new(1, 1, policy)
                .unwrap()
                .within(from(at))
                .unwrap()
        };
        let lowest = Constraint::new(1, 1, FirstMatch).unwrap();
        let allocated = [
            space.allocate_all(&[exact(at + 3)]).unwrap()[0],
            space.try_allocate(1, 1, LastMatch).unwrap(),
            space.try_allocate_constraint(near(LastMatch)).unwrap(),
            space.allocate_counted(1, 1, FirstMatch).0.unwrap(),
            space
                .allocate_constraint_counted(near(FirstMatch))
                .0
                .unwrap(),
            space.try_allocate_all(&[lowest]).unwrap()[0],
        ];
        allocated.map(|range| space.free_counted(&range).0) == [Ok(()); 6]
    },
    |space, at| {
        let held = Constraint::new(1, 1, LastMatch)
            .unwrap()
            .within(one(at))
            .unwrap();
        space.free(&one(at + 1)).is_err()
            && space.allocate_all(&[exact(at + 1), exact(at)]).is_err()
            && space.allocate_constraint(held).is_err()
            && space.move_range(&one(at), at + 2).is_err()
    },
    |space, at| {
        let rest = RangeInclusive::new(at, space.end()).unwrap();
        let wide = Constraint::new(rest.len(), 1, ExactMatch(at)).unwrap();
        space.conflict(wide) == Some(Conflict::Allocated(one(at)))
            && space.allocate_constraint(wide).is_err()
            && space.move_constraint(&one(at), wide).is_err()
            && !space.holds(&rest)
            && space.free(&rest).is_err()
    },
    |space, at| {
        has_ends(space.held_ranges_in(at..), |items| items.size_hint().0 < 9)
            && has_ends(space.gaps_in(at..), |items| items.size_hint().0 < 9)
            && has_ends(space.layout().blocks(), is_counted)
            && AddressAllocator::new(at, space.end()).is_ok()
    },
];

// DIFFERENCES.md: "by their shape | By their blocks in order"

/// Two spaces that differ in their first range.
const OF_PAIRS: [Calls<[AddressAllocator; 2]>; 1] = [|[one, other], _| {
    one != other && one.cmp(&other).is_lt() && one.partial_cmp(&other) == Some(Ordering::Less)
}];

/// Two equal spaces. The calls go through all of their ranges or gaps.
const OF_WALKS: [Calls<[AddressAllocator; 2]>; 10] = [
    |[one, other], _| one == other && one.cmp(&other).is_eq(),
    |[one, _], _| one.held_ranges().count() == one.gaps().rev().count(),
    |[one, _], _| one.held_ranges_in(..).rev().count() == one.gaps_in(..).count(),
    |[one, _], _| one.layout().blocks().count() == one.layout().blocks().rev().count(),
    |[one, other], _| one.clone() == other.try_clone().unwrap(),
    |[one, _], _| {
        let (size, held) = (one.space().len(), items(one.held_ranges()));
        let built = AddressAllocator::with_held(0, size, &held).unwrap();
        built == AddressAllocator::try_with_held(0, size, &held).unwrap()
    },
    |[one, _], _| {
        let free = items(one.gaps());
        let built = AddressAllocator::with_free(&free).unwrap();
        built == AddressAllocator::try_with_free(&free).unwrap()
    },
    |[one, _], _| {
        let names = one.held_ranges().map(|range| (range, "bar"));
        let layout = one.layout().try_named(names).unwrap();
        let text = layout.to_string();
        text.len() > format!("{one:?}").len() / 4 && layout.svg().len() > text.len()
    },
    |[one, _], _| {
        let requests = vec![Constraint::new(1, 1, FirstMatch).unwrap(); one.gap_count() as usize];
        let allocated = one.allocate_all(&requests).unwrap();
        allocated.iter().all(|range| one.free(range).is_ok())
    },
    |[one, _], _| {
        // The last request fails, and the ranges before it are freed again.
        let too_many = one.gap_count() as usize + 1;
        let requests = vec![Constraint::new(1, 1, LastMatch).unwrap(); too_many];
        one.allocate_all(&requests).is_err()
    },
];

/// The ids below the last three are allocated.
const OF_IDS: [Calls<IdAllocator>; 6] = [
    |ids, at| ids.is_allocated(at as u32) && ids.peek_id().is_ok(),
    |ids, _| ids.held_count() > ids.free_count() && ids.range_base() < ids.range_end(),
    |ids, _| has_ends(ids.held_ids(), is_counted),
    |ids, at| {
        let (at, count) = (at as usize, ids.held_count() as usize);
        ids.iter().nth(at) == ids.iter().nth_back(count - 1 - at)
            && ids.iter().skip(at).step_by(count).next().is_some()
            && ids.iter().nth(count).is_none()
    },
    |ids, _| {
        ids.iter().count() as u64 == ids.held_count()
            && ids.iter().last() == ids.iter().max()
            && ids.iter().min() == ids.iter().next()
    },
    |ids, _| {
        let last = ids.range_end();
        let allocated = [
            ids.allocate_id(),
            ids.allocate_exact(last - 1),
            ids.allocate_in(..=last),
        ];
        allocated.map(|id| ids.free_id(id.unwrap()).is_ok()) == [true; 3]
    },
];

/// Every second id is allocated.
const OF_FREED_IDS: [Calls<IdAllocator>; 3] = [
    |ids, at| ids.held_count() > at / 2 && ids.free_count() > at / 2 && ids.peek_id().is_ok(),
    |ids, at| {
        ids.is_allocated(at as u32)
            && !ids.is_allocated(at as u32 + 1)
            && has_ends(ids.held_ids(), is_counted)
            && has_ends(ids.held_ids_in(at as u32..), |items| {
                items.size_hint().0 < 9
            })
    },
    |ids, at| {
        let at = at as u32;
        let allocated = [
            ids.allocate_exact(at + 1),
            ids.allocate_in(at..at + 5),
            ids.try_allocate_exact(at + 5).map_err(|_| Error::Overflow),
            ids.try_allocate_in(at..at + 9).map_err(|_| Error::Overflow),
            ids.allocate_id(),
            ids.allocate_ids(1).map(|ids| ids[0]),
        ];
        allocated.map(|id| ids.try_free_id(id.unwrap()).is_ok()) == [true; 6]
    },
];

/// Every second id below the middle is allocated, and each id above it, except for the last ten.
const OF_WINDOWS: [Calls<IdAllocator>; 1] = [|ids, at| {
    let last = ids.range_end();
    let allocated = [
        ids.allocate_in(last / 2..),
        ids.allocate_in(last / 2..=last),
        ids.allocate_in(at as u32..),
        ids.try_allocate_in(last / 2..).map_err(|_| Error::Overflow),
    ];
    let full = ids.allocate_in(last / 2..last - 9).is_err();
    full && allocated.map(|id| ids.free_id(id.unwrap()).is_ok()) == [true; 4]
}];

/// Every second id is allocated. Each call has a list of the allocated ids, or of half as many.
const OF_LISTS: [Calls<IdAllocator>; 5] = [
    |ids, _| {
        let held = items(ids.held_ids());
        IdAllocator::with_held(0, ids.range_end(), &held).as_ref() == Ok(&*ids)
            && IdAllocator::try_with_held(0, ids.range_end(), &held).as_ref() == Ok(&*ids)
    },
    |ids, _| ids.clone() == ids.try_clone().unwrap(),
    |ids, _| ids.held_ids().rev().count() == ids.iter().count(),
    |ids, _| {
        let last = ids.range_end();
        let mut new = [(); 2].map(|()| IdAllocator::new(0, last).unwrap());
        new[0].allocate_exact(last) == new[1].allocate_in(last..)
    },
    |ids, _| {
        let allocated = ids.allocate_ids(ids.held_count() as usize / 2).unwrap();
        allocated.into_iter().all(|id| ids.free_id(id).is_ok())
    },
];

/// Each device has two addresses, and two are free.
const OF_DEVICES: [Calls<DeviceManager>; 8] = [
    |devices, at| devices.slot(at as u32).is_some() && devices.device_at(2 * at).is_some(),
    |devices, at| devices.device_count() > at && devices.conflict(exact(2 * at)).is_some(),
    |devices, at| devices.space().contains_address(at),
    |devices, at| {
        has_ends(devices.devices(), is_counted)
            && has_ends(devices.devices_in(at as u32..), |items| {
                items.size_hint().0 < 9
            })
    },
    |devices, _| {
        let reserved = [
            devices.reserve(1, 1, FirstMatch),
            devices.reserve_constraint(Constraint::new(1, 1, LastMatch).unwrap()),
        ];
        reserved.map(|device| devices.release(device.unwrap().id)) == [Ok(()); 2]
    },
    |devices, at| {
        let id = at as u32;
        let range = devices.slot(id).unwrap();
        let whole = Constraint::new(2, 1, LastMatch).unwrap().within(range);
        devices.try_release(id) == Ok(())
            && devices.try_reserve(3, 1, FirstMatch).is_err()
            && devices.try_reserve_constraint(whole.unwrap()) == Ok(DeviceSlot { id, range })
    },
    |devices, at| {
        let id = at as u32;
        let range = devices.slot(id).unwrap();
        let [half, whole] =
            [1, 2].map(|size| Constraint::new(size, 1, ExactMatch(range.start())).unwrap());
        devices.move_constraint(id, half).is_ok()
            && devices.move_constraint(id, whole) == Ok(range)
            && devices.release(id) == Ok(())
            && devices.reserve_with_id(IdRequest::Exact(id), whole) == Ok(DeviceSlot { id, range })
    },
    |devices, at| {
        let rest = devices.space().end() - 2 * at;
        let wide = Constraint::new(rest, 1, ExactMatch(2 * at)).unwrap();
        let window = from(2 * at + 1);
        devices.conflict(wide.within(window).unwrap()) == Some(Conflict::OutsideWindow(window))
            && devices.reserve_constraint(wide).is_err()
    },
];

/// Two equal managers. The calls go through all of their devices.
const OF_MANAGERS: [Calls<[DeviceManager; 2]>; 4] = [
    |[one, other], _| one == other && one.clone() == other.try_clone().unwrap(),
    |[one, _], _| one.devices().rev().count() == one.iter().count(),
    |[one, other], _| one.addresses() == other.addresses() && one.ids() == other.ids(),
    |[one, _], _| {
        let high_first = items(one.devices().rev());
        let released = high_first
            .iter()
            .all(|device| one.release(device.id) == Ok(()));
        let reserved = high_first
            .iter()
            .all(|_| one.reserve(2, 1, FirstMatch).is_ok());
        released && reserved
    },
];

/// Every second address is allocated, with itself as its value.
const OF_MAPS: [Calls<RangeMap<u64>>; 5] = [
    |map, at| map.get(at) == Some((one(at), &at)) && map.get_mut(at).is_some(),
    |map, at| {
        let (near, last) = (
            map.held_ranges_in(at..at + 2),
            map.held_ranges_in(..).next_back(),
        );
        near.eq([(one(at), &at)])
            && last.is_some()
            && map.conflict(exact(at)).is_some()
            && map.move_conflict(&one(at), exact(at + 1)).is_none()
            && map.gaps().next_back().is_some()
    },
    |map, at| map.held_count() > at / 2 && map.space().contains_address(at),
    |map, _| has_ends(map.iter(), is_counted),
    |map, at| {
        let moved = map.move_constraint(&one(at), exact(at + 1)).unwrap();
        let low = map.allocate(1, 1, FirstMatch, 7).unwrap();
        let high = map.allocate_constraint(exact(at + 3), 8).unwrap();
        map.free(&high) == Ok(8)
            && map.free(&low) == Ok(7)
            && map.move_constraint(&moved, exact(at)) == Ok(one(at))
    },
];

/// Two equal maps. The calls go through all of their ranges.
const OF_PAIRS_OF_MAPS: [Calls<[RangeMap<u64>; 2]>; 4] = [
    |[one, other], _| one == other && one.clone() == other.try_clone().unwrap(),
    |[one, _], _| one.iter().rev().count() as u64 == one.held_count(),
    |[one, _], _| {
        let list = one.iter().map(|(range, value)| (range, *value)).collect();
        let space = one.space();
        RangeMap::with_held(space.start(), space.len(), list).as_ref() == Ok(&*one)
    },
    |[one, _], _| {
        let ranges = one.iter();
        let list = ranges
            .map(|(range, value)| (exact(range.start()), *value))
            .collect();
        let space = one.space();
        let mut made = RangeMap::try_new(space.start(), space.len()).unwrap();
        made.allocate_all(list).is_ok() && made == *one
    },
];

#[cfg(feature = "serde")]
type Objects = (AddressAllocator, IdAllocator, DeviceManager, RangeMap<u64>);

/// Writes and reads objects of each kind.
#[cfg(feature = "serde")]
const OF_SAVED: [Calls<Objects>; 6] = [
    |(space, ..), _| is_read_again(space) && is_read_again(&Strict::from(space.clone())),
    |(_, ids, ..), _| is_read_again(ids),
    |(_, _, devices, _), _| is_read_again(devices),
    |(.., map), _| is_read_again(map),
    |(space, _, devices, _), _| {
        let views = (space.try_saved().unwrap(), devices.try_saved().unwrap());
        let bytes = [packed::to_bytes(&views.0), packed::to_bytes(&views.1)];
        bytes.map(Result::unwrap)
            == [packed::to_bytes(space), packed::to_bytes(devices)].map(Result::unwrap)
    },
    // The device with the highest id is read first.
    |(_, _, devices, _), _| {
        let (mut high, last) = (devices.clone(), devices.device_count() as u32 - 1);
        let released = (0..last).all(|id| high.release(id) == Ok(()));
        let bytes = packed::to_bytes(&high).unwrap();
        let mut read: DeviceManager = packed::from_bytes(bytes).unwrap();
        released && (0..last).all(|_| read.reserve(2, 1, FirstMatch).is_ok()) && read == *devices
    },
];

#[cfg(feature = "serde")]
fn is_read_again<T: serde::Serialize + serde::de::DeserializeOwned + PartialEq>(
    object: &T,
) -> bool {
    packed::from_bytes::<T>(packed::to_bytes(object).unwrap()).unwrap() == *object
}

fn one(at: u64) -> RangeInclusive {
    RangeInclusive::new(at, at).unwrap()
}

fn from(at: u64) -> RangeInclusive {
    RangeInclusive::new(at, at + 8).unwrap()
}

fn exact(at: u64) -> Constraint {
    Constraint::new(1, 1, ExactMatch(at)).unwrap()
}

fn items<T>(all: impl Iterator<Item = T>) -> Vec<T> {
    all.collect()
}

/// Returns whether an iterator passes a check, and has a first and a last item.
fn has_ends<I: DoubleEndedIterator + Clone>(mut items: I, check: fn(&I) -> bool) -> bool {
    check(&items)
        && items.clone().last().is_some()
        && items.next().is_some()
        && items.next_back().is_some()
}

/// Returns whether an iterator has several items, by its length and its count.
fn is_counted<I: ExactSizeIterator + Clone>(items: &I) -> bool {
    items.len() > 2 && items.clone().count() == items.len()
}

/// Compares the shortest times of each row in two objects, at many items.
fn expect_quick<O>(make: impl Fn(u64) -> O, rows: &[Calls<O>], distance: u64) {
    expect_growth(LIMIT, ([5; 2], 50), make, rows, distance);
}

/// Does the same for calls that go through all items, once in the second object.
fn expect_linear<O>(make: impl Fn(u64) -> O, rows: &[Calls<O>]) {
    expect_growth(LINEAR_LIMIT, ([5, 1], 1), make, rows, 2);
}

fn expect_growth<O>(
    limit: u64,
    (rounds, calls_of_row): ([usize; 2], u64),
    make: impl Fn(u64) -> O,
    rows: &[Calls<O>],
    distance: u64,
) {
    let mut objects = COUNTS.map(make);
    for (number, calls) in rows.iter().enumerate() {
        let times = [0, 1].map(|place| {
            let round = |_| {
                let begun = processor_time();
                for at in (0..calls_of_row).map(|at| distance * (at * 7919 % (COUNTS[place] - 4))) {
                    assert!(calls(&mut objects[place], at), "row {number}");
                }
                processor_time() - begun
            };
            (0..rounds[place]).map(round).min().unwrap()
        });
        assert!(times[1] < limit * times[0], "row {number}: {times:?}");
    }
}

/// Returns a space with every second address allocated.
fn space(count: u64) -> AddressAllocator {
    let held = items((0..count).map(|at| one(2 * at)));
    AddressAllocator::with_held(0, 2 * count, &held).unwrap()
}

/// Returns ids with every second id allocated.
fn freed(count: u64) -> IdAllocator {
    let held = items((0..count as u32).map(|at| 2 * at));
    IdAllocator::with_held(0, 2 * count as u32 + 9, &held).unwrap()
}

/// Returns a manager with two free addresses after its devices.
fn devices(count: u64) -> DeviceManager {
    let mut devices = DeviceManager::new(0, u32::MAX, 0, 2 * count + 2).unwrap();
    let mut reserve = |_| devices.reserve(2, 1, FirstMatch).is_ok();
    assert!((0..count).all(&mut reserve));
    devices
}

/// Returns a map with every second address allocated.
fn map(count: u64) -> RangeMap<u64> {
    let mut map = RangeMap::new(0, 2 * count).unwrap();
    let mut allocate = |at| map.allocate_constraint(exact(at), at).is_ok();
    assert!((0..count).all(|number| allocate(2 * number)));
    map
}

// src/lib.rs: "Let k be the number of allocated ranges. Allocating, moving and freeing a range takes
// time of the order of log k, and so do `peek`, `conflict`, `move_conflict`, `holds`, `held_at` and
// `gap_at`.
// An alignment can make the search for a range visit more gaps. A walk within a range takes time of
// the order of log k, plus the number of ranges and gaps in it. Calls on one id, device or range of a
// map take logarithmic time, also if they skip ids. An allocation in a map can also move its values, in
// linear time. Counts, ends and `longest_gap` take constant time."
#[test]
fn calls_do_not_go_through_all_items() {
    expect_quick(space, &OF_SPACES, 2);
    let pair = |count| {
        let mut spaces = [count; 2].map(space);
        spaces[1].free(&one(0)).unwrap();
        spaces
    };
    expect_quick(pair, &OF_PAIRS, 2);
    let ids = |count| {
        let held = items(0..count as u32);
        IdAllocator::with_held(0, count as u32 + 2, &held).unwrap()
    };
    expect_quick(ids, &OF_IDS, 1);
    expect_quick(freed, &OF_FREED_IDS, 2);
    let in_windows = |count| {
        let (middle, end) = (count as u32, 2 * count as u32);
        let held = items((0..middle).step_by(2).chain(middle..end - 9));
        IdAllocator::with_held(0, end, &held).unwrap()
    };
    expect_quick(in_windows, &OF_WINDOWS, 1);
    expect_quick(devices, &OF_DEVICES, 1);
    expect_quick(map, &OF_MAPS, 2);
}

// src/lib.rs: "Other calls of allocators, managers and maps take at most linear time."
#[test]
fn calls_go_through_all_items_once() {
    expect_linear(|count| [count; 2].map(space), &OF_WALKS);
    expect_linear(freed, &OF_LISTS);
    expect_linear(|count| [count; 2].map(devices), &OF_MANAGERS);
    expect_linear(|count| [count; 2].map(map), &OF_PAIRS_OF_MAPS);
    #[cfg(feature = "serde")]
    expect_linear(
        |count| (space(count), freed(count), devices(count), map(count)),
        &OF_SAVED,
    );
}
