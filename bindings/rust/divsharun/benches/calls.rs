// SPDX-License-Identifier: Apache-2.0 OR BSD-3-Clause
//! Prints nanoseconds per call for 10 to 10^5 allocated ranges or ids, with a warm and with a cold
//! cache, by `cargo bench`. Without `--bench`, as in `cargo test`, it runs one short round. The environment
//! variable `BENCH_ROUNDS` is the number of the other rounds.

mod workload;

use divsharun::{AddressAllocator, AllocPolicy, IdAllocator, RangeInclusive};
use std::hint::black_box;
use std::iter::repeat_with;
use std::time::{Duration, Instant};
use workload::{library, median, Cache, Call, Devices, Draw};

library!(Divsharun, divsharun);

fn main() {
    let is_short = !std::env::args().any(|argument| argument == "--bench");
    let all = std::env::var("BENCH_ROUNDS").map_or(11, |rounds| rounds.parse().expect("a number"));
    let (counts, rounds): (&[u64], u64) = match is_short {
        true => (&[1_000], 1),
        false => (&[10, 100, 1_000, 10_000, 100_000], all),
    };
    let heads: Vec<String> = counts
        .iter()
        .map(|count| format!("{count} ranges"))
        .collect();
    println!("| call | {} |", heads.join(" | "));
    println!("|---{}|", "|---".repeat(counts.len()));
    let devices: Vec<Devices> = counts.iter().map(|count| Devices::new(*count)).collect();
    for (call, cache) in Call::ALL
        .into_iter()
        .flat_map(|call| Cache::ALL.map(|cache| (call, cache)))
    {
        let times: Vec<String> = devices
            .iter()
            .map(|devices| devices.measure::<Divsharun>(call, cache, rounds))
            .inspect(|measured| assert!(measured.answers.iter().all(Result::is_ok)))
            .map(|measured| format!("{:.0} ns", measured.nanoseconds))
            .collect();
        println!("| {call}, {cache:?} | {} |", times.join(" | "));
    }
    let print = |name: &str, time: &dyn Fn(u64) -> f64| {
        let times: Vec<String> = counts
            .iter()
            .map(|count| format!("{:.1} ns", time(*count)))
            .collect();
        println!("| {name} | {} |", times.join(" | "));
    };
    for (name, query) in QUERIES {
        print(name, &|count| time_of_query(count, rounds, query));
    }
    for (name, whole) in WHOLE {
        print(name, &|count| time_of_whole(count, rounds, whole));
    }
    for (name, to) in MOVES {
        print(name, &|count| time_of_move(count, rounds, to));
    }
    for (name, allocate) in ALLOCATIONS_OF_64 {
        print(name, &|count| time_of_64_ids(count, rounds, allocate));
    }
}

/// Returns the median of the times that `measure` returns in this number of rounds.
fn median_of(rounds: u64, measure: impl FnMut() -> f64) -> f64 {
    median(repeat_with(measure).take(rounds as usize).collect())
}

/// Makes a call. Returns its time and its result.
fn timed<T>(call: impl FnOnce() -> T) -> (Duration, T) {
    let start = Instant::now();
    let result = black_box(call());
    (start.elapsed(), result)
}

/// Returns a space with this number of pages allocated, and the pages. After each is a gap of this length
/// less a page.
fn pages(count: u64, distance: u64) -> (AddressAllocator, Vec<RangeInclusive>) {
    let held: Vec<_> = (0..count)
        .map(|number| page_at(distance * number))
        .collect();
    let space = AddressAllocator::with_held(0, distance * count, &held).expect("a space");
    (space, held)
}

fn page_at(start: u64) -> RangeInclusive {
    RangeInclusive::new(start, start + 0xfff).expect("a range")
}

/// Looks for the allocated range that a window meets.
type Query = fn(&AddressAllocator, &RangeInclusive) -> Option<RangeInclusive>;

const QUERIES: [(&str, Query); 2] = [
    ("first item of `held_ranges_in`", |space, window| {
        space.held_ranges_in(window).next()
    }),
    ("`held_at`", |space, window| space.held_at(window.start())),
];

/// Returns the median time of a query in nanoseconds, for this number of allocated ranges with gaps
/// between them. Each window meets one of them.
fn time_of_query(count: u64, rounds: u64, query: Query) -> f64 {
    let (space, _) = pages(count, 0x2000);
    let mut draw = Draw::from_seed(count);
    median_of(rounds, || {
        let windows: Vec<_> = (0..1000)
            .map(|_| page_at(0x2000 * draw.below(count) + 0x800))
            .collect();
        let (time, ()) = timed(|| {
            for window in &windows {
                assert!(black_box(query(&space, black_box(window))).is_some());
            }
        });
        time.as_nanos() as f64 / windows.len() as f64
    })
}

/// Makes a call that takes each range of a space, which has these ranges. Returns its time.
type Whole = fn(&AddressAllocator, &[RangeInclusive]) -> Duration;

const WHOLE: [(&str, Whole); 6] = [
    ("`with_held`, per range", |space, held| {
        let size = space.end() - space.base() + 1;
        timed(|| AddressAllocator::with_held(space.base(), size, held)).0
    }),
    ("`clone`, per range", |space, _| timed(|| space.clone()).0),
    ("drop, per range", |space, _| {
        let copy = space.clone();
        timed(|| drop(copy)).0
    }),
    ("`held_ranges`, per range", |space, _| {
        timed(|| space.held_ranges().map(|range| range.start()).sum::<u64>()).0
    }),
    ("`held_ranges` from the end, per range", |space, _| {
        let starts = space.held_ranges().rev().map(|range| range.start());
        timed(|| starts.sum::<u64>()).0
    }),
    ("`==`, per range", |space, _| {
        let copy = space.clone();
        let (time, is_equal) = timed(|| *space == copy);
        assert!(is_equal);
        time
    }),
];

/// Returns the median time of a call in nanoseconds for each of this number of allocated ranges, with gaps
/// between them.
fn time_of_whole(count: u64, rounds: u64, whole: Whole) -> f64 {
    let (space, held) = pages(count, 0x2000);
    median_of(rounds, || {
        whole(&space, &held).as_nanos() as f64 / count as f64
    })
}

/// Moves a range to another start.
type Move = fn(&mut AddressAllocator, &RangeInclusive, u64) -> divsharun::Result<RangeInclusive>;

const MOVES: [(&str, Move); 2] = [
    (
        "`allocate` by `ExactMatch`, then `free`",
        |space, range, start| {
            let moved = space.allocate(range.len(), 1, AllocPolicy::ExactMatch(start))?;
            space.free(range)?;
            Ok(moved)
        },
    ),
    ("`move_range`", AddressAllocator::move_range),
];

/// Returns the median time of a move in nanoseconds, for this number of allocated ranges with gaps
/// between them. A range moves to the other half of its gap.
fn time_of_move(count: u64, rounds: u64, to: Move) -> f64 {
    let (mut space, mut held) = pages(count, 0x4000);
    let mut draw = Draw::from_seed(count);
    median_of(rounds, || {
        let chosen: Vec<_> = (0..1000).map(|_| draw.below(count) as usize).collect();
        let (time, ()) = timed(|| {
            for number in &chosen {
                let range = &mut held[*number];
                *range = to(&mut space, range, range.start() ^ 0x2000).expect("a free place");
            }
        });
        time.as_nanos() as f64 / chosen.len() as f64
    })
}

/// Allocates 64 ids.
type Allocate = fn(&mut IdAllocator) -> Vec<u32>;

const ALLOCATIONS_OF_64: [(&str, Allocate); 2] = [
    ("64 calls of `allocate_id`", |ids| {
        let mut list = Vec::with_capacity(64);
        list.extend((0..64).map(|_| ids.allocate_id().expect("an id is free")));
        list
    }),
    ("`allocate_ids` of 64 ids", |ids| {
        ids.allocate_ids(64).expect("ids are free")
    }),
];

/// Returns the median time of allocating 64 of the freed ids while this number of ids is allocated, in
/// nanoseconds. Every second id is freed.
fn time_of_64_ids(count: u64, rounds: u64, allocate: Allocate) -> f64 {
    let held: Vec<u32> = (0..count as u32).map(|number| 2 * number + 1).collect();
    let mut ids = IdAllocator::with_held(0, u32::MAX, &held).expect("ids in order");
    median_of(rounds, || {
        let (time, list) = timed(|| allocate(&mut ids));
        assert_eq!(list.len(), 64);
        for id in list {
            ids.free_id(id).expect("the id is allocated");
        }
        time.as_nanos() as f64
    })
}
