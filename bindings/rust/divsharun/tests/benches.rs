// SPDX-License-Identifier: Apache-2.0 OR BSD-3-Clause
//! Guards against a benchmark that measures another call, another round or another cache than it names. A library
//! that does nothing counts the calls, and one call takes a known time.

mod refusing;
#[allow(dead_code, unused_imports, unused_macros)]
#[path = "../benches/workload/mod.rs"]
mod workload;

use refusing::{peak_of, refusing};
use std::cell::Cell;
use std::time::{Duration, Instant};
use workload::{Answer, Cache, Call, Devices, Library, Place};

/// The rounds of a measurement, and the calls of each in a round.
const ROUNDS: u64 = 3;
const CALLS: u64 = 100;

thread_local! {
    /// The call that takes time, and how often each call was made.
    static SLOW: Cell<Option<Call>> = const { Cell::new(None) };
    static COUNTS: Cell<[u64; 6]> = const { Cell::new([0; 6]) };
}

/// Counts a call. The slow one takes 5, 20 and 40 microseconds in the three rounds.
fn count(call: Call) -> u64 {
    let mut counts = COUNTS.get();
    let before = counts[call as usize];
    counts[call as usize] += 1;
    COUNTS.set(counts);
    before
}

fn make(call: Call, calls_of_round: u64) -> Answer {
    let round = (count(call) / calls_of_round).min(ROUNDS - 1) as usize;
    let begun = Instant::now();
    let long = Duration::from_micros([5, 20, 40][round]);
    while SLOW.get() == Some(call) && begun.elapsed() < long {}
    Ok((0, 0))
}

struct Idle;

impl Library for Idle {
    type Space = ();
    type Ids = ();

    fn space(_base: u64, _size: u64) {}

    fn allocate(_space: &mut (), _size: u64, _alignment: u64, place: Place) -> Answer {
        match place {
            Place::First => make(Call::First, CALLS),
            Place::Last => make(Call::Last, CALLS),
            // The ranges of a space are allocated first, and again before each round.
            Place::Exact(_) => make(Call::Exact, 2 * CALLS),
        }
    }

    fn free(_space: &mut (), _range: (u64, u64)) -> Answer {
        make(Call::Free, 2 * CALLS)
    }

    fn ids(_base: u32, _end: u32) {}

    fn allocate_id(_ids: &mut ()) -> Answer {
        make(Call::AllocateId, 2 * CALLS)
    }

    fn free_id(_ids: &mut (), _id: u32) -> Answer {
        make(Call::FreeId, 2 * CALLS)
    }
}

/// Returns how often a measurement makes each call.
fn counts_of(call: Call, cache: Cache) -> [u64; 6] {
    COUNTS.set([0; 6]);
    let measured = Devices::new(10).measure::<Idle>(call, cache, ROUNDS);
    assert_eq!(measured.answers.len() as u64, 2 * ROUNDS * CALLS);
    COUNTS.get()
}

#[test]
fn the_measured_call_is_the_one_that_takes_time() {
    for call in Call::ALL {
        SLOW.set(Some(call));
        COUNTS.set([0; 6]);
        let measured = Devices::new(10).measure::<Idle>(call, Cache::Warm, ROUNDS);
        // The median of the rounds, not the fastest one.
        assert!(measured.nanoseconds >= 19_000.0, "{call}");
        SLOW.set(None);
    }
}

#[test]
fn a_warm_cache_needs_more_calls() {
    for call in [Call::Free, Call::FreeId] {
        let index = call as usize;
        let [warm, cold] = Cache::ALL.map(|cache| counts_of(call, cache)[index]);
        assert_eq!([warm, cold], [2 * ROUNDS * CALLS, ROUNDS * CALLS]);
    }
    assert_eq!(counts_of(Call::First, Cache::Cold)[1], ROUNDS * CALLS);
    assert_eq!(counts_of(Call::Last, Cache::Cold)[2], ROUNDS * CALLS);
}

#[test]
fn other_memory_is_read_before_each_cold_call() {
    for call in [Call::Free, Call::FreeId] {
        let measure = |cache| {
            Devices::new(10).measure::<Idle>(call, cache, ROUNDS);
        };
        let [warm, cold] = Cache::ALL.map(|cache| peak_of(|| refusing(0, || measure(cache)).1));
        // Before the ranges or ids of a round are freed, and before they are allocated.
        assert_eq!(cold.0 - warm.0, 2 * ROUNDS, "{call}");
        assert!(cold.1 >= 128 << 20 && warm.1 < 1 << 20, "{call}");
    }
}
