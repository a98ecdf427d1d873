// SPDX-License-Identifier: Apache-2.0 OR BSD-3-Clause
//! Measures a library that allocates ranges and ids: the time of a call while many are allocated.
//!
//! Every library gets the same calls. Their results are kept, so that two libraries can be
//! compared.

use std::fmt;
use std::hint::black_box;
use std::time::Instant;

/// The policy of a request.
#[derive(Clone, Copy, Debug)]
pub enum Place {
    First,
    Last,
    Exact(u64),
}

/// The result of a call: the ends of a range, or the text of an error.
pub type Answer = Result<(u64, u64), String>;

/// A measured library.
pub trait Library {
    type Space: Clone;
    type Ids: Clone;

    fn space(base: u64, size: u64) -> Self::Space;
    fn allocate(space: &mut Self::Space, size: u64, alignment: u64, place: Place) -> Answer;
    fn free(space: &mut Self::Space, range: (u64, u64)) -> Answer;
    fn ids(base: u32, end: u32) -> Self::Ids;
    fn allocate_id(ids: &mut Self::Ids) -> Answer;
    fn free_id(ids: &mut Self::Ids, id: u32) -> Answer;
}

/// Implements [`Library`] for a crate with the names of `vm-allocator`.
macro_rules! library {
    ($name:ident, $library:ident) => {
        pub struct $name;

        impl $crate::workload::Library for $name {
            type Space = $library::AddressAllocator;
            type Ids = $library::IdAllocator;

            fn space(base: u64, size: u64) -> Self::Space {
                $library::AddressAllocator::new(base, size).expect("a space")
            }

            fn allocate(
                space: &mut Self::Space,
                size: u64,
                alignment: u64,
                place: $crate::workload::Place,
            ) -> $crate::workload::Answer {
                let policy = match place {
                    $crate::workload::Place::First => $library::AllocPolicy::FirstMatch,
                    $crate::workload::Place::Last => $library::AllocPolicy::LastMatch,
                    $crate::workload::Place::Exact(at) => $library::AllocPolicy::ExactMatch(at),
                };
                match space.allocate(size, alignment, policy) {
                    Ok(range) => Ok((range.start(), range.end())),
                    Err(error) => Err(error.to_string()),
                }
            }

            fn free(space: &mut Self::Space, range: (u64, u64)) -> $crate::workload::Answer {
                let key = $library::RangeInclusive::new(range.0, range.1).expect("a range");
                match space.free(&key) {
                    Ok(()) => Ok(range),
                    Err(error) => Err(error.to_string()),
                }
            }

            fn ids(base: u32, end: u32) -> Self::Ids {
                $library::IdAllocator::new(base, end).expect("ids")
            }

            fn allocate_id(ids: &mut Self::Ids) -> $crate::workload::Answer {
                match ids.allocate_id() {
                    Ok(id) => Ok((id.into(), id.into())),
                    Err(error) => Err(error.to_string()),
                }
            }

            fn free_id(ids: &mut Self::Ids, id: u32) -> $crate::workload::Answer {
                match ids.free_id(id) {
                    Ok(id) => Ok((id.into(), id.into())),
                    Err(error) => Err(error.to_string()),
                }
            }
        }
    };
}
pub(crate) use library;

/// Pseudo-random numbers from a seed.
pub struct Draw(u64);

impl Draw {
    pub fn from_seed(seed: u64) -> Self {
        Draw(seed.wrapping_mul(0x9e37_79b9_7f4a_7c15) | 1)
    }

    /// Returns a number less than `bound`.
    pub fn below(&mut self, bound: u64) -> u64 {
        self.0 ^= self.0 << 13;
        self.0 ^= self.0 >> 7;
        self.0 ^= self.0 << 17;
        (self.0 >> 11) % bound
    }

    /// Shuffles the items.
    pub fn shuffle<T>(&mut self, items: &mut [T]) {
        for last in (1..items.len()).rev() {
            items.swap(last, self.below(last as u64 + 1) as usize);
        }
    }
}

/// A measured call.
#[derive(Clone, Copy, Debug, PartialEq, Eq)]
pub enum Call {
    Exact,
    First,
    Last,
    Free,
    AllocateId,
    FreeId,
}

impl Call {
    pub const ALL: [Call; 6] = [
        Call::Exact,
        Call::First,
        Call::Last,
        Call::Free,
        Call::AllocateId,
        Call::FreeId,
    ];
}

impl fmt::Display for Call {
    fn fmt(&self, f: &mut fmt::Formatter<'_>) -> fmt::Result {
        f.write_str(match self {
            Call::Exact => "`allocate`, `ExactMatch`",
            Call::First => "`allocate`, `FirstMatch`",
            Call::Last => "`allocate`, `LastMatch`",
            Call::Free => "`free`",
            Call::AllocateId => "`allocate_id`",
            Call::FreeId => "`free_id`",
        })
    }
}

/// Whether the measured data is in the cache of the processor before the first measured call.
#[derive(Clone, Copy, Debug, PartialEq, Eq)]
pub enum Cache {
    /// The same ranges were freed and allocated right before.
    Warm,
    /// More memory than the cache holds was read right before.
    Cold,
}

impl Cache {
    pub const ALL: [Cache; 2] = [Cache::Warm, Cache::Cold];
}

/// Reads more memory than the cache of a processor holds.
fn empty_cache() {
    let memory = vec![1u8; 128 << 20];
    black_box(
        memory
            .iter()
            .step_by(64)
            .map(|byte| u64::from(*byte))
            .sum::<u64>(),
    );
}

/// The measurement of a call.
pub struct Measured {
    /// The median time of a call, in nanoseconds.
    pub nanoseconds: f64,
    /// The results of all rounds.
    pub answers: Vec<Answer>,
}

/// Devices of 4 KiB to 32 KiB, each at the next multiple of its size, in a space that ends with the
/// last device.
pub struct Devices {
    end: u64,
    ranges: Vec<(u64, u64)>,
    // The devices that are freed and allocated again, in another order each time.
    moved: Vec<(u64, u64)>,
}

/// The first address of the space.
const BASE: u64 = 1 << 40;

impl Devices {
    /// Creates this number of devices. A tenth of them moves, at most a thousand.
    pub fn new(count: u64) -> Self {
        let mut draw = Draw::from_seed(count);
        let mut next = BASE;
        let mut ranges: Vec<(u64, u64)> = (0..count)
            .map(|_| {
                let size = 4096 << draw.below(4);
                let start = next.next_multiple_of(size);
                next = start + size;
                (start, next - 1)
            })
            .collect();
        draw.shuffle(&mut ranges);
        let moved = ranges[..(count as usize / 10).clamp(1, 1000)].to_vec();
        Devices {
            end: next,
            ranges,
            moved,
        }
    }

    /// Returns the number of devices. Only the comparison with other crates needs it.
    #[allow(dead_code)]
    pub fn count(&self) -> usize {
        self.ranges.len()
    }

    /// Returns the number of copies of a space on which a round makes the calls, so that it makes at least
    /// a hundred.
    fn copies(&self) -> usize {
        (100 / self.moved.len()).max(1)
    }

    /// Returns the items, once for each copy of a space, and in another order for each, because the
    /// branch predictor learns a short order that is repeated.
    fn on_copies<T: Copy>(&self, items: &[T], draw: &mut Draw) -> Vec<(usize, T)> {
        let mut items = items.to_vec();
        let mut all = Vec::new();
        for copy in 0..self.copies() {
            draw.shuffle(&mut items);
            all.extend(items.iter().map(|item| (copy, *item)));
        }
        all
    }

    /// Returns the space with all devices in it.
    pub fn full<L: Library>(&self) -> L::Space {
        let mut space = L::space(BASE, self.end - BASE);
        for range in &self.ranges {
            let size = size_of(range);
            L::allocate(&mut space, size, size, Place::Exact(range.0)).expect("it is clear");
        }
        space
    }

    /// Measures a call in this number of rounds.
    pub fn measure<L: Library>(&self, call: Call, cache: Cache, rounds: u64) -> Measured {
        match call {
            Call::AllocateId | Call::FreeId => self.measure_ids::<L>(call, cache, rounds),
            _ => self.measure_ranges::<L>(call, cache, rounds),
        }
    }

    /// Frees the moved ranges and allocates them again in each copy, or empties the cache.
    fn prepare<L: Library>(&self, spaces: &mut [L::Space], cache: Cache) {
        if cache == Cache::Cold {
            return empty_cache();
        }
        for space in spaces {
            for range in &self.moved {
                L::free(space, *range).expect("it is held");
            }
            for range in &self.moved {
                L::allocate(space, size_of(range), 1, Place::Exact(range.0)).expect("it is clear");
            }
        }
    }

    fn measure_ranges<L: Library>(&self, call: Call, cache: Cache, rounds: u64) -> Measured {
        let full = self.full::<L>();
        let mut timing = Timing::default();
        for round in 0..rounds {
            let mut draw = Draw::from_seed(round);
            let mut spaces = vec![full.clone(); self.copies()];
            self.prepare::<L>(&mut spaces, cache);
            let moved = self.on_copies(&self.moved, &mut draw);
            timing.of(call == Call::Free, &moved, |(copy, range)| {
                L::free(&mut spaces[*copy], *range)
            });
            // The ranges were freed right before, so the cache is warm.
            if cache == Cache::Cold {
                empty_cache();
            }
            let mut moved = self.on_copies(&self.moved, &mut draw);
            // The largest first in each copy, so that each one fits.
            moved.sort_by_key(|(copy, range)| (*copy, u64::MAX - size_of(range)));
            timing.of(call != Call::Free, &moved, |(copy, range)| {
                let place = match call {
                    Call::First => Place::First,
                    Call::Last => Place::Last,
                    _ => Place::Exact(range.0),
                };
                let size = size_of(range);
                L::allocate(&mut spaces[*copy], size, size, place)
            });
        }
        timing.done()
    }

    fn measure_ids<L: Library>(&self, call: Call, cache: Cache, rounds: u64) -> Measured {
        let count = self.ranges.len() as u32;
        let mut full = L::ids(0, count);
        for _ in 0..count {
            L::allocate_id(&mut full).expect("an id is left");
        }
        let mut timing = Timing::default();
        for round in 0..rounds {
            let mut draw = Draw::from_seed(round);
            let mut all_ids = vec![full.clone(); self.copies()];
            let mut drawn: Vec<u32> = (0..count).collect();
            draw.shuffle(&mut drawn);
            let moved = self.on_copies(&drawn[..self.moved.len()], &mut draw);
            if cache == Cache::Cold {
                empty_cache();
            } else {
                for (copy, id) in &moved {
                    drop(L::free_id(&mut all_ids[*copy], *id));
                }
                for (copy, _) in &moved {
                    drop(L::allocate_id(&mut all_ids[*copy]));
                }
            }
            timing.of(call == Call::FreeId, &moved, |(copy, id)| {
                L::free_id(&mut all_ids[*copy], *id)
            });
            if cache == Cache::Cold {
                empty_cache();
            }
            timing.of(call == Call::AllocateId, &moved, |(copy, _)| {
                L::allocate_id(&mut all_ids[*copy])
            });
        }
        timing.done()
    }
}

fn size_of(range: &(u64, u64)) -> u64 {
    range.1 - range.0 + 1
}

/// The times of the rounds, and the results.
#[derive(Default)]
struct Timing {
    rounds: Vec<f64>,
    answers: Vec<Answer>,
}

impl Timing {
    /// Makes a call for each item. Keeps the time if this call is the measured one.
    fn of<T>(&mut self, is_asked: bool, items: &[T], mut call: impl FnMut(&T) -> Answer) {
        // The memory of the results is written before, so that no page fault is measured.
        let earlier = self.answers.len();
        self.answers.resize(earlier + items.len(), Ok((0, 0)));
        self.answers.truncate(earlier);
        let start = Instant::now();
        for item in items {
            self.answers.push(call(black_box(item)));
        }
        let time = start.elapsed();
        if is_asked {
            self.rounds
                .push(time.as_nanos() as f64 / items.len() as f64);
        }
    }

    fn done(self) -> Measured {
        Measured {
            nanoseconds: median(self.rounds),
            answers: self.answers,
        }
    }
}

pub fn median(mut times: Vec<f64>) -> f64 {
    times.sort_by(f64::total_cmp);
    times[times.len() / 2]
}
