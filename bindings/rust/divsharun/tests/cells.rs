// SPDX-License-Identifier: Apache-2.0 OR BSD-3-Clause
//! Guards against a wrong result in a long run on a small space, through calls and through lines of the replay
//! program. Each result is compared with a search through all 64 addresses.

use divsharun::AllocPolicy::{ExactMatch, FirstMatch, LastMatch};
use divsharun::{AddressAllocator, AllocPolicy, Error, NodeState, RangeInclusive, Result};

const WIDTH: u64 = 64;

/// The number of calls.
const CALLS: usize = 20_000;

/// Numbers of which each decides the next one.
struct Numbers(u64);

impl Numbers {
    fn next(&mut self) -> u64 {
        self.0 = (75 * self.0 + 74) % 65_537;
        self.0
    }
}

#[derive(Clone, Copy, Debug)]
enum Call {
    /// Allocates a size with an alignment.
    Allocate(u64, u64, AllocPolicy),
    Free(RangeInclusive),
}

/// The allocated ranges, in order.
#[derive(Default)]
struct Cells {
    held: Vec<RangeInclusive>,
}

impl Cells {
    /// Returns `true` if the addresses are in the space and free.
    fn are_free(&self, start: u64, size: u64) -> bool {
        let is_free = |at| !self.held.iter().any(|range| range.contains_address(at));
        (start..start + size).all(|at| at < WIDTH && is_free(at))
    }

    fn chosen(&self, size: u64, align: u64, policy: AllocPolicy) -> Result<u64> {
        let fits = |start: &u64| start % align == 0 && self.are_free(*start, size);
        let chosen = match policy {
            FirstMatch => (0..WIDTH).find(fits),
            LastMatch => (0..WIDTH).rev().find(fits),
            ExactMatch(start) => {
                if start % align != 0 {
                    return Err(Error::UnalignedAddress);
                }
                let range = range(start, size);
                if self.held.contains(&range) {
                    return Err(Error::InvalidStateTransition(range, NodeState::Allocated));
                }
                Some(start).filter(fits)
            }
        };
        chosen.ok_or(Error::ResourceNotAvailable)
    }

    /// Returns the result of a call: the range that is allocated or freed, or an error.
    fn answer(&mut self, call: Call) -> Result<RangeInclusive> {
        match call {
            Call::Allocate(size, align, policy) => {
                let range = range(self.chosen(size, align, policy)?, size);
                self.held.push(range);
                self.held.sort();
                Ok(range)
            }
            Call::Free(range) => {
                let held = self.held.iter().position(|held| *held == range);
                let number = held.ok_or(Error::ResourceNotAvailable)?;
                Ok(self.held.remove(number))
            }
        }
    }

    /// Returns the call of three numbers.
    fn call(&self, [kind, second, third]: [u64; 3]) -> Call {
        let (size, align) = (second % 8 + 1, 1 << (third % 4));
        match kind % 4 {
            0 => Call::Allocate(size, align, FirstMatch),
            1 => Call::Allocate(size, align, LastMatch),
            2 => Call::Allocate(size, align, ExactMatch(third / 4 % WIDTH)),
            _ if self.held.is_empty() => Call::Free(range(0, 1)),
            _ => Call::Free(self.held[second as usize % self.held.len()]),
        }
    }
}

fn range(start: u64, size: u64) -> RangeInclusive {
    RangeInclusive::from_start_len(start, size).unwrap()
}

/// Makes all calls on the cells. After each call, `check` gets the number of calls, the call, its result and the
/// cells.
fn run_all(mut check: impl FnMut(usize, Call, Result<RangeInclusive>, &Cells)) {
    let (mut numbers, mut cells) = (Numbers(1), Cells::default());
    for number in 1..=CALLS {
        let call = cells.call([(); 3].map(|()| numbers.next()));
        let want = cells.answer(call);
        check(number, call, want, &cells);
    }
}

/// Returns a new allocator, in which these ranges are allocated at their starts.
fn rebuilt(held: &[RangeInclusive]) -> AddressAllocator {
    let mut space = AddressAllocator::new(0, WIDTH).unwrap();
    for range in held {
        let answer = space.allocate(range.len(), 1, ExactMatch(range.start()));
        assert_eq!(answer, Ok(*range));
    }
    space
}

#[test]
fn calls_are_those_of_a_search_through_all_addresses() {
    let mut space = AddressAllocator::new(0, WIDTH).unwrap();
    let mut kinds = [0; 5];
    run_all(|number, call, want, cells| {
        let (kind, answer) = match call {
            Call::Allocate(size, align, policy) => (0, space.allocate(size, align, policy)),
            Call::Free(range) => (1, space.free(&range).map(|()| range)),
        };
        assert_eq!(answer, want, "call {number}: {call:?}");
        let error = match want {
            Ok(_) => kind,
            Err(Error::ResourceNotAvailable) => 2,
            Err(Error::UnalignedAddress) => 3,
            Err(_) => 4,
        };
        kinds[error] += 1;
        if number % 100 == 0 {
            assert_eq!(space, rebuilt(&cells.held), "call {number}");
        }
    });
    assert!(kinds.iter().all(|count| *count > 0), "{kinds:?}");
}

/// Returns the line of a call.
#[cfg(feature = "std")]
fn line_of(call: Call) -> String {
    match call {
        Call::Allocate(size, align, FirstMatch) => format!("first {size} {align}\n"),
        Call::Allocate(size, align, LastMatch) => format!("last {size} {align}\n"),
        Call::Allocate(size, align, ExactMatch(start)) => format!("exact {size} {align} {start}\n"),
        Call::Free(range) => format!("free {} {}\n", range.start(), range.end()),
    }
}

/// Returns the line of a result.
#[cfg(feature = "std")]
fn result_of(call: Call, answer: Result<RangeInclusive>) -> String {
    match (call, answer) {
        (Call::Free(_), Ok(_)) => "done\n".into(),
        (_, Ok(range)) => format!("range {} {}\n", range.start(), range.end()),
        (_, Err(Error::InvalidStateTransition(range, _))) => {
            format!("error state {} {}\n", range.start(), range.end())
        }
        (_, Err(Error::UnalignedAddress)) => "error unaligned\n".into(),
        (_, Err(_)) => "error not-available\n".into(),
    }
}

#[cfg(feature = "std")]
#[test]
fn lines_are_those_of_a_search_through_all_addresses() {
    let (mut input, mut output) = (format!("space 0 {WIDTH}\n"), String::from("done\n"));
    run_all(|_, call, want, _| {
        input += &line_of(call);
        output += &result_of(call, want);
    });
    let mut written = Vec::new();
    let result = divsharun::replay::run(input.as_bytes(), &mut written);
    assert_eq!(result, Ok(()));
    assert!(String::from_utf8(written).unwrap() == output);
}
