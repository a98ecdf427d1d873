// SPDX-License-Identifier: Apache-2.0 OR BSD-3-Clause
//! Finds the number in docs/DIFFERENCES.md of a difference between two results, or between the
//! blocks that they leave.

use crate::workload::{Answer, Place};
use divsharun::{AddressAllocator, Block, Error, NodeState, RangeInclusive};
use std::collections::BTreeMap;
use std::fmt;

/// A call on an address space.
#[derive(Clone, Copy, Debug)]
pub enum Request {
    Allocate {
        size: u64,
        alignment: u64,
        place: Place,
    },
    Free(u64, u64),
}

/// The number of comparisons, and the differences found.
#[derive(Default)]
pub struct Tally {
    pub calls: u64,
    pub crossings: u64,
    named: BTreeMap<u32, u64>,
    unnamed: u64,
}

impl Tally {
    pub fn named_difference(&mut self, number: u32) {
        *self.named.entry(number).or_default() += 1;
    }

    pub fn unnamed_difference(&mut self, what: &str) {
        println!("DIFFERENT: {what}");
        self.unnamed += 1;
    }

    pub fn unnamed(&self) -> u64 {
        self.unnamed
    }
}

impl fmt::Display for Tally {
    fn fmt(&self, f: &mut fmt::Formatter<'_>) -> fmt::Result {
        write!(
            f,
            "{} calls, {} saved objects read across; differences of docs/DIFFERENCES.md:",
            self.calls, self.crossings
        )?;
        for (number, times) in &self.named {
            write!(f, " no. {number} {times} times,")?;
        }
        write!(f, " others {}", self.unnamed)
    }
}

/// Returns the block of an address.
fn block_of(space: &AddressAllocator, address: u64) -> Option<(RangeInclusive, NodeState)> {
    let holds_address =
        |block: &Block| block.range.start() <= address && address <= block.range.end();
    let block = space
        .layout()
        .blocks()
        .find(holds_address)
        .map(|block| (block.range, block.state));
    block
}

/// Returns the number of the difference between the results of `vm-allocator` and of divsharun for
/// a call. `before` is the space before the call.
pub fn number_of(
    before: &AddressAllocator,
    request: &Request,
    rust: &Answer,
    port: &Answer,
) -> Option<u32> {
    match request {
        Request::Allocate {
            size,
            place: Place::Exact(start),
            ..
        } => exact(block_of(before, *start)?, *start, *size, rust, port),
        Request::Allocate {
            place: Place::Last, ..
        } => last(before, port),
        Request::Allocate { .. } => None,
        Request::Free(start, end) => {
            free(before, RangeInclusive::new(*start, *end).ok()?, rust, port)
        }
    }
}

fn exact(
    block: (RangeInclusive, NodeState),
    start: u64,
    size: u64,
    rust: &Answer,
    port: &Answer,
) -> Option<u32> {
    let (range, state) = block;
    let is_not_available = |answer: &Answer| is_error(answer, Error::ResourceNotAvailable);
    let is_held = Error::InvalidStateTransition(range, NodeState::Allocated);
    let is_last = start == range.end();
    if state == NodeState::Allocated && rust.is_ok() && is_not_available(port) {
        return Some(1);
    }
    if !is_last || !is_not_available(rust) {
        return None;
    }
    if port.is_ok() {
        Some(2)
    } else if range.len() == 1 && is_error(port, is_held) {
        Some(3)
    } else if start.checked_add(size - 1).is_none() && is_error(port, Error::Overflow) {
        Some(4)
    } else {
        None
    }
}

fn last(before: &AddressAllocator, port: &Answer) -> Option<u32> {
    let (start, end) = *port.as_ref().ok()?;
    let fills = start == 0 && block_of(before, 0)?.0.end() == end;
    fills.then_some(5)
}

fn free(
    before: &AddressAllocator,
    range: RangeInclusive,
    rust: &Answer,
    port: &Answer,
) -> Option<u32> {
    let (block, state) = block_of(before, range.start())?;
    let is_gap = state == NodeState::Free && block == range;
    let starts_at_one = range.start() == 1 && is_error(rust, Error::Underflow);
    let ends_at_last_but_one = range.end() == u64::MAX - 1 && is_error(rust, Error::Overflow);
    let is_removed = rust.is_ok() || starts_at_one || ends_at_last_but_one;
    if port.is_ok() && (starts_at_one || ends_at_last_but_one) {
        Some(7)
    } else if is_gap && is_removed && is_error(port, Error::ResourceNotAvailable) {
        Some(8)
    } else if rust.is_ok() && port.is_ok() && has_small_neighbour(before, range) {
        Some(6)
    } else {
        None
    }
}

/// Returns `true` if a gap of one address is next to a range.
fn has_small_neighbour(space: &AddressAllocator, range: RangeInclusive) -> bool {
    let is_small_gap = |address: Option<u64>| {
        let block = address.and_then(|address| block_of(space, address));
        block.is_some_and(|(gap, state)| state == NodeState::Free && gap.len() == 1)
    };
    is_small_gap(range.start().checked_sub(1)) || is_small_gap(range.end().checked_add(1))
}

fn is_error(answer: &Answer, error: Error) -> bool {
    answer
        .as_ref()
        .is_err_and(|text| *text == error.to_string())
}
