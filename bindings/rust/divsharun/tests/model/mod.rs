// SPDX-License-Identifier: Apache-2.0 OR BSD-3-Clause
//! Plain models: the list of the allocated ranges of a space, and the set of allocated ids.
#![allow(dead_code)]

use divsharun::AllocPolicy::{ExactMatch, FirstMatch, LastMatch};
use divsharun::{Conflict, Constraint, Error, NodeState, RangeInclusive, Result, TryError};
use std::collections::BTreeSet;

/// The number of addresses of a small space.
pub const WIDTH: u64 = 64;

/// A space with its allocated ranges, which do not reach `u64::MAX`.
#[derive(Clone)]
pub struct Model {
    pub base: u64,
    pub width: u64,
    pub held: Vec<RangeInclusive>,
}

impl Model {
    /// Creates a space of [`WIDTH`] addresses without allocated ranges.
    pub fn new(base: u64) -> Model {
        Model::wide(base, WIDTH)
    }

    /// Creates a space of `width` addresses without allocated ranges.
    pub fn wide(base: u64, width: u64) -> Model {
        let held = Vec::new();
        Model { base, width, held }
    }

    /// Adds a range to a sorted list.
    pub fn hold(&mut self, range: RangeInclusive) {
        let number = self.held.partition_point(|held| *held < range);
        self.held.insert(number, range);
    }

    /// Returns the gaps, in order.
    pub fn gaps(&self) -> impl DoubleEndedIterator<Item = RangeInclusive> {
        let mut held = self.held.clone();
        held.sort();
        let firsts = held.iter().map(|range| range.end() + 1);
        let firsts: Vec<_> = [self.base].into_iter().chain(firsts).collect();
        let lasts = held.into_iter().map(|range| range.start().checked_sub(1));
        let lasts: Vec<_> = lasts.chain([Some(self.base + (self.width - 1))]).collect();
        let ends = firsts.into_iter().zip(lasts);
        ends.filter_map(|(first, last)| RangeInclusive::new(first, last?).ok())
    }

    /// Returns the lowest and the highest start for a request in each gap that has one, in order.
    fn places(&self, request: Constraint) -> impl DoubleEndedIterator<Item = (u64, u64)> {
        let (size, align) = (u128::from(request.size()), u128::from(request.align()));
        let window = request.window();
        let (low, high) = window.map_or((0, u64::MAX), |window| (window.start(), window.end()));
        self.gaps().filter_map(move |gap| {
            let first = u128::from(gap.start().max(low)).next_multiple_of(align);
            let past = u128::from(gap.end().min(high)) + 1;
            let last = past.checked_sub(size)? / align * align;
            (first <= last).then_some((first as u64, last as u64))
        })
    }

    pub fn allocate(&self, request: Constraint) -> Result<RangeInclusive> {
        let mut places = self.places(request);
        let start = match request.policy() {
            FirstMatch => places.next().ok_or(Error::ResourceNotAvailable)?.0,
            LastMatch => places.next_back().ok_or(Error::ResourceNotAvailable)?.1,
            ExactMatch(start) => self.checked_start(start, request)?,
        };
        let end = start + (request.size() - 1);
        if end == u64::MAX {
            return Err(Error::Overflow);
        }
        RangeInclusive::new(start, end)
    }

    /// Frees a range and allocates one for the request, or changes nothing.
    pub fn move_to(&mut self, number: usize, request: Constraint) -> Result<RangeInclusive> {
        let key = self.held.remove(number);
        let answer = self.allocate(request);
        self.held.insert(number, *answer.as_ref().unwrap_or(&key));
        answer
    }

    /// Returns the conflict of a request if a range is free.
    pub fn move_conflict(&self, number: usize, request: Constraint) -> Option<Conflict> {
        let mut without = self.clone();
        without.held.remove(number);
        without.conflict(request)
    }

    /// Returns the reason why the range of a request is not free.
    pub fn conflict(&self, request: Constraint) -> Option<Conflict> {
        let space = RangeInclusive::from_start_len(self.base, self.width).unwrap();
        let ExactMatch(start) = request.policy() else {
            let is_outside = |window: RangeInclusive| !window.overlaps(&space);
            return (request.window().is_some_and(is_outside))
                .then_some(Conflict::OutsideSpace(space));
        };
        let (first, base) = (u128::from(start), u128::from(self.base));
        let last = first + u128::from(request.size() - 1);
        if first < base || base + u128::from(self.width - 1) < last {
            return Some(Conflict::OutsideSpace(space));
        }
        if !(is_in_window(first, request) && is_in_window(last, request)) {
            return request.window().map(Conflict::OutsideWindow);
        }
        let meets = |held: &&RangeInclusive| {
            u128::from(held.start()) <= last && first <= u128::from(held.end())
        };
        let lowest = self.held.iter().filter(meets).min();
        lowest.copied().map(Conflict::Allocated)
    }

    /// Returns the start of an `ExactMatch`, or the first error that is not about `MAX` as its end.
    fn checked_start(&self, start: u64, request: Constraint) -> Result<u64> {
        if start == u64::MAX {
            return Err(Error::Overflow);
        }
        let is_in_space = start >= self.base && start - self.base < self.width;
        if !is_in_space || !is_in_window(start.into(), request) {
            return Err(Error::ResourceNotAvailable);
        }
        let end = start
            .checked_add(request.size() - 1)
            .ok_or(Error::Overflow)?;
        let is_same = |held: &&RangeInclusive| (held.start(), held.end()) == (start, end);
        if let Some(held) = self.held.iter().find(is_same) {
            return Err(Error::InvalidStateTransition(*held, NodeState::Allocated));
        }
        let has_start = |(low, high): (u64, u64)| (low..=high).contains(&start);
        match self.places(request).any(has_start) {
            true => Ok(start),
            false => Err(Error::ResourceNotAvailable),
        }
    }
}

fn is_in_window(address: u128, request: Constraint) -> bool {
    request.window().is_none_or(|window| {
        u128::from(window.start()) <= address && address <= u128::from(window.end())
    })
}

/// A range of ids, with the allocated ones and the lowest id that was never allocated.
#[derive(Clone)]
pub struct Ids {
    pub first: u32,
    pub last: u32,
    pub next: u64,
    pub held: BTreeSet<u32>,
}

impl Ids {
    pub fn new(first: u32, last: u32) -> Ids {
        let (next, held) = (first.into(), BTreeSet::new());
        Ids {
            first,
            last,
            next,
            held,
        }
    }

    /// Returns the error if all ids are allocated.
    fn none(&self) -> Error {
        match self.last {
            u32::MAX => Error::Overflow,
            _ => Error::ResourceNotAvailable,
        }
    }

    /// Returns the free ids from `low` to `high`, in order.
    fn free(&self, low: u32, high: u32) -> impl Iterator<Item = u32> + '_ {
        let (low, high) = (low.max(self.first), high.min(self.last));
        let mut held = self.held.range(low..).peekable();
        (low..=high).filter(move |id| held.next_if_eq(&id).is_none())
    }

    fn take(&mut self, id: u32) -> u32 {
        self.held.insert(id);
        self.next = self.next.max(u64::from(id) + 1);
        id
    }

    pub fn peek(&self) -> Result<u32> {
        let lowest = self.free(self.first, self.last).next();
        lowest.ok_or(self.none())
    }

    pub fn allocate(&mut self) -> Result<u32> {
        self.peek().map(|id| self.take(id))
    }

    pub fn allocate_exact(&mut self, id: u32) -> Result<u32> {
        match (self.first..=self.last).contains(&id) {
            true => self.allocate_in(id, id),
            false => Err(Error::OutOfRange(id)),
        }
    }

    pub fn allocate_in(&mut self, low: u32, high: u32) -> Result<u32> {
        if high < low {
            return Err(Error::InvalidRange(low.into(), high.into()));
        }
        let lowest = self.free(low, high).next();
        let lowest = lowest.ok_or(Error::ResourceNotAvailable);
        lowest.map(|id| self.take(id))
    }

    pub fn allocate_ids(&mut self, count: usize) -> Result<Vec<u32>> {
        let list: Vec<_> = self.free(self.first, self.last).take(count).collect();
        if list.len() < count {
            return Err(self.none());
        }
        Ok(list.into_iter().map(|id| self.take(id)).collect())
    }

    pub fn release(&mut self, id: u32) -> Result<u32> {
        match id {
            _ if !(self.first..=self.last).contains(&id) => Err(Error::OutOfRange(id)),
            _ if u64::from(id) >= self.next => Err(Error::NeverAllocated(id)),
            _ if !self.held.remove(&id) => Err(Error::AlreadyReleased(id)),
            _ => Ok(id),
        }
    }
}

/// Makes large numbers: a space has `2^self.0` addresses for each one of a model.
#[derive(Clone, Copy)]
pub struct Scale(pub u32);

impl Scale {
    pub fn range(self, range: RangeInclusive) -> RangeInclusive {
        let end = range.end().saturating_mul(1 << self.0);
        let end = end.saturating_add((1 << self.0) - 1);
        RangeInclusive::new(range.start() << self.0, end).unwrap()
    }

    pub fn request(self, request: Constraint) -> Constraint {
        let policy = match request.policy() {
            ExactMatch(start) => ExactMatch(start << self.0),
            other => other,
        };
        let (size, align) = (request.size() << self.0, request.align() << self.0);
        let scaled = Constraint::new(size, align, policy).unwrap();
        let window = request.window().map(|window| self.range(window));
        window.map_or(scaled, |window| scaled.within(window).unwrap())
    }

    pub fn answer(self, answer: Result<RangeInclusive>) -> Result<RangeInclusive> {
        answer
            .map(|range| self.range(range))
            .map_err(|error| match error {
                Error::InvalidStateTransition(range, state) => {
                    Error::InvalidStateTransition(self.range(range), state)
                }
                other => other,
            })
    }

    pub fn conflict(self, conflict: Conflict) -> Conflict {
        match conflict {
            Conflict::OutsideSpace(space) => Conflict::OutsideSpace(self.range(space)),
            Conflict::OutsideWindow(window) => Conflict::OutsideWindow(self.range(window)),
            Conflict::Allocated(range) => Conflict::Allocated(self.range(range)),
            other => panic!("{other}"),
        }
    }
}

/// Returns the error of a `try_` call, which does not run out of memory.
pub fn refused<T>(answer: std::result::Result<T, impl Into<TryError>>) -> Result<T> {
    answer.map_err(|error| match error.into() {
        TryError::Refused(error) => error,
        other => panic!("{other:?}"),
    })
}
