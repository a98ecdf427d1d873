// SPDX-License-Identifier: Apache-2.0 OR BSD-3-Clause
//! Guards against a range that has the value of another range, or none, also if memory runs out in the
//! middle of a call.

mod draw;
mod items;
mod model;
mod refusing;

use divsharun::AllocPolicy::{ExactMatch, FirstMatch, LastMatch};
use divsharun::{
    AddressAllocator, Conflict, Constraint, Error, ListError, RangeInclusive, RangeMap, TryError,
    ValueError,
};
use draw::Draw;
use items::{exact, expect_items, inexact};
use model::{refused, Model, WIDTH};
use refusing::{blocks, refusing};
use std::collections::BTreeMap;
use std::rc::Rc;

/// A map, and a plain model of its ranges and values.
struct Compared {
    map: RangeMap<u64>,
    ranges: Model,
    values: BTreeMap<RangeInclusive, u64>,
}

/// Returns a random request, with or without a window.
fn request(ranges: &Model, draw: &mut Draw) -> Constraint {
    let (size, align) = (1 + draw.below(6), 1 << draw.below(3));
    let at = ranges.base + draw.below(ranges.width);
    let policy = match draw.below(3) {
        0 => FirstMatch,
        1 => LastMatch,
        _ => ExactMatch(at - at % align),
    };
    let request = Constraint::new(size, align, policy).unwrap();
    match draw.below(3) {
        0 => request.within(at..).unwrap(),
        _ => request,
    }
}

/// Makes a call in which the allocation of this number fails. Returns its result, or `None` if memory ran
/// out.
fn answered<T>(
    fails: u64,
    call: impl FnOnce() -> Result<T, TryError>,
) -> Option<divsharun::Result<T>> {
    let (answer, made) = refusing(fails, call);
    let ran_out = matches!(answer, Err(TryError::OutOfMemory));
    assert_eq!(ran_out, 0 < fails && fails <= made);
    (!ran_out).then(|| refused(answer))
}

/// The result of a call with a list of items and values.
type OfList<R, K, T, E> = Result<R, ValueError<Vec<(K, T)>, ListError<E>>>;

/// Returns the result of a call with a list, of which an error returns the list. `index` and `conflict` are those of
/// the error, unless memory ran out.
fn of_list<R, K: PartialEq, T: PartialEq, E: Into<TryError>>(
    answer: OfList<R, K, T, E>,
    list: &[(K, T)],
    (index, conflict): (Option<usize>, Option<Conflict>),
) -> Result<R, TryError> {
    answer.map_err(|refused| {
        assert!(refused.value == list);
        let found = (refused.error.index, refused.error.conflict);
        let error = refused.error.into();
        assert!(error == TryError::OutOfMemory || found == (index, conflict));
        error
    })
}

impl Compared {
    fn new(base: u64, width: u64) -> Compared {
        Compared {
            map: RangeMap::new(base, width).unwrap(),
            ranges: Model::wide(base, width),
            values: BTreeMap::new(),
        }
    }

    fn allocate(&mut self, value: u64, fails: u64, draw: &mut Draw) {
        let asked = request(&self.ranges, draw);
        let (size, align, policy) = (asked.size(), asked.align(), asked.policy());
        let answer = answered(fails, || {
            let answer = match (fails, asked.window()) {
                (0, None) => Ok(self.map.allocate(size, align, policy, value)?),
                (0, Some(_)) => Ok(self.map.allocate_constraint(asked, value)?),
                (_, None) => self.map.try_allocate(size, align, policy, value),
                (_, Some(_)) => self.map.try_allocate_constraint(asked, value),
            };
            answer.map_err(|refused| {
                assert_eq!(refused.value, value);
                refused.error
            })
        });
        if let Some(answer) = answer {
            assert_eq!(answer, self.ranges.allocate(asked));
            self.ranges.held.extend(answer.ok());
            self.values.extend(answer.ok().map(|range| (range, value)));
        }
    }

    /// Allocates a range for each of a few requests, or for none.
    fn allocate_all(&mut self, value: u64, fails: u64, draw: &mut Draw) {
        let count = draw.below(4);
        let list: Vec<_> = (0..count)
            .map(|number| (request(&self.ranges, draw), 10 * value + number))
            .collect();
        let (mut after, mut refused) = (self.ranges.clone(), (None, None));
        let expected = list.iter().enumerate().try_for_each(|(index, (asked, _))| {
            refused = (Some(index), after.conflict(*asked));
            after.held.push(after.allocate(*asked)?);
            Ok(())
        });
        let given = list.clone();
        let answer = answered(fails, || match fails {
            0 => of_list(self.map.allocate_all(given), &list, refused),
            _ => of_list(self.map.try_allocate_all(given), &list, refused),
        });
        if let Some(answer) = answer {
            let ranges = after.held[self.ranges.held.len()..].to_vec();
            assert_eq!(answer, expected.map(|()| ranges.clone()));
            if answer.is_ok() {
                self.ranges = after;
                let values = list.iter().map(|(_, value)| *value);
                self.values.extend(ranges.into_iter().zip(values));
            }
        }
    }

    /// Makes a map of the same ranges and values, and one of a list with an error.
    fn expect_made(&self, draw: &mut Draw) {
        let (base, width) = (self.ranges.base, self.ranges.width);
        let mut list: Vec<_> = self
            .values
            .iter()
            .map(|(at, value)| (*at, *value))
            .collect();
        for fails in 0..9 {
            let given = list.clone();
            let made = answered(fails, || match fails {
                0 => of_list(RangeMap::with_held(base, width, given), &list, (None, None)),
                _ => of_list(
                    RangeMap::try_with_held(base, width, given),
                    &list,
                    (None, None),
                ),
            });
            made.into_iter()
                .for_each(|made| assert!(made.as_ref() == Ok(&self.map)));
        }
        list.extend(list.first().copied());
        let any = draw.below(list.len().max(1) as u64) as usize;
        list.get_mut(any..).into_iter().for_each(<[_]>::reverse);
        let ranges: Vec<_> = list.iter().map(|(range, _)| *range).collect();
        let expected = AddressAllocator::with_held(base, width, &ranges);
        let made = RangeMap::with_held(base, width, list.clone());
        assert_eq!(
            made.as_ref().err().map(|refused| &refused.error),
            expected.as_ref().err()
        );
        assert!(made.map_or_else(|refused| refused.value, |_| list.clone()) == list);
    }

    fn move_any(&mut self, number: usize, fails: u64, draw: &mut Draw) {
        let (asked, range) = (request(&self.ranges, draw), self.ranges.held[number]);
        let answer = answered(fails, || match fails {
            0 => Ok(self.map.move_constraint(&range, asked)?),
            _ => self.map.try_move_constraint(&range, asked),
        });
        if let Some(answer) = answer {
            assert_eq!(answer, self.ranges.move_to(number, asked));
            let value = self.values.remove(&range).unwrap();
            self.values.insert(answer.unwrap_or(range), value);
        }
    }

    fn free_any(&mut self, number: usize) {
        let range = self.ranges.held.swap_remove(number);
        let (answer, made) = refusing(1, || self.map.free(&range));
        assert_eq!((answer.ok(), made), (self.values.remove(&range), 0));
        assert_eq!(self.map.free(&range), Err(Error::ResourceNotAvailable));
    }

    /// Looks an address up, and changes the value there.
    fn look_up(&mut self, value: u64, draw: &mut Draw) {
        let address = self.ranges.base + draw.below(self.ranges.width);
        let mut at = self.values.iter_mut();
        let mut at = at.find(|(range, _)| range.contains_address(address));
        let expected = at.as_ref().map(|(range, value)| (**range, &**value));
        assert_eq!(self.map.get(address), expected);
        if let (Some((_, one)), Some((_, other))) = (&mut at, self.map.get_mut(address)) {
            (**one, *other) = (value, value);
        }
    }

    fn expect_equal(&self, draw: &mut Draw) {
        let list: Vec<_> = self.values.iter().map(|(range, at)| (*range, at)).collect();
        assert!(self.map.iter().eq(list.iter().copied()));
        assert_eq!(self.map.held_count(), list.len() as u64);
        let space = self.map.space();
        let (low, high) = (
            space.start() + draw.below(space.len()),
            space.start() + draw.below(space.len()),
        );
        let window = RangeInclusive::new(low.min(high), low.max(high)).unwrap();
        let inside = |(range, _): &(RangeInclusive, &u64)| range.overlaps(&window);
        let within: Vec<_> = list.iter().copied().filter(inside).collect();
        if draw.below(20) == 0 {
            expect_items((&self.map).into_iter(), &list, exact, draw);
            expect_items(self.map.held_ranges_in(window), &within, inexact, draw);
        }
        assert!(self.map.held_ranges_in(window).eq(within));
        assert_eq!(self.map.held_ranges_in(..).count(), list.len());
        for fails in 0..4 {
            let copy = answered(fails, || self.map.try_clone());
            copy.into_iter()
                .for_each(|copy| assert!(copy.as_ref() == Ok(&self.map)));
        }
    }
}

/// Makes random calls. In half of them an allocation fails, if there are as many.
#[test]
fn answers_are_those_of_a_plain_model() {
    let mut draw = Draw(1);
    for (base, width) in [(1000, WIDTH), (u64::MAX - WIDTH + 1, WIDTH), (0, 1000)] {
        let mut compared = Compared::new(base, width);
        for value in 0..5000 {
            let fails = draw.below(8).saturating_sub(3);
            let held = compared.ranges.held.len() as u64;
            let any = draw.below(held.max(1)) as usize;
            match draw.below(8) {
                0..=2 => compared.allocate(10 * value, fails, &mut draw),
                3 => compared.allocate_all(value, fails, &mut draw),
                4 => compared.look_up(value, &mut draw),
                _ if held == 0 => continue,
                5 => compared.move_any(any, fails, &mut draw),
                // The small spaces become full, and the large one has several leaves.
                6 if width == WIDTH || value > 3000 => compared.free_any(any),
                _ => compared.look_up(value, &mut draw),
            }
            if value % 50 == 0 {
                compared.expect_equal(&mut draw);
                compared.expect_made(&mut draw);
            }
        }
        assert!(width == WIDTH || compared.ranges.held.len() > 100);
    }
}

#[test]
fn maps_are_equal_with_the_same_ranges_and_values() {
    let maps = [
        (0, 64, &[(1, 1, 'a'), (9, 2, 'b')][..]),
        (0, 64, &[(9, 2, 'b'), (1, 1, 'a')]),
        (0, 64, &[(1, 1, 'b'), (9, 2, 'a')]),
        (0, 64, &[(1, 1, 'a'), (8, 2, 'b')]),
        (0, 64, &[(1, 1, 'a'), (9, 3, 'b')]),
        (0, 64, &[(1, 1, 'a')]),
        (0, 65, &[(1, 1, 'a'), (9, 2, 'b')]),
        (1, 63, &[(1, 1, 'a'), (9, 2, 'b')]),
    ];
    let [first, others @ ..] = maps.map(|(base, size, ranges)| {
        let mut map = RangeMap::new(base, size).unwrap();
        for (start, size, value) in ranges {
            map.allocate(*size, 1, ExactMatch(*start), *value).unwrap();
        }
        map
    });
    assert_eq!(
        others.map(|other| first == other),
        [true, false, false, false, false, false, false]
    );
    let text = "RangeMap { space: RangeInclusive { start: 0, end: 63 }, ranges: [\
        (RangeInclusive { start: 1, end: 1 }, 'a'), (RangeInclusive { start: 9, end: 10 }, 'b')] }";
    assert_eq!(format!("{:?}", first.clone()), text);
    assert_eq!(format!("{:?}", first.iter()), "ValuedRanges { .. }");
}

/// Checks that the error of an allocation returns the value, and that the map drops the values that it has.
#[test]
fn values_are_dropped_once() {
    let (value, before) = (Rc::new(7), blocks());
    let mut map = RangeMap::new(0, 4).unwrap();
    for number in 1..=4 {
        let allocated = map.allocate(1, 1, FirstMatch, value.clone());
        assert_eq!(allocated.unwrap().start(), number - 1);
        let refused = map.allocate(1, 3, FirstMatch, value.clone()).unwrap_err();
        assert_eq!(refused.error, Error::InvalidAlignment);
        assert!(Rc::ptr_eq(&refused.value, &value));
        drop(refused);
        assert_eq!(Rc::strong_count(&value) as u64, 1 + number);
    }
    let one = Constraint::new(1, 1, FirstMatch).unwrap();
    let refused = map.allocate_all(vec![(one, value.clone())]).unwrap_err();
    assert!(Rc::ptr_eq(&refused.value[0].1, &value));
    assert_eq!(Error::from(refused), Error::ResourceNotAvailable);
    assert_eq!(Rc::strong_count(&value), 5);
    let freed = map.free(&RangeInclusive::new(2, 2).unwrap());
    assert!(freed.is_ok_and(|freed| Rc::ptr_eq(&freed, &value)));
    let copy = map.clone();
    assert_eq!((Rc::strong_count(&value), copy == map), (7, true));
    drop((map, copy));
    assert_eq!((Rc::strong_count(&value), blocks()), (1, before));
}
