// SPDX-License-Identifier: Apache-2.0 OR BSD-3-Clause
//! Compares an iterator with a list of its items: none is lost or repeated if both ends, `nth`,
//! `fold` and `len` are used in turn.

use crate::draw::Draw;
use std::fmt::Debug;
use std::iter::FusedIterator;

/// Compares the calls of an iterator that take its items from one end.
pub fn expect_in_order<I>(items: I, list: &[I::Item])
where
    I: FusedIterator<Item: Copy + PartialEq + Debug> + Clone,
{
    let (low, high) = items.size_hint();
    assert!(low <= list.len() && list.len() <= high.unwrap_or(list.len()));
    assert!(items.clone().eq(list.iter().copied()));
    assert_eq!(items.clone().count(), list.len());
    assert_eq!(items.clone().last(), list.last().copied());
    let mut each = Vec::new();
    items.clone().for_each(|item| each.push(item));
    assert_eq!(each, list);
    let middle = list.len() / 2;
    assert_eq!(items.clone().nth(middle), list.get(middle).copied());
    assert!(items
        .clone()
        .skip(middle)
        .eq(list[middle..].iter().copied()));
    let thirds = list.iter().copied().step_by(3);
    assert!(items.clone().step_by(3).eq(thirds));
    let mut past = items;
    assert_eq!((past.nth(list.len()), past.next()), (None, None));
}

/// Returns `None`, after a look at the least and the greatest of the ascending items of an iterator.
pub fn inexact<I: Iterator<Item: Ord + Debug> + Clone>(items: &I) -> Option<usize> {
    assert_eq!(items.clone().min(), items.clone().next());
    assert_eq!(items.clone().max(), items.clone().last());
    assert!(items.clone().is_sorted());
    None
}

/// Returns the length of an iterator, after the same look.
pub fn exact<I: ExactSizeIterator<Item: Ord + Debug> + Clone>(items: &I) -> Option<usize> {
    inexact(items).or(Some(items.len()))
}

/// Takes items from both ends, one or several at a time, until an iterator and a list have none left.
/// `length` returns its exact length, or `None` if it has none. It is compared after each call, and so
/// are the size hint and the items of a clone.
pub fn expect_items<I>(
    mut items: I,
    list: &[I::Item],
    length: impl Fn(&I) -> Option<usize>,
    draw: &mut Draw,
) where
    I: DoubleEndedIterator<Item: Copy + PartialEq + Debug> + FusedIterator + Clone,
{
    let mut want = list.iter().copied();
    loop {
        let left = want.len();
        if let Some(exact) = length(&items) {
            assert_eq!((exact, items.size_hint()), (left, (left, Some(left))));
        }
        let ahead: Vec<_> = want.clone().collect();
        expect_in_order(items.clone(), &ahead);
        let back: Vec<_> = want.clone().rev().collect();
        expect_in_order(items.clone().rev(), &back);
        if left == 0 {
            break;
        }
        let some = draw.below(3) as usize;
        match draw.below(6) {
            0 => assert_eq!(items.nth(some), want.nth(some)),
            1 => assert_eq!(items.nth_back(some), want.nth_back(some)),
            2..=3 => assert_eq!(items.next(), want.next()),
            _ => assert_eq!(items.next_back(), want.next_back()),
        }
    }
    assert_eq!((items.next(), items.next_back()), (None, None));
    assert_eq!((items.nth(1), items.nth_back(1)), (None, None));
}
