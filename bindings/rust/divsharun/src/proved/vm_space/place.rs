// Written by bindings/erase from crates/vm_space/src/place.rt: do not edit.

//! A place in a leaf, and its allocation there.

use crate::proved::vm_leaf::{Leaf, Rest, Summary, CAPACITY};
use crate::proved::vm_ranges::RangeInclusive;
use crate::proved::vm_space::search::{Refusal, Search};
use crate::proved::vm_tree::Entry;

/// A range that is to be allocated in a gap of a leaf.
#[derive(Clone, Copy)]
pub(in crate::proved::vm_space) struct Place {
    /// The index of the gap.
    pub(in crate::proved::vm_space) index: usize,
    pub(in crate::proved::vm_space) gap: RangeInclusive,
    pub(in crate::proved::vm_space) range: RangeInclusive,
    /// The parts of the gap that stay free.
    pub(in crate::proved::vm_space) rest: Rest,
}

impl Place {
    /// Returns the place of a range in the gap with this index.
    #[inline(always)]
    pub(in crate::proved::vm_space) fn new(
        index: usize,
        gap: RangeInclusive,
        range: RangeInclusive,
    ) -> Place {
        let rest = Rest::of(&gap, &range);
        Place {
            index,
            gap,
            range,
            rest,
        }
    }
}

/// Returns the reason why the range of a place cannot be allocated, or `None` if it can.
#[inline(always)]
pub(in crate::proved::vm_space) fn refusal_of(place: &Place, search: &Search) -> Option<Refusal> {
    if place.range.end() == u64::MAX {
        return Some(Refusal::PastMax);
    }
    if place.rest.added() > 0 && !search.can_split {
        return Some(Refusal::CannotSplit);
    }
    None
}

/// Returns `true` if the leaf has room for the parts that stay free.
#[inline(always)]
pub(in crate::proved::vm_space) fn has_room(leaf: &Leaf, rest: Rest) -> bool {
    leaf.len() <= CAPACITY - rest.added() as usize
}

/// Returns how much of `most` has to be left if a gap with `gone` is taken: all of it, unless the gap has less.
#[inline(always)]
fn to_be_left(gone: u64, most: u64) -> u64 {
    if gone < most {
        0
    } else {
        most
    }
}

/// Allocates a place in a leaf, which has room for it. Returns true if the entry of the leaf was `was` and still is.
#[inline(always)]
pub(in crate::proved::vm_space) fn take_place(leaf: &mut Leaf, place: &Place, was: &Entry) -> bool {
    leaf.split(place.index, place.range, place.rest);
    let gap = Summary::of_gap(&place.gap);
    leaf.reaches(
        to_be_left(gap.longest, was.longest),
        to_be_left(gap.alignments.into(), was.alignments.into()),
    )
}
