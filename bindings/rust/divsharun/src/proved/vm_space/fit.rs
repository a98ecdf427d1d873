// Written by bindings/erase from crates/vm_space/src/fit.rt: do not edit.

//! The allocation of the lowest or of the highest place of a search, in one leaf.

use crate::proved::vm_leaf::{Block, Fit, Leaf};
use crate::proved::vm_ranges::{NodeState, RangeInclusive};
use crate::proved::vm_space::place::{has_room, refusal_of, take_place, Place};
use crate::proved::vm_space::search::{Refusal, Search, Taken};
use crate::proved::vm_tree::{End, Entry};
use crate::rattle::Box;
use crate::rattle::{AllocError, Global};

/// Returns the fit of a search that is closest to an end of a leaf, or `None` if there is none.
#[inline(always)]
pub(in crate::proved::vm_space) fn fit_in(leaf: &Leaf, end: End, search: &Search) -> Option<Fit> {
    match end {
        End::First => leaf.first_fit_in(search.low, search.high, search.size, search.alignment),
        End::Last => leaf.last_fit_in(search.low, search.high, search.size, search.alignment),
    }
}

/// Returns the place of a search that is closest to an end of a leaf, or `None` if there is none.
#[inline(always)]
pub(in crate::proved::vm_space) fn place_in(
    leaf: &Leaf,
    end: End,
    search: &Search,
) -> Option<Place> {
    let fit = fit_in(leaf, end, search)?;
    let gap = leaf.key_at(fit.index);
    let range = RangeInclusive::between(fit.start, fit.start + (search.size - 1));
    Some(Place::new(fit.index, gap, range))
}

/// The result of a search in a leaf.
#[derive(Clone, Copy)]
pub(in crate::proved::vm_space) enum Fitting {
    /// The leaf has no place.
    Absent,
    /// The place cannot be allocated.
    Refused(Refusal),
    /// The leaf has no room to allocate this place.
    Full(Place),
    /// The place was allocated.
    Taken(Taken),
}

/// Allocates the place of a search that is closest to an end of a leaf, if the leaf has room. Also returns true if the
/// entry of the leaf was `was` and still is.
#[inline(always)]
pub(in crate::proved::vm_space) fn fit_in_leaf(
    leaf: &mut Leaf,
    end: End,
    search: &Search,
    was: &Entry,
) -> (Fitting, bool) {
    let Some(place) = place_in(leaf, end, search) else {
        return (Fitting::Absent, true);
    };
    if let Some(refusal) = refusal_of(&place, search) {
        return (Fitting::Refused(refusal), true);
    }
    if !has_room(leaf, place.rest) {
        return (Fitting::Full(place), true);
    }
    let kept = take_place(leaf, &place, was);
    let taken = Taken {
        range: place.range,
        added: place.rest.added(),
    };
    (Fitting::Taken(taken), kept)
}

/// Allocates a place in a leaf that has no room for it: its upper part is moved to another leaf.
pub(in crate::proved::vm_space) fn split_fit(
    leaf: &mut Leaf,
    end: End,
    search: &Search,
    place: &Place,
    alloc: Global,
) -> Result<(Box<Leaf>, Taken), AllocError> {
    let _end = end;
    let _size = search.size;
    let block = Block {
        key: place.range,
        state: NodeState::Allocated,
    };
    let mut upper = Box::new(alloc, Leaf::single(block))?;
    let high: &mut Leaf = &mut upper;
    leaf.split_full(place.index, place.range, place.rest, high);
    let taken = Taken {
        range: place.range,
        added: place.rest.added(),
    };
    Ok((upper, taken))
}
