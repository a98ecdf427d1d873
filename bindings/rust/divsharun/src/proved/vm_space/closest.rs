// Written by bindings/erase from crates/vm_space/src/closest.rt: do not edit.

//! The allocation of the lowest or of the highest place, as a search of a tree.

use crate::proved::vm_leaf::Leaf;
use crate::proved::vm_ranges::RangeInclusive;
use crate::proved::vm_space::fit::{fit_in, fit_in_leaf, place_in, split_fit, Fitting};
use crate::proved::vm_space::search::{Refusal, Search, Taken};
use crate::proved::vm_tree::{Change, End, Entry, Seek, Tree};
use crate::rattle::Box;
use crate::rattle::{AllocError, Global};

/// The allocation of the place of a search that is closest to an end.
pub(in crate::proved::vm_space) struct Closest {
    pub(in crate::proved::vm_space) end: End,
    pub(in crate::proved::vm_space) search: Search,
    /// What became of it.
    pub(in crate::proved::vm_space) fitting: Fitting,
}

impl Closest {
    /// Returns what became of the search.
    pub(in crate::proved::vm_space) fn answer(&self) -> Result<Taken, Refusal> {
        match self.fitting {
            Fitting::Taken(taken) => Ok(taken),
            Fitting::Refused(refusal) => Err(refusal),
            Fitting::Absent | Fitting::Full(_) => Err(Refusal::NoPlace),
        }
    }
}

impl Seek<Leaf> for Closest {
    #[inline(always)]
    fn end(&self) -> End {
        self.end
    }

    #[inline(always)]
    fn low(&self) -> u64 {
        self.search.low
    }

    #[inline(always)]
    fn high(&self) -> u64 {
        self.search.high
    }

    #[inline(always)]
    fn fits(&self, entry: &Entry) -> bool {
        self.search.size <= entry.longest
            && self.search.alignment.trailing_zeros() < entry.alignments
    }

    #[inline(always)]
    fn has(&self, leaf: &Leaf) -> bool {
        fit_in(leaf, self.end, &self.search).is_some()
    }

    #[inline(always)]
    fn seek(&mut self, leaf: &mut Leaf, was: Entry) -> Option<Change> {
        let (fitting, kept) = fit_in_leaf(leaf, self.end, &self.search, &was);
        let change = match fitting {
            Fitting::Absent => return None,
            Fitting::Refused(_) => Change::Refused,
            Fitting::Full(_) => Change::Full,
            Fitting::Taken(_) if kept => Change::Same,
            Fitting::Taken(_) => Change::Changed,
        };
        self.fitting = fitting;
        Some(change)
    }

    #[inline(never)]
    fn split(&mut self, leaf: &mut Leaf, alloc: Global) -> Result<Box<Leaf>, AllocError> {
        let Fitting::Full(place) = self.fitting else {
            unreachable!()
        };
        let (upper, taken) = split_fit(leaf, self.end, &self.search, &place, alloc)?;
        self.fitting = Fitting::Taken(taken);
        Ok(upper)
    }
}

/// Returns the range of the place of a search that is closest to an end, in the tree of a space, or `None` if there is
/// no place.
pub(in crate::proved::vm_space) fn look_in_space(
    tree: &Tree<Leaf>,
    end: End,
    search: &Search,
) -> Option<RangeInclusive> {
    if search.high < search.low {
        return None;
    }
    let closest = Closest {
        end,
        search: *search,
        fitting: Fitting::Absent,
    };
    let leaf = tree.look(&closest)?;
    let place = place_in(leaf, end, search)?;
    Some(place.range)
}

/// Allocates the place of a search that is closest to an end, in a tree.
fn fit_in_tree(
    tree: &mut Tree<Leaf>,
    end: End,
    search: &Search,
    alloc: Global,
    count: &mut u64,
) -> Result<Taken, Refusal> {
    if search.high < search.low {
        return Err(Refusal::NoPlace);
    }
    let mut closest = Closest {
        end,
        search: *search,
        fitting: Fitting::Absent,
    };
    match tree.seek(&mut closest, alloc, count)? {
        Some(_done) => closest.answer(),
        None => Err(Refusal::NoPlace),
    }
}

/// Allocates the place of a search that is closest to an end, in the tree of a space.
pub(in crate::proved::vm_space) fn fit_in_space(
    tree: &mut Tree<Leaf>,
    end: End,
    search: &Search,
    alloc: Global,
    count: &mut u64,
) -> Result<Taken, Refusal> {
    fit_in_tree(tree, end, search, alloc, count)
}
