// Written by bindings/erase from crates/vm_space/src/exact.rt: do not edit.

//! The allocation of a range that starts at a given address, in its leaf.

use crate::proved::vm_leaf::{Block, Leaf, Rest};
use crate::proved::vm_ranges::{NodeState, RangeInclusive};
use crate::proved::vm_space::place::{has_room, refusal_of, take_place, Place};
use crate::proved::vm_space::search::{Refusal, Search, Taken};
use crate::proved::vm_tree::{Change, Edit, Entry};
use crate::rattle::Box;
use crate::rattle::{AllocError, Global};

/// Returns the reason why the range of a search cannot be allocated in the block that contains its start.
/// Returns `None` if the range lies in a gap and in the window.
#[inline(always)]
fn refusal_in(block: &Block, range: &RangeInclusive, search: &Search) -> Option<Refusal> {
    let end = range.end();
    match block.state {
        NodeState::Allocated => {
            if block.key.start() != range.start() || block.key.end() != end {
                return Some(Refusal::NoPlace);
            }
            Some(Refusal::Held)
        }
        NodeState::Free => {
            if block.key.end() < end || search.high < end {
                return Some(Refusal::NoPlace);
            }
            None
        }
    }
}

/// Returns the place of the range of a search that starts at `start` in a leaf, or the reason why the range
/// cannot be allocated.
#[inline(always)]
fn exact_place(leaf: &Leaf, start: u64, search: &Search) -> Result<Place, Refusal> {
    let index = leaf.index_of(start);
    let block = leaf.block_at(index);
    let range = RangeInclusive::between(start, start + (search.size - 1));
    match refusal_in(&block, &range, search) {
        Some(refusal) => Err(refusal),
        None => Ok(Place::new(index, block.key, range)),
    }
}

/// Takes the spare leaf, or allocates one.
fn spare_leaf(
    spare: &mut Option<Box<Leaf>>,
    block: Block,
    alloc: Global,
) -> Result<Box<Leaf>, AllocError> {
    match spare.take() {
        Some(leaf) => Ok(leaf),
        None => Ok(Box::new(alloc, Leaf::single(block))?),
    }
}

/// The allocation of the range of a search that starts at `start`.
pub(in crate::proved::vm_space) struct Exact {
    pub(in crate::proved::vm_space) start: u64,
    pub(in crate::proved::vm_space) search: Search,
    /// What became of it.
    pub(in crate::proved::vm_space) answer: Result<Taken, Refusal>,
    /// A leaf that is used, and not allocated, if the leaf is split.
    pub(in crate::proved::vm_space) spare: Option<Box<Leaf>>,
}

impl Edit<Leaf> for Exact {
    #[inline(always)]
    fn change(&mut self, leaf: &mut Leaf, was: Entry) -> Change {
        if self.start < leaf.start() || leaf.end() < self.start {
            return Change::Refused;
        }
        let place = match exact_place(leaf, self.start, &self.search) {
            Ok(place) => place,
            Err(refusal) => {
                self.answer = Err(refusal);
                return Change::Refused;
            }
        };
        if let Some(refusal) = refusal_of(&place, &self.search) {
            self.answer = Err(refusal);
            return Change::Refused;
        }
        if !has_room(leaf, place.rest) {
            return Change::Full;
        }
        let kept = take_place(leaf, &place, &was);
        self.answer = Ok(Taken {
            range: place.range,
            added: place.rest.added(),
        });
        if kept {
            return Change::Same;
        }
        Change::Changed
    }

    #[inline(never)]
    fn split(&mut self, leaf: &mut Leaf, alloc: Global) -> Result<Box<Leaf>, AllocError> {
        let index = leaf.index_of(self.start);
        let gap = leaf.key_at(index);
        let range = RangeInclusive::between(self.start, self.start + (self.search.size - 1));
        let rest = Rest::of(&gap, &range);
        let block = Block {
            key: range,
            state: NodeState::Allocated,
        };
        let mut upper = spare_leaf(&mut self.spare, block, alloc)?;
        let high: &mut Leaf = &mut upper;
        leaf.split_full(index, range, rest, high);
        self.answer = Ok(Taken {
            range,
            added: rest.added(),
        });
        Ok(upper)
    }
}
