// Written by bindings/erase from crates/vm_list/src/id_set.rt: do not edit.

//! A set of ids as runs of consecutive ids.

use crate::proved::vm_list::iter::Iter;
use crate::proved::vm_list::keyed_list::KeyedList;
use crate::proved::vm_list::Keyed;
use crate::rattle::{AllocError, Global};

/// The ids from `first` to `last`, both included.
#[derive(Clone, Copy, Debug, PartialEq, Eq)]
pub(in crate::proved) struct Run {
    pub(in crate::proved) first: u32,
    pub(in crate::proved) last: u32,
}

impl Keyed for Run {
    fn key(&self) -> u64 {
        self.last.into()
    }
}

/// A set of ids. It keeps a run for all ids that follow each other.
///
/// Its model is that of a `BTreeSet`: the list of its ids in ascending order.
#[derive(Debug)]
pub(in crate::proved) struct IdSet {
    runs: KeyedList<Run>,
    // The number of ids.
    count: u64,
    alloc: Global,
}

impl IdSet {
    /// Creates an empty set. It does not allocate.
    pub(in crate::proved) fn new(alloc: Global) -> Self {
        IdSet {
            runs: KeyedList::new(),
            count: 0,
            alloc,
        }
    }

    /// Returns a copy.
    pub(in crate::proved) fn try_clone(&self) -> Result<Self, AllocError> {
        let runs = self.runs.try_clone(self.alloc)?;
        Ok(IdSet {
            runs,
            count: self.count,
            alloc: self.alloc,
        })
    }

    /// Returns the number of ids. It takes constant time.
    pub(in crate::proved) fn len(&self) -> u64 {
        self.count
    }

    /// Returns `true` if the set has the id.
    pub(in crate::proved) fn contains(&self, id: u32) -> bool {
        match run_from(&self.runs, id) {
            Some(run) => run.first <= id,
            None => false,
        }
    }

    /// Returns the lowest id of the set that is at least `first`, if there is one.
    pub(in crate::proved) fn first_from(&self, first: u32) -> Option<u32> {
        let run = run_from(&self.runs, first)?;
        Some(run.first.max(first))
    }

    /// Returns an iterator over the runs, from the lowest to the highest, or backwards. It does not allocate.
    pub(in crate::proved) fn runs(&self) -> Iter<'_, Run> {
        self.runs.iter()
    }

    /// Returns the lowest run of the ids from `first` on, and an iterator over the other runs of these ids. It descends
    /// one path of the tree for each end, and does not allocate.
    pub(in crate::proved) fn runs_from(&self, first: u32) -> (Option<Run>, Iter<'_, Run>) {
        let mut runs = self.runs.iter_between(first.into(), u64::MAX);
        match lowest_run(&mut runs) {
            Some(run) => {
                let cut = Run {
                    first: run.first.max(first),
                    last: run.last,
                };
                (Some(cut), runs)
            }
            None => (None, runs),
        }
    }

    /// Returns the highest run of the ids up to `last`, and an iterator over the other runs of these ids. It descends
    /// one path of the tree for each end, and does not allocate.
    pub(in crate::proved) fn runs_to(&self, last: u32) -> (Iter<'_, Run>, Option<Run>) {
        let mut runs = self.runs.iter_between(0, last.into());
        match run_from(&self.runs, last) {
            Some(run) if run.first <= last && last < run.last => {
                let cut = Run {
                    first: run.first,
                    last,
                };
                (runs, Some(cut))
            }
            _ => {
                let highest = highest_run(&mut runs);
                (runs, highest)
            }
        }
    }

    /// Returns `true` if both sets have the same ids. It stops at the first difference, and does not allocate.
    pub(in crate::proved) fn equals(&self, other: &Self) -> bool {
        self.count == other.count && same_runs(self.runs.iter(), other.runs.iter())
    }

    /// Adds an id, and returns `true`. Returns `false` if the set has it already. An error changes nothing.
    pub(in crate::proved) fn insert(&mut self, id: u32) -> Result<bool, AllocError> {
        let is_new = add(&mut self.runs, self.alloc, id)?;
        self.count += u64::from(is_new);
        Ok(is_new)
    }

    /// Removes an id, and returns `true`. Returns `false` if the set does not have it. An error changes nothing.
    ///
    /// It allocates only if the set has the ids right below and right above.
    pub(in crate::proved) fn remove(&mut self, id: u32) -> Result<bool, AllocError> {
        let Some(run) = run_of(&self.runs, id) else {
            return Ok(false);
        };
        cut(&mut self.runs, self.alloc, id, run)?;
        self.count -= 1;
        Ok(true)
    }

    /// Removes and returns the lowest id. It does not allocate.
    #[inline(always)]
    pub(in crate::proved) fn pop_first(&mut self) -> Option<u32> {
        let id = self.runs.pop()?;
        self.count -= 1;
        Some(id)
    }

    /// Adds the ids from `first` to `last`, both included, which are above all ids of the set. An error changes nothing.
    pub(in crate::proved) fn add_above(&mut self, first: u32, last: u32) -> Result<(), AllocError> {
        add_run(&mut self.runs, self.alloc, first, last)?;
        self.count += u64::from(last) + 1 - u64::from(first);
        Ok(())
    }
}

/// Takes the lowest run that is left.
fn lowest_run(runs: &mut Iter<'_, Run>) -> Option<Run> {
    runs.next().copied()
}

/// Takes the highest run that is left.
fn highest_run(runs: &mut Iter<'_, Run>) -> Option<Run> {
    runs.next_back().copied()
}

/// Returns the lowest run that ends at an id or above it, if there is one.
fn run_from(runs: &KeyedList<Run>, id: u32) -> Option<Run> {
    runs.at_or_above(id.into()).copied()
}

/// Returns the highest run that ends below an id, if there is one.
fn run_below(runs: &KeyedList<Run>, id: u32) -> Option<Run> {
    runs.highest_below(id.into()).copied()
}

/// Returns the highest run, if there is one. All runs are below an id.
fn highest(runs: &KeyedList<Run>, id: u32) -> Option<Run> {
    run_below(runs, id)
}

/// Puts a run, which replaces the one with the same last id. An error changes nothing.
fn insert_run(runs: &mut KeyedList<Run>, alloc: Global, run: Run) -> Result<(), AllocError> {
    runs.insert(alloc, run)?;
    Ok(())
}

/// Adds an id, and returns `true`. Returns `false` if a run has it already. An error changes nothing.
fn add(runs: &mut KeyedList<Run>, alloc: Global, id: u32) -> Result<bool, AllocError> {
    if runs.add_alone(alloc, id)? {
        return Ok(true);
    }
    add_beside(runs, alloc, id)
}

/// Adds an id that can be next to a run, as [`add`] does.
fn add_beside(runs: &mut KeyedList<Run>, alloc: Global, id: u32) -> Result<bool, AllocError> {
    let above = run_from(runs, id);
    let below = run_below(runs, id);
    let Some(run) = joined(above, below, id) else {
        return Ok(false);
    };
    insert_run(runs, alloc, run)?;
    if run.first < id {
        runs.remove(u64::from(id) - 1);
    }
    Ok(true)
}

/// Returns the run of an id and of the runs next to it. Returns `None` if the run above has the id.
fn joined(above: Option<Run>, below: Option<Run>, id: u32) -> Option<Run> {
    let last = match above {
        Some(run) if run.first <= id => return None,
        Some(run) if run.first - 1 == id => run.last,
        _ => id,
    };
    let first = match below {
        Some(run) if run.last + 1 == id => run.first,
        _ => id,
    };
    Some(Run { first, last })
}

/// Returns `true` if both iterators return the same runs.
fn same_runs(mut a: Iter<'_, Run>, mut b: Iter<'_, Run>) -> bool {
    while let Some(x) = a.next() {
        let Some(y) = b.next() else {
            return false;
        };
        if *x != *y {
            return false;
        }
    }
    b.next().is_none()
}

/// Returns the run that has an id, if there is one.
fn run_of(runs: &KeyedList<Run>, id: u32) -> Option<Run> {
    match run_from(runs, id) {
        Some(run) if run.first <= id => Some(run),
        _ => None,
    }
}

/// Takes an id out of the run that has it. An error changes nothing.
fn cut(runs: &mut KeyedList<Run>, alloc: Global, id: u32, run: Run) -> Result<(), AllocError> {
    if id == run.last {
        if run.first == id {
            runs.remove(id.into());
        } else {
            let lower = Run {
                first: run.first,
                last: id - 1,
            };
            runs.lower_key(id.into(), lower);
        }
        return Ok(());
    }
    if run.first < id {
        let lower = Run {
            first: run.first,
            last: id - 1,
        };
        insert_run(runs, alloc, lower)?;
    }
    runs.set(Run {
        first: id + 1,
        last: run.last,
    });
    Ok(())
}

/// Adds the ids from `first` to `last`, which are above all runs. An error changes nothing.
fn add_run(
    runs: &mut KeyedList<Run>,
    alloc: Global,
    first: u32,
    last: u32,
) -> Result<(), AllocError> {
    let start = start_above(runs, first);
    insert_run(runs, alloc, Run { first: start, last })?;
    if start < first {
        runs.remove(u64::from(first) - 1);
    }
    Ok(())
}

/// Returns the first id of the run that ends right below an id, which is above all runs. Returns the id if there is none.
fn start_above(runs: &KeyedList<Run>, id: u32) -> u32 {
    match highest(runs, id) {
        Some(run) if run.last.checked_add(1) == Some(id) => run.first,
        _ => id,
    }
}
