// Written by bindings/erase from crates/vm_ids/src/id_allocator/freed_ids.rt: do not edit.

//! The freed ids, as an iterator from both ends.
//!
//! It walks over the runs of the freed ids, and visits no other ids.

use super::held_ids_in::{last_run, next_run};
use super::IdAllocator;
use crate::proved::vm_list::{Iter, Run};

/// An iterator over the ids that were allocated and are free now, from the lowest to the highest, or
/// backwards. It does not allocate.
///
/// Its model is the list of the ids that it has not returned yet.
pub struct FreedIds<'a> {
    // The rest of the run that was begun from below, the runs that were not begun, and the rest of the
    // run that was begun from above.
    first: Option<Run>,
    runs: Iter<'a, Run>,
    last: Option<Run>,
}

impl<'a> Iterator for FreedIds<'a> {
    type Item = u32;

    /// Returns the lowest freed id that is left.
    fn next(&mut self) -> Option<u32> {
        let run = take_first(self.first, &mut self.runs, &mut self.last)?;
        self.first = without_first(run);
        Some(run.first)
    }
}

impl<'a> DoubleEndedIterator for FreedIds<'a> {
    /// Returns the highest freed id that is left.
    fn next_back(&mut self) -> Option<u32> {
        let run = take_last(&mut self.first, &mut self.runs, self.last)?;
        self.last = without_last(run);
        Some(run.last)
    }
}

/// Takes the first run that is left.
fn take_first(first: Option<Run>, runs: &mut Iter<'_, Run>, last: &mut Option<Run>) -> Option<Run> {
    match first {
        Some(run) => Some(run),
        None => match next_run(runs) {
            Some(run) => Some(run),
            None => last.take(),
        },
    }
}

/// Takes the last run that is left.
fn take_last(first: &mut Option<Run>, runs: &mut Iter<'_, Run>, last: Option<Run>) -> Option<Run> {
    match last {
        Some(run) => Some(run),
        None => match last_run(runs) {
            Some(run) => Some(run),
            None => first.take(),
        },
    }
}

/// Returns the run without its first id, or `None` if it has no other.
fn without_first(run: Run) -> Option<Run> {
    if run.first < run.last {
        return Some(Run {
            first: run.first + 1,
            last: run.last,
        });
    }
    None
}

/// Returns the run without its last id, or `None` if it has no other.
fn without_last(run: Run) -> Option<Run> {
    if run.first < run.last {
        return Some(Run {
            first: run.first,
            last: run.last - 1,
        });
    }
    None
}

impl IdAllocator {
    /// Returns an iterator over the ids that were allocated and are free now, from the lowest to the
    /// highest.
    ///
    /// It visits only the freed ids, and does not allocate memory.
    pub fn freed_ids(&self) -> FreedIds<'_> {
        FreedIds {
            first: None,
            runs: self.freed_ids.runs(),
            last: None,
        }
    }
}
