// Written by bindings/erase from crates/vm_list/src/chunk/runs.rt: do not edit.

//! The runs of ids of a leaf.

use super::Chunk;
use crate::proved::vm_list::find;
use crate::proved::vm_list::id_set::Run;

impl Chunk<Run> {
    /// Removes and returns the lowest id. It does not allocate.
    pub(in crate::proved::vm_list) fn pop(&mut self) -> Option<u32> {
        let at = self.entries.len().checked_sub(1)?;
        let Run { first, last } = self.entries[at];
        let has_more = first < last;
        self.entries[at] = Run {
            first: first + u32::from(has_more),
            last,
        };
        self.entries.truncate(at + usize::from(has_more));
        Some(first)
    }

    /// Returns the index at which the run of an id belongs, if a run is above it, and none is next to it.
    pub(in crate::proved::vm_list) fn alone_at(&self, id: u32) -> Option<usize> {
        let runs = self.entries.as_slice();
        let Err(at) = find(runs, id.into()) else {
            return None;
        };
        if at == 0 || u64::from(runs[at - 1].first) <= u64::from(id) + 1 {
            return None;
        }
        if at < runs.len() && u64::from(runs[at].last) + 1 >= u64::from(id) {
            return None;
        }
        Some(at)
    }
}
