// Written by bindings/erase from crates/vm_tree/src/entries.rt: do not edit.

//! The entries of the children of a node.

use crate::proved::vm_tree::columns::{
    append_in, greatest_in, insert_in, last_up_to, most_in, remove_in, split_in,
};

/// The maximum number of children.
pub(in crate::proved) const FANOUT: usize = 16;

/// The minimum number of children of a node that is no root.
pub(in crate::proved::vm_tree) const MIN_CHILDREN: usize = 5;

/// The entry of a child, which is stored beside it: its first address, and the summary of its gaps.
#[derive(Clone, Copy, Debug)]
pub(in crate::proved) struct Entry {
    pub(in crate::proved) at: u64,
    pub(in crate::proved) longest: u64,
    pub(in crate::proved) alignments: u32,
}

/// No entry is above it. A change of a root is told it, because no entry of a root is stored.
pub(in crate::proved::vm_tree) const MOST: Entry = Entry {
    at: 0,
    longest: u64::MAX,
    alignments: 64,
};

/// The entries of up to `FANOUT` children, each part in an array.
#[derive(Debug)]
#[repr(C)]
pub(in crate::proved) struct Entries {
    at: [u64; FANOUT],
    longest: [u64; FANOUT],
    alignments: [u32; FANOUT],
    len: usize,
}

impl Entries {
    /// Creates a list of no entries.
    pub(in crate::proved) fn empty() -> Entries {
        Entries {
            at: [u64::MAX; FANOUT],
            longest: [0; FANOUT],
            alignments: [0; FANOUT],
            len: 0,
        }
    }

    /// Returns a copy.
    pub(in crate::proved) fn copy(&self) -> Entries {
        Entries {
            at: self.at,
            longest: self.longest,
            alignments: self.alignments,
            len: self.len,
        }
    }

    /// Returns the number of entries.
    #[inline(always)]
    pub(in crate::proved) fn len(&self) -> usize {
        self.len
    }

    /// Returns the entry at an index.
    #[inline(always)]
    pub(in crate::proved) fn entry(&self, i: usize) -> Entry {
        let _len = self.len;
        Entry {
            at: self.at[i],
            longest: self.longest[i],
            alignments: self.alignments[i],
        }
    }

    /// Writes the entry at an index.
    #[inline(always)]
    pub(in crate::proved) fn set_entry(&mut self, i: usize, entry: Entry) {
        let _len = self.len;
        self.at[i] = entry.at;
        self.longest[i] = entry.longest;
        self.alignments[i] = entry.alignments;
    }

    /// Writes the first address of an entry.
    #[inline(always)]
    pub(in crate::proved::vm_tree) fn set_at(&mut self, i: usize, at: u64) {
        let _len = self.len;
        self.at[i] = at;
    }

    /// Inserts an entry.
    pub(in crate::proved) fn insert(&mut self, i: usize, entry: Entry) {
        let len = self.len;
        insert_in(&mut self.at, len, i, entry.at);
        insert_in(&mut self.longest, len, i, entry.longest);
        insert_in(&mut self.alignments, len, i, entry.alignments);
        self.len = len + 1;
    }

    /// Removes an entry.
    pub(in crate::proved) fn remove(&mut self, i: usize) {
        let len = self.len;
        remove_in(&mut self.at, len, i, u64::MAX);
        remove_in(&mut self.longest, len, i, 0);
        remove_in(&mut self.alignments, len, i, 0);
        self.len = len - 1;
    }

    /// Appends the entries of another list.
    pub(in crate::proved) fn append(&mut self, other: &Entries) {
        let (len, more) = (self.len, other.len);
        append_in(&mut self.at, len, &other.at, more);
        append_in(&mut self.longest, len, &other.longest, more);
        append_in(&mut self.alignments, len, &other.alignments, more);
        self.len = len + more;
    }

    /// Moves the entries from `at` on to a list that has none.
    pub(in crate::proved) fn split_off(&mut self, at: usize, upper: &mut Entries) {
        let len = self.len;
        let _none = upper.len;
        split_in(&mut self.at, len, at, &mut upper.at, u64::MAX);
        split_in(&mut self.longest, len, at, &mut upper.longest, 0);
        split_in(&mut self.alignments, len, at, &mut upper.alignments, 0);
        self.len = at;
        upper.len = len - at;
    }

    /// Returns the index of the last entry.
    fn last(&self) -> usize {
        let last = self.len - 1;
        let _at = self.entry(last).at;
        last
    }

    /// Returns the index of the last entry whose address is at most `address`, or 0.
    #[inline(always)]
    pub(in crate::proved) fn index_of(&self, address: u64) -> usize {
        if address == u64::MAX {
            return self.last();
        }
        last_up_to(&self.at, address)
    }

    /// Returns the length of the longest gap.
    #[inline(always)]
    pub(in crate::proved) fn longest(&self) -> u64 {
        let _len = self.len;
        greatest_in(&self.longest)
    }

    /// Returns the most alignments.
    #[inline(always)]
    pub(in crate::proved) fn alignments(&self) -> u32 {
        let _len = self.len;
        most_in(&self.alignments)
    }

    /// Returns the entry of all of these together.
    pub(in crate::proved) fn sum(&self) -> Entry {
        Entry {
            at: self.entry(0).at,
            longest: self.longest(),
            alignments: self.alignments(),
        }
    }
}
