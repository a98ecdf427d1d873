// SPDX-License-Identifier: Apache-2.0 OR BSD-3-Clause
//! Makes random histories of calls on both libraries.
//!
//! After a difference, the allocator of `vm-allocator` is read from the one that divsharun saves,
//! so that each difference is independent.

use crate::difference::{number_of, Request, Tally};
use crate::saved::{compare_saved, held_and_clear, reread, value_of};
use crate::workload::{Answer, Draw, Library, Place};
use crate::{Port, Rust};

/// The number of calls in a history.
const CALLS: u64 = 200;

/// Both libraries with the same space.
struct Spaces {
    rust: vm_allocator::AddressAllocator,
    port: divsharun::AddressAllocator,
    // Without ranges that `vm-allocator` wrongly keeps after one of its bugs.
    held: Vec<(u64, u64)>,
}

impl Spaces {
    fn new(base: u64, size: u64) -> Self {
        Spaces {
            rust: Rust::space(base, size),
            port: Port::space(base, size),
            held: Vec::new(),
        }
    }

    /// Makes a call on both, and compares the results and the blocks.
    fn call(&mut self, request: &Request, tally: &mut Tally) {
        let before = self.port.clone();
        let (rust, port) = match *request {
            Request::Allocate {
                size,
                alignment,
                place,
            } => (
                Rust::allocate(&mut self.rust, size, alignment, place),
                Port::allocate(&mut self.port, size, alignment, place),
            ),
            Request::Free(start, end) => (
                Rust::free(&mut self.rust, (start, end)),
                Port::free(&mut self.port, (start, end)),
            ),
        };
        tally.calls += 1;
        self.note(request, &port);
        if rust == port && held_and_clear(&self.rust) == held_and_clear(&self.port) {
            return;
        }
        match number_of(&before, request, &rust, &port) {
            Some(number) => tally.named_difference(number),
            None => tally.unnamed_difference(&format!(
                "{request:x?}: {rust:x?} and {port:x?} on\n{}",
                before.layout()
            )),
        }
        self.rust = reread(&self.port);
    }

    /// Updates the list of allocated ranges.
    fn note(&mut self, request: &Request, answer: &Answer) {
        match (request, answer) {
            (Request::Allocate { .. }, Ok(range)) => self.held.push(*range),
            (Request::Free(..), Ok(range)) => self.held.retain(|held| held != range),
            _ => {}
        }
    }
}

/// Returns a random space: small at either end of the addresses or between, or large.
fn draw_space(draw: &mut Draw) -> (u64, u64) {
    let size = 1 + draw.below(96);
    match draw.below(8) {
        0 => (0, size),
        1 => (1, size),
        2 => (u64::MAX - size + 1, size),
        3 => (u64::MAX - size, size),
        4 => (1, u64::MAX),
        5 => (0, u64::MAX),
        _ => (4096 + draw.below(64), size),
    }
}

/// Returns a random call. Most calls are valid.
fn draw_request(draw: &mut Draw, spaces: &Spaces) -> Request {
    let base = spaces.port.base();
    let width = (spaces.port.end() - base).min(96) + 1;
    let near = base.saturating_add(draw.below(width));
    let size = match draw.below(40) {
        0 => u64::MAX - draw.below(3),
        1 => 0,
        2 => width,
        _ => 1 + draw.below(8),
    };
    let alignment = match draw.below(40) {
        0 => draw.below(8),
        1 => 1 << 63,
        _ => 1 << draw.below(4),
    };
    let place = match draw.below(12) {
        0..=2 => Place::First,
        3..=4 => Place::Last,
        5 => Place::Exact(near),
        6 | 7 => Place::Exact(near - near % alignment.max(1)),
        8 if draw.below(4) == 0 => return Request::Free(near, near.saturating_add(draw.below(6))),
        8 => Place::Exact(u64::MAX - draw.below(4)),
        _ => return draw_release(draw, spaces, near),
    };
    Request::Allocate {
        size,
        alignment,
        place,
    }
}

/// Returns a call that frees an allocated range, a part of one, or a gap.
fn draw_release(draw: &mut Draw, spaces: &Spaces, near: u64) -> Request {
    let blocks = || spaces.port.layout();
    if draw.below(16) == 0 {
        let layout = blocks();
        let gap = layout
            .blocks()
            .find(|block| block.state == divsharun::NodeState::Free);
        let (start, end) = gap.map_or((near, near), |gap| (gap.range.start(), gap.range.end()));
        return Request::Free(start, end);
    }
    let Some(last) = spaces.held.len().checked_sub(1) else {
        return Request::Free(near, near);
    };
    let (start, end) = spaces.held[draw.below(last as u64 + 1) as usize];
    match draw.below(16) {
        0 => Request::Free(start, start + (end - start) / 2),
        _ => Request::Free(start, end),
    }
}

/// Makes one history of calls on a space.
pub fn compare_addresses(seed: u64, tally: &mut Tally) {
    let mut draw = Draw::from_seed(seed);
    let (base, size) = draw_space(&mut draw);
    let mut spaces = Spaces::new(base, size);
    for _ in 0..CALLS {
        let request = draw_request(&mut draw, &spaces);
        spaces.call(&request, tally);
    }
    compare_saved(&spaces.rust, &spaces.port, tally);
    compare_order(&spaces, tally);
}

/// Compares the spaces with spaces that got the same ranges by other calls, and with spaces that
/// lack the first range.
fn compare_order(spaces: &Spaces, tally: &mut Tally) {
    let mut other = Port::space(spaces.port.base(), size_of(&spaces.port));
    for range in spaces.port.held_ranges() {
        let answer = Port::allocate(&mut other, range.len(), 1, Place::Exact(range.start()));
        assert!(answer.is_ok());
    }
    compare_pair(spaces, &other, tally);
    let first = spaces.port.held_ranges().next();
    if first.is_some_and(|range| other.free(&range).is_ok()) {
        compare_pair(spaces, &other, tally);
    }
}

/// Returns the number of addresses of a space.
fn size_of(space: &divsharun::AddressAllocator) -> u64 {
    space.end() - space.base() + 1
}

/// Compares the order of spaces. `vm-allocator` compares the shapes of trees, so the same blocks
/// can differ there.
fn compare_pair(spaces: &Spaces, other: &divsharun::AddressAllocator, tally: &mut Tally) {
    let rust_other = reread(other);
    let rust = spaces.rust.cmp(&rust_other);
    let port = spaces.port.cmp(other);
    tally.calls += 1;
    if rust == port {
        return;
    }
    match value_of(&spaces.rust) != value_of(&rust_other) {
        true => tally.named_difference(12),
        false => tally.unnamed_difference(&format!("{rust:?} and {port:?} for the same trees")),
    }
}

/// Makes one history of calls on ids.
pub fn compare_ids(seed: u64, tally: &mut Tally) {
    let mut draw = Draw::from_seed(seed ^ u64::MAX);
    let count = draw.below(24) as u32;
    let base = match draw.below(3) {
        0 => 0,
        1 => u32::MAX - count,
        _ => 5 + draw.below(100) as u32,
    };
    let mut rust = Rust::ids(base, base + count);
    let mut port = Port::ids(base, base + count);
    for _ in 0..CALLS {
        let id = base
            .wrapping_add(draw.below(u64::from(count) + 3) as u32)
            .wrapping_sub(1);
        let answers = match draw.below(2) {
            0 => (Rust::allocate_id(&mut rust), Port::allocate_id(&mut port)),
            _ => (Rust::free_id(&mut rust, id), Port::free_id(&mut port, id)),
        };
        tally.calls += 1;
        if answers.0 != answers.1 || rust.is_allocated(id) != port.is_allocated(id) {
            tally.unnamed_difference(&format!("id {id} of {port:?}: {answers:?}"));
        }
    }
    compare_saved(&rust, &port, tally);
}
