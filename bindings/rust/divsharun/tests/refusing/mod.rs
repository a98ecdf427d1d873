// SPDX-License-Identifier: Apache-2.0 OR BSD-3-Clause
//! A global allocator that counts the allocations of a thread and their bytes, and can fail one of
//! them. So a test can make memory run out in the middle of a call.
#![allow(dead_code)]

use std::alloc::{GlobalAlloc, Layout, System};
use std::cell::Cell;
use std::{ptr, thread_local};

thread_local! {
    static REQUESTS: Cell<u64> = const { Cell::new(0) };
    static REFUSED: Cell<u64> = const { Cell::new(0) };
    static BLOCKS: Cell<i64> = const { Cell::new(0) };
    static BYTES: Cell<i64> = const { Cell::new(0) };
    static MOST_BYTES: Cell<i64> = const { Cell::new(0) };
}

/// The system allocator, except for the allocation that a test fails.
pub struct Refusing;

#[global_allocator]
static ALLOCATOR: Refusing = Refusing;

/// Makes a call in which the allocation of this number fails. Numbers start at 1, and 0 fails none.
/// Returns the result of the call and the number of its allocations.
pub fn refusing<T>(number: u64, call: impl FnOnce() -> T) -> (T, u64) {
    REQUESTS.set(0);
    REFUSED.set(number);
    let result = call();
    REFUSED.set(0);
    (result, REQUESTS.get())
}

/// Returns the number of blocks that the thread has allocated and not freed.
pub fn blocks() -> i64 {
    BLOCKS.get()
}

/// Makes a call. Returns its result, and the maximum of the bytes that are allocated in the call.
pub fn peak_of<T>(call: impl FnOnce() -> T) -> (T, usize) {
    let before = BYTES.get();
    MOST_BYTES.set(before);
    let result = call();
    (result, (MOST_BYTES.get() - before) as usize)
}

/// Counts an allocation, and returns whether it must fail.
fn is_refused() -> bool {
    REQUESTS.set(REQUESTS.get() + 1);
    REQUESTS.get() == REFUSED.get()
}

/// Counts a block and its bytes, which are negative if it is freed.
fn count_block(block: *mut u8, bytes: i64) {
    if !block.is_null() {
        BLOCKS.set(BLOCKS.get() + bytes.signum());
        count_bytes(bytes);
    }
}

fn count_bytes(bytes: i64) {
    BYTES.set(BYTES.get() + bytes);
    MOST_BYTES.set(MOST_BYTES.get().max(BYTES.get()));
}

// SAFETY: each call is passed on to the system allocator, or fails with a null pointer, which
// leaves the old block unchanged.
unsafe impl GlobalAlloc for Refusing {
    unsafe fn alloc(&self, layout: Layout) -> *mut u8 {
        if is_refused() {
            return ptr::null_mut();
        }
        let block = System.alloc(layout);
        count_block(block, layout.size() as i64);
        block
    }

    unsafe fn dealloc(&self, block: *mut u8, layout: Layout) {
        count_block(block, -(layout.size() as i64));
        System.dealloc(block, layout);
    }

    unsafe fn realloc(&self, block: *mut u8, layout: Layout, size: usize) -> *mut u8 {
        if is_refused() {
            return ptr::null_mut();
        }
        let moved = System.realloc(block, layout, size);
        if !moved.is_null() {
            count_bytes(size as i64 - layout.size() as i64);
        }
        moved
    }
}
