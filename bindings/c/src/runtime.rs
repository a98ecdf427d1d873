// SPDX-License-Identifier: Apache-2.0 OR BSD-3-Clause
//! Memory from the C library, and the end of the process after a panic: what `std` does otherwise.
//!
//! Without `std`, the libraries have a third of the size and need only the C library.

use core::alloc::{GlobalAlloc, Layout};
use core::arch::global_asm;
use core::ffi::{c_int, c_void};
use core::panic::PanicInfo;
use core::ptr::null_mut;

#[link(name = "c")]
extern "C" {
    fn malloc(size: usize) -> *mut c_void;
    fn realloc(block: *mut c_void, size: usize) -> *mut c_void;
    fn free(block: *mut c_void);
    fn write(file: c_int, text: *const c_void, length: usize) -> isize;
    fn abort() -> !;
}

/// The memory of the C library.
struct Memory;

#[global_allocator]
static MEMORY: Memory = Memory;

/// The alignment of each block that `malloc` returns. No type of the library has a greater one.
const ALIGNMENT: usize = 2 * size_of::<usize>();

// SAFETY: the functions of the C library keep the contract for alignments up to `ALIGNMENT`. For
// others the allocation fails.
unsafe impl GlobalAlloc for Memory {
    unsafe fn alloc(&self, layout: Layout) -> *mut u8 {
        match layout.align() <= ALIGNMENT {
            // SAFETY: `malloc` accepts each size.
            true => unsafe { malloc(layout.size()) }.cast(),
            false => null_mut(),
        }
    }

    unsafe fn realloc(&self, block: *mut u8, _layout: Layout, size: usize) -> *mut u8 {
        // SAFETY: the block is from a call of this allocator, so `ALIGNMENT` is enough for it.
        unsafe { realloc(block.cast(), size) }.cast()
    }

    unsafe fn dealloc(&self, block: *mut u8, _layout: Layout) {
        // SAFETY: the block is from a call of this allocator.
        unsafe { free(block.cast()) };
    }
}

/// Writes a line to the standard error stream, and ends the process.
fn end(line: &str) -> ! {
    // SAFETY: the bytes of the line are readable. If the call fails, nothing is written.
    unsafe { write(2, line.as_ptr().cast(), line.len()) };
    // SAFETY: `abort` requires nothing.
    unsafe { abort() }
}

#[panic_handler]
fn panic(_: &PanicInfo) -> ! {
    end("divsharun: the process ends because of a bug in the library, or a pointer to no object or a destroyed one\n")
}

// Another library in the same program can have a function of this name.
global_asm!(".hidden rust_eh_personality");

/// Ends the process. The unwinder calls it if an exception, `pthread_exit` or a cancellation leaves
/// a visitor.
#[unsafe(no_mangle)]
extern "C" fn rust_eh_personality() -> ! {
    end("divsharun: the process ends because a visitor did not return\n")
}
