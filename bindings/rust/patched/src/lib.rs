// SPDX-License-Identifier: Apache-2.0 OR BSD-3-Clause
//! Guards against a dependency that still gets the original `vm-allocator`, although a `[patch]` replaces
//! it: two crates share one allocator.

#[test]
fn a_dependency_uses_the_same_allocator() {
    let mut space = vm_allocator::AddressAllocator::new(0x1000, 0x1000).unwrap();
    let window = bus::plug(&mut space).unwrap();
    // Only divsharun lists the allocated ranges.
    assert!(space.held_ranges().eq([window]));
}
