/* SPDX-License-Identifier: Apache-2.0 OR BSD-3-Clause */
/*
 * Guards against a library that clashes with another Rust library in one program:
 * beside.rs must still catch its own panic.
 */
#include "check.h"

bool catches_its_panic(void);

int main(void) {
    dvs_address_allocator *space;

    CHECK(dvs_address_allocator_new(0, 10, &space) == DVS_OK);
    CHECK(catches_its_panic());
    dvs_address_allocator_destroy(space);
    return 0;
}
