/* SPDX-License-Identifier: Apache-2.0 OR BSD-3-Clause */
/*
 * Frees and allocates single addresses in a space with few longer gaps, or, with an argument, with
 * many. tests/c_library counts the instructions of these calls, which do not go through the gaps of
 * a leaf.
 */
#include "check.h"

/* A group has four ranges. The first one is a gap in some groups. */
enum { GROUPS = 400, GROUP = 16 };

int main(int count, char **words) {
    static dvs_range held[4 * GROUPS];
    const size_t every = count > 1 ? 1 : 8;
    size_t group, ranges = 0;
    dvs_address_allocator *space;
    dvs_range one;

    (void)words;
    for (group = 0; group < GROUPS; group++) {
        const uint64_t start = group * GROUP;

        if (group % every != 0)
            held[ranges++] = range_of(start, start + 3);
        held[ranges++] = range_of(start + 4, start + 6);
        held[ranges++] = range_of(start + 7, start + 7);
        held[ranges++] = range_of(start + 8, start + 15);
    }
    CHECK(dvs_address_allocator_with_held(0, GROUPS * GROUP, held, ranges, &space, NULL, NULL) ==
          DVS_OK);
    for (group = 0; group < GROUPS; group++) {
        const uint64_t at = group * GROUP + 7;

        CHECK(dvs_range_free(space, range_of(at, at), NULL) == DVS_OK);
        CHECK(dvs_range_allocate_exact(space, 1, 1, at, &one, NULL) == DVS_OK);
    }
    CHECK(dvs_address_allocator_destroy(space) == DVS_OK);
    return 0;
}
