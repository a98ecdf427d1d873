/* SPDX-License-Identifier: Apache-2.0 OR BSD-3-Clause */
/*
 * Makes the mistake whose number is the argument. Valgrind must notice it in a call, and
 * the library itself must notice the last one.
 */

#include "check.h"

#include <malloc.h>

SAVED(saved, dvs_address_allocator)

int main(int argc, char **argv) {
    const int mistake = argc == 2 ? atoi(argv[1]) : 0;
    dvs_range *one = (dvs_range *)malloc(sizeof *one);
    dvs_address_allocator *space, *other;
    dvs_id_allocator *ids;
    size_t length;
    uint64_t count;
    char *text;

    *one = range_of(1, 1);
    CHECK(dvs_address_allocator_with_held(0, 16, one, 1, &space, NULL, NULL) == DVS_OK);
    CHECK(dvs_id_allocator_new(0, 9, &ids, NULL) == DVS_OK);
    text = saved(space, &length);
    /* An array, an array for results and a text that are too short. */
    if (mistake == 1 &&
        dvs_address_allocator_with_held(0, 16, one, 2, &other, NULL, NULL) == DVS_OK)
        dvs_address_allocator_destroy(other);
    if (mistake == 5)
        (void)!dvs_ids_allocate(ids, (uint32_t *)one, 5);
    if (mistake == 6)
        CHECK(dvs_address_allocator_read(text, length + 2, &other) == DVS_NOT_JSON);
    CHECK(dvs_id_allocator_destroy(ids) == DVS_OK);
    length = malloc_usable_size(space);
    CHECK(dvs_address_allocator_destroy(space) == DVS_OK);
    /* An object that is used, or destroyed again, after it was destroyed. */
    if (mistake == 2)
        (void)!dvs_range_count(space, &count);
    if (mistake == 3)
        (void)!dvs_address_allocator_destroy(space);
    /* Its memory has been cleared since. */
    if (mistake == 7)
        (void)!dvs_range_at((dvs_address_allocator *)memset(space, 0, length), 1, one);
    dvs_text_destroy(text);
    if (mistake == 4)
        dvs_text_destroy(text);
    free(one);
    return 0;
}
