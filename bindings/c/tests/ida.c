/* SPDX-License-Identifier: Apache-2.0 OR BSD-3-Clause */
/*
 * Guards against an id that is lost or allocated twice while ids become dense or sparse. The
 * subjects are those of the tests of ida, which allocates ids in Linux. The expected results
 * follow from the rule of the lowest free id and from the header.
 */
#include "every_call.h"

#define BIT_24 ((uint32_t)1 << 24)
#define BIT_31 ((uint32_t)1 << 31)
#define NONE UINT64_MAX

/* The number of ids that become dense. */
enum { DENSE = 1024 };

/* Calls on an allocator for all ids, in this order. */
static const struct {
    int call;
    uint64_t numbers[2];
    struct outcome outcome;
} steps[] = {
    {ID_EXACT, {BIT_24}, SUCCEEDS},
    {ID_EXACT, {BIT_31}, SUCCEEDS},
    {ID_EXACT, {INT32_MAX}, SUCCEEDS},
    {FREE_ID, {INT32_MAX - 1}, TELLS_ID(DVS_ALREADY_RELEASED, INT32_MAX - 1)},
    {FREE_ID, {BIT_31 + 1}, TELLS_ID(DVS_NEVER_ALLOCATED, BIT_31 + 1)},
    {ID_EXACT, {UINT32_MAX - 1}, SUCCEEDS},
    {FREE_ID, {UINT32_MAX}, TELLS_ID(DVS_NEVER_ALLOCATED, UINT32_MAX)},
    {ID_IN, {UINT32_MAX - 1, UINT32_MAX}, GETS_ID(UINT32_MAX)},
    {ID_IN, {UINT32_MAX - 1, UINT32_MAX}, NO_PLACE},
    {ID_IN, {BIT_24, BIT_31}, GETS_ID(BIT_24 + 1)},
    {ID_IN, {INT32_MAX, UINT32_MAX}, GETS_ID(BIT_31 + 1)},
    {FREE_ID, {BIT_31}, SUCCEEDS},
    {FREE_ID, {BIT_31}, TELLS_ID(DVS_ALREADY_RELEASED, BIT_31)},
    {ID_IN, {INT32_MAX, UINT32_MAX}, GETS_ID(BIT_31)},
    {FREE_ID, {UINT32_MAX}, SUCCEEDS},
    {FREE_ID, {UINT32_MAX}, TELLS_ID(DVS_ALREADY_RELEASED, UINT32_MAX)},
    {ID, {0}, GETS_ID(0)},
    {ID_COUNT, {0}, GETS_NUMBER(7)},
    {FREE_COUNT, {0}, GETS_NUMBER(((uint64_t)1 << 32) - 7)},
};

static int keep_object(void *context) {
    return context != NULL;
}

static dvs_id_allocator *ids_between(uint32_t first, uint32_t last) {
    dvs_id_allocator *ids;

    CHECK(dvs_id_allocator_new(first, last, &ids, NULL) == DVS_OK);
    return ids;
}

static void allocate_sparse(void) {
    dvs_id_allocator *ids = ids_between(0, UINT32_MAX);
    size_t i;

    given = usual;
    for (i = 0; i < sizeof steps / sizeof steps[0]; i++)
        CHECK(has_outcome(&steps[i].outcome, attempt(steps[i].call, ids, steps[i].numbers)));
    dvs_id_allocator_destroy(ids);
}

/* Allocates the lowest free id from `first` to `last` and returns it, or NONE if there is none. */
static uint64_t next_in(dvs_id_allocator *ids, uint32_t first, uint32_t last) {
    uint32_t id;
    dvs_status status = dvs_id_allocate_in(ids, first, last, &id, NULL);

    CHECK(status == DVS_OK || status == DVS_RESOURCE_NOT_AVAILABLE);
    return status == DVS_OK ? id : NONE;
}

/* The orders in which ids are freed: ascending, descending, every second id first, and mixed. */
static uint32_t in_order(int order, uint32_t i) {
    const uint32_t numbers[] = {i, DENSE - 1 - i, 2 * i % DENSE + 2 * i / DENSE, 643 * i % DENSE};

    return numbers[order];
}

/* Fills a window of ids, frees half of them, fills it again and frees all. */
static void fill_and_free(dvs_id_allocator *ids, uint32_t base, int order) {
    const uint32_t last = base + (DENSE - 1);
    bool is_free[DENSE] = {false}, is_held;
    uint64_t count;
    uint32_t i;

    for (i = 0; i < DENSE; i++)
        CHECK(next_in(ids, base, last) == base + i);
    CHECK(next_in(ids, base, last) == NONE);
    for (i = 0; i < DENSE / 2; i++) {
        is_free[in_order(order, i)] = true;
        CHECK(dvs_id_free(ids, base + in_order(order, i), NULL) == DVS_OK);
    }
    for (i = 0; i < DENSE; i++)
        CHECK(dvs_id_is_allocated(ids, base + i, &is_held) == DVS_OK && is_held != is_free[i]);
    for (i = 0; i < DENSE; i++)
        CHECK(!is_free[i] || next_in(ids, base, last) == base + i);
    for (i = 0; i < DENSE; i++)
        CHECK(dvs_id_free(ids, base + in_order(order, i), NULL) == DVS_OK);
    CHECK(dvs_id_count(ids, &count) == DVS_OK && count == 0);
}

/* Allocates the ids from `base` to `last`, the highest of the allocator. */
static void allocate_highest(uint32_t first, uint32_t base, uint32_t last) {
    const dvs_status full = last == UINT32_MAX ? DVS_OVERFLOW : DVS_RESOURCE_NOT_AVAILABLE;
    dvs_id_allocator *ids = ids_between(first, last);
    dvs_status status;
    uint32_t i, id;

    for (i = 0; i <= last - base; i++)
        CHECK(next_in(ids, base, UINT32_MAX) == base + i);
    CHECK(next_in(ids, base, UINT32_MAX) == NONE);
    status = dvs_id_allocate(ids, &id);
    CHECK(first == base ? status == full : status == DVS_OK && id == first);
    dvs_id_allocator_destroy(ids);
}

/* Tests windows of ids. The first id of an allocator is far below its window if ids are sparse. */
static void check_windows(bool are_sparse) {
    static const uint32_t bases[] = {0, 1, BIT_24, INT32_MAX, BIT_31, UINT32_MAX - (DENSE - 1)};
    dvs_id_allocator *ids;
    size_t i;
    int j;

    for (i = 0; i < sizeof bases / sizeof bases[0]; i++) {
        ids = ids_between(are_sparse ? 0 : bases[i], UINT32_MAX);
        for (j = 0; j < 4; j++)
            fill_and_free(ids, bases[i], j);
        dvs_id_allocator_destroy(ids);
    }
    for (i = 1; i <= 1 << 12; i *= 2) {
        const uint32_t low = BIT_31 - (uint32_t)i, high = UINT32_MAX - (uint32_t)(i - 1);

        allocate_highest(are_sparse ? 0 : low, low, INT32_MAX);
        allocate_highest(are_sparse ? 0 : high, high, UINT32_MAX);
    }
}

int main(void) {
    check_windows(false);
    allocate_sparse();
    check_windows(true);
    puts("ida: dense and sparse ids checked");
    return 0;
}
