/* SPDX-License-Identifier: Apache-2.0 OR BSD-3-Clause */
/*
 * Guards against a call with another status or result than in divsharun.h, and against
 * an error that writes to a result or changes the object. Most calls are the rows of
 * tables. DVS_OUT_OF_MEMORY is in memory.c, and windows.c, enumerate.c and
 * random_texts.py check the other calls.
 */
#include "every_call.h"

#include <limits.h>

/* ---- Calls with numbers ---- */

/* Checks the saved text of an object. */
static void is_saved_as(int group, void *object, const char *text) {
    prepare();
    CHECK(make_call(groups[group].copy + 1, object, bad) == DVS_OK);
    CHECK(strcmp(results.text, text) == 0 && strlen(text) == results.length);
    dvs_text_destroy(results.text);
}

struct step {
    int call;
    uint64_t numbers[4];
    struct outcome outcome;
};

/* Makes the calls of a table on an object, one after the other. */
static void run(void *object, const struct step *steps, size_t count) {
    size_t i;

    given = usual;
    for (i = 0; i < count; i++) {
        dvs_status status;

        prepare();
        status = make_call(steps[i].call, object, steps[i].numbers);
        if (status == DVS_OK && (steps[i].call == IS_ALLOCATED || steps[i].call == IS_ID_HELD))
            results.device.range.start = results.flag;
        if (!has_outcome(&steps[i].outcome, status))
            fprintf(stderr, "row %d: status %d\n", (int)i, (int)status);
        CHECK(has_outcome(&steps[i].outcome, status));
    }
}

static void run_on_space(uint64_t base, uint64_t size, const struct step *steps, size_t count) {
    dvs_address_allocator *space;

    CHECK(dvs_address_allocator_new(base, size, &space) == DVS_OK);
    run(space, steps, count);
    destroy(0, space);
}

/* Also checks the saved ids. */
static void run_on_ids(uint32_t first, uint32_t last, const struct step *steps, size_t count,
                       const char *text) {
    dvs_id_allocator *ids;

    CHECK(dvs_id_allocator_new(first, last, &ids, NULL) == DVS_OK);
    run(ids, steps, count);
    is_saved_as(1, ids, text);
    destroy(1, ids);
}

/* Large numbers: a multiple of 2^60, 2^40, and a number of addresses below 2^64. */
#define PART(number) ((uint64_t)(number) << 60)
#define BASE ((uint64_t)1 << 40)
#define BELOW(count) (TOP - (count) + 1)

static const struct step on_none[] = {
    {FROM_LENGTH, {TOP, 0}, ENDS(DVS_INVALID_SIZE)},
    {FROM_LENGTH, {TOP, 2}, ENDS(DVS_OVERFLOW)},
    {FROM_LENGTH, {TOP, 1}, GETS(TOP, TOP)},
    {FROM_LENGTH, {0, TOP}, GETS(0, TOP - 1)},
    {FROM_LENGTH, {0x1000, 0x100}, GETS(0x1000, 0x10ff)},
    {OFFSET_OF, {0x1000, 0x10ff, 0x1010}, GETS_NUMBER(0x10)},
    {OFFSET_OF, {0x1000, 0x10ff, 0x10ff}, GETS_NUMBER(0xff)},
    {OFFSET_OF, {0x1000, 0x10ff, 0xfff}, ENDS(DVS_RESOURCE_NOT_AVAILABLE)},
    {OFFSET_OF, {0x1000, 0x10ff, 0x1100}, ENDS(DVS_RESOURCE_NOT_AVAILABLE)},
    {OFFSET_OF, {2, 1, 1}, ENDS(DVS_INVALID_RANGE)},
    {FROM_LENGTH, {PART(8), PART(8)}, GETS(PART(8), TOP)},
    {FROM_LENGTH, {PART(8), PART(8) + 1}, ENDS(DVS_OVERFLOW)},
    {OFFSET_OF, {BASE, TOP, TOP}, GETS_NUMBER(TOP - BASE)},
    {OFFSET_OF, {PART(8), TOP, PART(8) - 1}, ENDS(DVS_RESOURCE_NOT_AVAILABLE)},
    {NEW_SPACE, {PART(8), PART(8) + 1}, ENDS(DVS_OVERFLOW)},
    {NEW_MANAGER, {1, 2, PART(8), PART(8) + 1}, FAILS(DVS_OVERFLOW)},
    {NEW_SPACE, {16, 0}, ENDS(DVS_UNDERFLOW)},
    {NEW_SPACE, {2, TOP}, ENDS(DVS_OVERFLOW)},
    {NEW_IDS, {23, 5}, TELLS(DVS_INVALID_RANGE, 23, 5)},
    {NEW_MANAGER, {2, 1, 0, 0}, TELLS(DVS_INVALID_RANGE, 2, 1)},
    {NEW_MANAGER, {1, 2, 0, 0}, FAILS(DVS_UNDERFLOW)},
    {NEW_MANAGER, {1, 2, TOP, 2}, FAILS(DVS_OVERFLOW)},
    {WITH_IDS, {23, 5}, TELLS(DVS_INVALID_RANGE, 23, 5)},
    {WITH_IDS, {10, 12}, TELLS_ID(DVS_OUT_OF_RANGE, 9)},
    {WITH_IDS, {5, 12}, TELLS_ID(DVS_OUT_OF_RANGE, 3)},
    {WITH_IDS, {3, 12}, TELLS_ID(DVS_RESOURCE_NOT_AVAILABLE, 3)},
    {WITH_RANGES, {0, 0}, TELLS(DVS_INVALID_RANGE, 2, 1)},
    {WITH_FREE, {0}, TELLS(DVS_INVALID_RANGE, 2, 1)},
    {WITH_VALUES, {0}, TELLS(DVS_INVALID_RANGE, 2, 1)},
    {DESTROY_SPACE, {0}, SUCCEEDS},
    {DESTROY_IDS, {0}, SUCCEEDS},
    {DESTROY_MANAGER, {0}, SUCCEEDS},
};

/* Several errors at once, of which the first is returned, in the order of the header. In the space
 * from 0x1000 to 0x1fff, and on devices. */
/* divsharun.h: "The comment of a call lists the other errors in the order in which they are
 * checked." */
static const struct step of_errors[] = {
    {FIRST, {0, 3}, FAILS(DVS_INVALID_SIZE)},
    {FIRST, {TOP, 3}, FAILS(DVS_INVALID_ALIGNMENT)},
    {LAST, {0, 3}, FAILS(DVS_INVALID_SIZE)},
    {LAST, {TOP, 3}, FAILS(DVS_INVALID_ALIGNMENT)},
    {EXACT, {0, 3, TOP}, FAILS(DVS_INVALID_SIZE)},
    {EXACT, {2, 3, TOP}, FAILS(DVS_INVALID_ALIGNMENT)},
    {EXACT, {2, 2, TOP}, FAILS(DVS_UNALIGNED_ADDRESS)},
    {EXACT, {2, 1, TOP}, FAILS(DVS_OVERFLOW)},
    {EXACT, {TOP, 1, 0xfff}, IN_THE_WAY(0, 0, OUTSIDE_SPACE, 0x1000, 0x1fff)},
    {EXACT, {TOP, 1, 0x1000}, FAILS(DVS_OVERFLOW)},
};

/* divsharun.h: "Allocates the lowest free range of `size` addresses that starts at a multiple of
 * `alignment`, and writes it to `range`."
 * divsharun.h: "Allocates the highest free range of `size` addresses that starts at a multiple of
 * `alignment`."
 * divsharun.h: "Writes the first and the last address of the space to `space`."
 * divsharun.h: "Writes the length of the longest gap to `length`, or 0 if there is none." */

/* In the space from 0x1000 to 0x1fff. */
static const struct step on_space[] = {
    {EXACT, {1, 1, 0xfff}, IN_THE_WAY(0xfff, 0xfff, OUTSIDE_SPACE, 0x1000, 0x1fff)},
    {REQUEST, {0}, FAILS(DVS_INVALID_POLICY)},
    {LIST, {0}, FAILS(DVS_INVALID_POLICY)},
    {MOVE_REQUEST, {2, 1}, FAILS(DVS_INVALID_POLICY)},
    {CONFLICT, {0}, ENDS(DVS_INVALID_POLICY)},
    {PEEK_RANGE, {0}, FAILS(DVS_INVALID_POLICY)},
    {FIRST, {0x1001, 1}, NO_FIT(0x1000, 0x1fff)},
    {FIRST, {0x100, 0x100}, GETS(0x1000, 0x10ff)},
    {LAST, {0x10, 0x100}, GETS(0x1f00, 0x1f0f)},
    {EXACT, {0x10, 1, 0x1801}, GETS(0x1801, 0x1810)},
    {IS_ALLOCATED, {0x1000, 0x10ff}, GETS_NUMBER(true)},
    {EXACT, {0x100, 0x100, 0x1000}, IS_TAKEN(0x1000, 0x10ff)},
    /* divsharun.h: "DVS_RESOURCE_NOT_AVAILABLE if exactly this range is not allocated, with the
     * cause of a request for it." */
    {FREE, {0x1000, 0x10fe}, IN_THE_WAY(0x1000, 0x10fe, ALLOCATED, 0x1000, 0x10ff)},
    {FREE, {0x1100, 0x1801}, IN_THE_WAY(0x1100, 0x1801, ALLOCATED, 0x1801, 0x1810)},
    {FREE, {0x1000, 0x2000}, IN_THE_WAY(0x1000, 0x2000, OUTSIDE_SPACE, 0x1000, 0x1fff)},
    {FREE, {0x1100, 0x1800}, NO_PLACE},
    {FREE, {2, 1}, TELLS(DVS_INVALID_RANGE, 2, 1)},
    {IS_ALLOCATED, {0, TOP}, TELLS(DVS_INVALID_RANGE, 0, TOP)},
    {IS_ALLOCATED, {0x1000, 0x10fe}, GETS_NUMBER(false)},
    {COUNT, {0}, GETS_NUMBER(3)},
    {FREE, {0x1801, 0x1810}, SUCCEEDS},
    {FREE, {0x1000, 0x10ff}, SUCCEEDS},
    {FREE, {0x1f00, 0x1f0f}, SUCCEEDS},
    {COUNT, {0}, GETS_NUMBER(0)},
    {FIRST, {0x1000, 1}, GETS(0x1000, 0x1fff)},
};

static const struct step of_moves[] = {
    {FIRST, {0x100, 0x100}, GETS(0x1000, 0x10ff)},
    {EXACT, {0x100, 0x100, 0x1200}, GETS(0x1200, 0x12ff)},
    {MOVE, {2, 1, TOP}, TELLS(DVS_INVALID_RANGE, 2, 1)},
    {MOVE, {0x1000, 0x10fe, TOP}, NO_PLACE},
    {MOVE, {0x1000, 0x10ff, TOP}, FAILS(DVS_OVERFLOW)},
    {MOVE, {0x1000, 0x10ff, 0xfff}, IN_THE_WAY(0xfff, 0x10fe, OUTSIDE_SPACE, 0x1000, 0x1fff)},
    {MOVE, {0x1000, 0x10ff, TOP - 1}, IN_THE_WAY(0, 0, OUTSIDE_SPACE, 0x1000, 0x1fff)},
    {MOVE, {0x1000, 0x10ff, 0x1080}, GETS(0x1080, 0x117f)},
    {MOVE, {0x1080, 0x117f, 0x1000}, GETS(0x1000, 0x10ff)},
    {MOVE, {0x1000, 0x10ff, 0x1180}, IN_THE_WAY(0x1180, 0x127f, ALLOCATED, 0x1200, 0x12ff)},
    {MOVE, {0x1000, 0x10ff, 0x1280}, IN_THE_WAY(0x1280, 0x137f, ALLOCATED, 0x1200, 0x12ff)},
    {MOVE, {0x1000, 0x10ff, 0x1200}, IS_TAKEN(0x1200, 0x12ff)},
    {MOVE, {0x1000, 0x10ff, 0x1000}, GETS(0x1000, 0x10ff)},
    {MOVE, {0x1000, 0x10ff, 0x1f00}, GETS(0x1f00, 0x1fff)},
    {FREE, {0x1000, 0x10ff}, NO_PLACE},
    {FREE, {0x1f00, 0x1fff}, SUCCEEDS},
    {FREE, {0x1200, 0x12ff}, SUCCEEDS},
    {COUNT, {0}, GETS_NUMBER(0)},
};

/* Numbers of more than 32 bits, in the 2^40 addresses starting at 0x7654321000001000. */
static const struct step of_large_ranges[] = {
    {SPACE, {0}, GETS(0x7654321000001000, 0x7654331000000fff)},
    {FIRST, {0x200000000, 0x400000000}, GETS(0x7654321400000000, 0x76543215ffffffff)},
    {LAST, {0x200000001, 0x800000000}, GETS(0x7654330800000000, 0x7654330a00000000)},
    {EXACT,
     {0x100000001, 0x800000000, 0x7654328800000000},
     GETS(0x7654328800000000, 0x7654328900000000)},
    {EXACT, {0x200000000, 1, 0x7654321400000000}, IS_TAKEN(0x7654321400000000, 0x76543215ffffffff)},
    {IS_ALLOCATED, {0x7654321400000000, 0x76543215ffffffff}, GETS_NUMBER(true)},
    {FREE, {0x7654328800000000, 0x7654328900000000}, SUCCEEDS},
    {FREE, {0x7654330800000000, 0x7654330a00000000}, SUCCEEDS},
    {FREE, {0x7654321400000000, 0x76543215ffffffff}, SUCCEEDS},
    {IS_ALLOCATED, {0x7654321400000000, 0x76543215ffffffff}, GETS_NUMBER(false)},
};

static const struct step on_last_space[] = {{SPACE, {0}, GETS(1, TOP)}};

/* In all addresses from 2^40. */
static const struct step of_largest_ranges[] = {
    {SPACE, {0}, GETS(BASE, TOP)},
    {GAP_AT, {TOP}, GETS(BASE, TOP)},
    {GAP_AT, {BASE - 1}, ENDS(DVS_RESOURCE_NOT_AVAILABLE)},
    {FREE_LENGTH, {0}, GETS_NUMBER(BELOW(BASE))},
    {FIRST, {PART(4), PART(8)}, GETS(PART(8), PART(12) - 1)},
    {FIRST, {PART(1) + 1, PART(4)}, GETS(PART(4), PART(5))},
    {LAST, {BASE + 1, PART(2)}, GETS(PART(14), PART(14) + BASE)},
    {LAST, {BASE, 2 * BASE}, GETS(BELOW(2 * BASE), TOP - BASE)},
    {LAST, {BASE, BASE}, FAILS(DVS_OVERFLOW)},
    {EXACT,
     {BASE, 1, TOP - BASE},
     IN_THE_WAY(TOP - BASE, TOP - 1, ALLOCATED, BELOW(2 * BASE), TOP - BASE)},
    {EXACT, {BASE - 1, BASE, BELOW(BASE)}, GETS(BELOW(BASE), TOP - 1)},
    {EXACT, {1, PART(8), PART(12)}, FAILS(DVS_UNALIGNED_ADDRESS)},
    {EXACT, {1, PART(9), PART(9)}, FAILS(DVS_INVALID_ALIGNMENT)},
    {EXACT, {PART(4), 1, PART(8)}, IS_TAKEN(PART(8), PART(12) - 1)},
    {RANGE_AT, {TOP - 1}, GETS(BELOW(BASE), TOP - 1)},
    {RANGE_AT, {TOP}, ENDS(DVS_RESOURCE_NOT_AVAILABLE)},
    {RANGE_AT, {PART(8)}, GETS(PART(8), PART(12) - 1)},
    {RANGE_AT, {PART(12)}, ENDS(DVS_RESOURCE_NOT_AVAILABLE)},
    {GAP_AT, {TOP}, GETS(TOP, TOP)},
    {GAP_AT, {TOP - 1}, ENDS(DVS_RESOURCE_NOT_AVAILABLE)},
    {GAP_AT, {PART(8) - 1}, GETS(PART(5) + 1, PART(8) - 1)},
    {GAP_AT, {PART(12)}, GETS(PART(12), PART(14) - 1)},
    {IS_ALLOCATED, {PART(8), PART(12) - 1}, GETS_NUMBER(true)},
    {IS_ALLOCATED, {PART(8), TOP}, GETS_NUMBER(false)},
    {MOVE, {PART(8), PART(12) - 1, TOP}, FAILS(DVS_OVERFLOW)},
    {MOVE, {PART(8), PART(12) - 1, PART(13)}, FAILS(DVS_OVERFLOW)},
    {MOVE, {PART(14), PART(14) + BASE, PART(12)}, GETS(PART(12), PART(12) + BASE)},
    {MOVE,
     {PART(12), PART(12) + BASE, PART(8)},
     IN_THE_WAY(PART(8), PART(8) + BASE, ALLOCATED, PART(8), PART(12) - 1)},
    {FREE, {PART(8), PART(12) - 1}, SUCCEEDS},
    {FREE, {PART(12), PART(12) + BASE}, SUCCEEDS},
    {GAP_AT, {PART(15)}, GETS(PART(5) + 1, TOP - 2 * BASE)},
    {LONGEST_GAP, {0}, GETS_NUMBER(TOP - 2 * BASE - PART(5))},
    {FREE_LENGTH, {0}, GETS_NUMBER(BELOW(3 * BASE) - PART(1))},
};

/* divsharun.h: "Errors, if all ids are allocated: DVS_OVERFLOW if the last id is UINT32_MAX, and
 * DVS_RESOURCE_NOT_AVAILABLE otherwise." */

/* On the ids from 5 to 7. */
static const struct step on_ids[] = {
    {PEEK, {0}, GETS_ID(5)},
    {IS_ID_HELD, {5}, GETS_NUMBER(false)},
    {ID, {0}, GETS_ID(5)},
    {IS_ID_HELD, {5}, GETS_NUMBER(true)},
    {IS_ID_HELD, {4}, GETS_NUMBER(false)},
    {ID, {0}, GETS_ID(6)},
    {FREE_ID, {5}, SUCCEEDS},
    {FREE_ID, {4}, TELLS_ID(DVS_OUT_OF_RANGE, 4)},
    {FREE_ID, {UINT32_MAX}, TELLS_ID(DVS_OUT_OF_RANGE, UINT32_MAX)},
    {FREE_ID, {7}, TELLS_ID(DVS_NEVER_ALLOCATED, 7)},
    {FREE_ID, {5}, TELLS_ID(DVS_ALREADY_RELEASED, 5)},
    {ID_COUNT, {0}, GETS_NUMBER(1)},
    {ID, {0}, GETS_ID(5)},
    {ID, {0}, GETS_ID(7)},
    {ID, {0}, ENDS(DVS_RESOURCE_NOT_AVAILABLE)},
    {PEEK, {0}, ENDS(DVS_RESOURCE_NOT_AVAILABLE)},
    {ID_IN, {8, 6}, TELLS(DVS_INVALID_RANGE, 8, 6)},
};

static const struct step on_last_id[] = {
    {ID, {0}, GETS_ID(UINT32_MAX)},
    {ID, {0}, ENDS(DVS_OVERFLOW)},
    {ID_IN, {0, UINT32_MAX}, NO_PLACE},
};

static const struct step on_all_ids[] = {{FREE_COUNT, {0}, GETS_NUMBER((uint64_t)1 << 32)}};

/* divsharun.h: "Allocates the lowest free id and writes it to `id`."
 * divsharun.h: "Allocates this id. Unused ids below it become freed ids, as if they had been
 * allocated and freed."
 * divsharun.h: "Allocates the lowest free id from `first` to `last`, both included" */

/* On the ids from 5 to 23. */
static const struct step of_given_ids[] = {
    {ID_EXACT, {24}, TELLS_ID(DVS_OUT_OF_RANGE, 24)},
    {ID_EXACT, {8}, SUCCEEDS},
    {FREE_COUNT, {0}, GETS_NUMBER(18)},
    {ID_EXACT, {8}, TELLS_ID(DVS_RESOURCE_NOT_AVAILABLE, 8)},
    {FREE_ID, {5}, TELLS_ID(DVS_ALREADY_RELEASED, 5)},
    {FREE_ID, {9}, TELLS_ID(DVS_NEVER_ALLOCATED, 9)},
    {ID_IN, {6, 8}, GETS_ID(6)},
    {ID_IN, {6, 8}, GETS_ID(7)},
    {ID_IN, {6, 8}, NO_PLACE},
    {ID_IN, {8, 6}, TELLS(DVS_INVALID_RANGE, 8, 6)},
    {ID_IN, {9, UINT32_MAX}, GETS_ID(9)},
    {FREE_COUNT, {0}, GETS_NUMBER(15)},
};

/* divsharun.h: "Allocates the lowest free id and the range of dvs_range_allocate_first() for a new
 * device" */

/* For the ids from 1 to 3, and the space from 0x1000 to 0x1fff. */
static const struct step on_devices[] = {
    {RESERVE, {0}, FAILS(DVS_INVALID_POLICY)},
    {RESERVE_WITH_ID, {9, 3}, FAILS(DVS_INVALID_POLICY)},
    {MOVE_DEVICE, {9}, FAILS(DVS_INVALID_POLICY)},
    {DEVICE_CONFLICT, {0}, ENDS(DVS_INVALID_POLICY)},
    {RESERVE_FIRST, {0x100, 0x100}, GETS_DEVICE(1, 0x1000, 0x10ff)},
    {RESERVE_LAST, {0x100, 0x100}, GETS_DEVICE(2, 0x1f00, 0x1fff)},
    {RESERVE_EXACT, {0x100, 1, 0x1000}, IS_TAKEN(0x1000, 0x10ff)},
    {RESERVE_EXACT, {0x100, 1, 0x1ef0}, IN_THE_WAY(0x1ef0, 0x1fef, ALLOCATED, 0x1f00, 0x1fff)},
    {RESERVE_EXACT, {1, 1, 0x1801}, GETS_DEVICE(3, 0x1801, 0x1801)},
    /* No id is free. */
    {RESERVE_FIRST, {1, 1}, NO_PLACE},
    {RESERVE_EXACT, {0x100, 1, 0x1ef0}, NO_PLACE},
    {DEVICE_SLOT, {2}, GETS(0x1f00, 0x1fff)},
    {DEVICE_AT, {0x1fff}, GETS_DEVICE(2, 0x1f00, 0x1fff)},
    {DEVICE_AT, {0x1802}, ENDS(DVS_RESOURCE_NOT_AVAILABLE)},
    {DEVICE_AT, {0}, ENDS(DVS_RESOURCE_NOT_AVAILABLE)},
    {RELEASE, {2}, SUCCEEDS},
    {RELEASE, {2}, TELLS_ID(DVS_NEVER_ALLOCATED, 2)},
    {DEVICE_SLOT, {2}, TELLS_ID(DVS_NEVER_ALLOCATED, 2)},
};

/* For the ids from 1 to 9, and all addresses from 2^40. */
static const struct step of_largest_devices[] = {
    {DEVICE_SPACE, {0}, GETS(BASE, TOP)},
    {RESERVE_FIRST, {PART(4), PART(8)}, GETS_DEVICE(1, PART(8), PART(12) - 1)},
    {RESERVE_LAST, {BASE + 1, PART(2)}, GETS_DEVICE(2, PART(14), PART(14) + BASE)},
    {RESERVE_LAST, {BASE, BASE}, FAILS(DVS_OVERFLOW)},
    {RESERVE_EXACT, {BASE - 1, BASE, BELOW(BASE)}, GETS_DEVICE(3, BELOW(BASE), TOP - 1)},
    {RESERVE_EXACT,
     {BASE, BASE, PART(8)},
     IN_THE_WAY(PART(8), PART(8) + BASE - 1, ALLOCATED, PART(8), PART(12) - 1)},
    {DEVICE_SLOT, {1}, GETS(PART(8), PART(12) - 1)},
    {DEVICE_AT, {PART(12) - 1}, GETS_DEVICE(1, PART(8), PART(12) - 1)},
    {DEVICE_AT, {TOP - 1}, GETS_DEVICE(3, BELOW(BASE), TOP - 1)},
    {DEVICE_AT, {TOP}, ENDS(DVS_RESOURCE_NOT_AVAILABLE)},
    {DEVICE_AT, {PART(4)}, ENDS(DVS_RESOURCE_NOT_AVAILABLE)},
};

static const struct step on_one_device[] = {
    {RESERVE_FIRST, {1, 1}, GETS_DEVICE(1, 0x1000, 0x1000)}};

/* An error of the id precedes those of the range. */
static void return_first_errors(dvs_device_manager *manager, bool has_id) {
    size_t i;

    for (i = 0; i < sizeof of_errors / sizeof of_errors[0]; i++) {
        const struct outcome no_id = NO_PLACE;
        struct step step = of_errors[i];

        step.call += RESERVE_FIRST - FIRST;
        if (!has_id)
            step.outcome = no_id;
        run(manager, &step, 1);
    }
}

static void call_with_numbers(void) {
    dvs_device_manager *manager;

    run(NULL, ROWS(on_none));
    run_on_space(0x1000, 0x1000, ROWS(of_errors));
    run_on_space(0x1000, 0x1000, ROWS(on_space));
    run_on_space(0x1000, 0x1000, ROWS(of_moves));
    run_on_space(0x7654321000001000, (uint64_t)1 << 40, ROWS(of_large_ranges));
    run_on_space(1, TOP, ROWS(on_last_space));
    run_on_space(BASE, BELOW(BASE), ROWS(of_largest_ranges));
    run_on_ids(5, 7, ROWS(on_ids),
               "{\"range_base\":5,\"next_id\":8,\"range_end\":7,\"freed_ids\":[]}");
    run_on_ids(
        UINT32_MAX, UINT32_MAX, ROWS(on_last_id),
        "{\"range_base\":4294967295,\"next_id\":null,\"range_end\":4294967295,\"freed_ids\":[]}");
    run_on_ids(0, UINT32_MAX, ROWS(on_all_ids),
               "{\"range_base\":0,\"next_id\":0,\"range_end\":4294967295,\"freed_ids\":[]}");
    run_on_ids(5, 23, ROWS(of_given_ids),
               "{\"range_base\":5,\"next_id\":10,\"range_end\":23,\"freed_ids\":[5]}");
    CHECK(dvs_device_manager_new(1, 3, 0x1000, 0x1000, &manager, NULL) == DVS_OK);
    return_first_errors(manager, true);
    run(manager, ROWS(on_devices));
    destroy(2, manager);
    CHECK(dvs_device_manager_new(1, 9, BASE, BELOW(BASE), &manager, NULL) == DVS_OK);
    run(manager, ROWS(of_largest_devices));
    destroy(2, manager);
    CHECK(dvs_device_manager_new(1, 1, 0x1000, 0x1000, &manager, NULL) == DVS_OK);
    run(manager, ROWS(on_one_device));
    return_first_errors(manager, false);
    destroy(2, manager);
}

/* ---- More than a byte can count ---- */

static void allocate_many_ranges(void) {
    dvs_address_allocator *space;
    uint64_t i;

    CHECK(dvs_address_allocator_new(0, MANY, &space) == DVS_OK);
    for (i = 0; i < MANY; i++) {
        const struct step steps[] = {{FIRST, {1, 1}, GETS(i, i)}, {COUNT, {0}, GETS_NUMBER(i + 1)}};

        run(space, ROWS(steps));
    }
    destroy(0, space);
}

/* Allocates and frees many ids, the lowest first. */
static void allocate_many_ids(uint32_t first) {
    dvs_id_allocator *ids;
    uint32_t id;

    CHECK(dvs_id_allocator_new(first, first + MANY, &ids, NULL) == DVS_OK);
    for (id = first; id < first + MANY; id++) {
        const struct step steps[] = {
            {PEEK, {0}, GETS_ID(id)},
            {IS_ID_HELD, {id}, GETS_NUMBER(false)},
            {ID, {0}, GETS_ID(id)},
            {IS_ID_HELD, {id}, GETS_NUMBER(true)},
            {ID_COUNT, {0}, GETS_NUMBER((uint64_t)id - first + 1)},
        };

        run(ids, ROWS(steps));
    }
    for (id = first; id < first + MANY; id++) {
        const struct step steps[] = {
            {FREE_ID, {id}, SUCCEEDS},
            {FREE_ID, {id}, TELLS_ID(DVS_ALREADY_RELEASED, id)},
            {IS_ID_HELD, {id}, GETS_NUMBER(false)},
        };

        run(ids, ROWS(steps));
    }
    destroy(1, ids);
}

/* Reserves and releases many devices, at addresses of more than 32 bits. */
static void reserve_many_devices(uint32_t first) {
    const uint64_t base = 0x7654321000000000;
    dvs_device_manager *manager;
    uint32_t i;

    CHECK(dvs_device_manager_new(first, first + MANY, base, MANY, &manager, NULL) == DVS_OK);
    for (i = 0; i < MANY; i++) {
        const uint64_t start = base + MANY - 1 - i;
        const struct step steps[] = {
            {RESERVE_LAST, {1, 1}, GETS_DEVICE(first + i, start, start)},
            {DEVICE_SLOT, {first + i}, GETS(start, start)},
        };

        run(manager, ROWS(steps));
    }
    for (i = first; i < first + MANY; i++) {
        const struct step steps[] = {
            {RELEASE, {i}, SUCCEEDS},
            {DEVICE_SLOT, {i}, TELLS_ID(DVS_NEVER_ALLOCATED, i)},
        };

        run(manager, ROWS(steps));
    }
    destroy(2, manager);
}

/* Reserves devices with given ids, moves one, and reads copies of the allocators. */
static void reserve_given_ids(void) {
    static const dvs_request one = {8, 8, 0, DVS_FIRST, 0, 0}, held = {8, 1, 4, DVS_EXACT, 0, 0},
                             last = {16, 16, 0, DVS_LAST, 0, 0};
    dvs_device_manager *manager;
    dvs_address_allocator *space;
    dvs_id_allocator *ids;
    dvs_device device;
    uint64_t count;
    uint32_t id;

    CHECK(dvs_device_manager_new(0, 9, 0, 64, &manager, NULL) == DVS_OK);
    CHECK(dvs_device_reserve_with_id(manager, 7, 7, &one, &device, NULL) == DVS_OK);
    CHECK(device.id == 7 && is_range(device.range, 0, 7));
    CHECK(dvs_device_reserve_with_id(manager, 9, 7, &one, &device, &refusal) == DVS_INVALID_RANGE);
    CHECK(is_range(refusal.range, 9, 7));
    CHECK(dvs_device_reserve_with_id(manager, 7, 7, &held, &device, &refusal) ==
          DVS_RESOURCE_NOT_AVAILABLE);
    CHECK(refusal.cause == 0);
    CHECK(dvs_device_reserve_with_id(manager, 7, 9, &held, &device, &refusal) ==
          DVS_RESOURCE_NOT_AVAILABLE);
    CHECK(refusal.cause == DVS_CAUSE_ALLOCATED && is_range(refusal.other, 0, 7));
    CHECK(dvs_device_reserve_with_id(manager, 7, UINT32_MAX, &one, &device, NULL) == DVS_OK);
    CHECK(device.id == 8 && is_range(device.range, 8, 15));
    /* divsharun.h: "Those of dvs_range_allocate() from DVS_INVALID_POLICY to DVS_INVALID_RANGE. -
     * DVS_NEVER_ALLOCATED, with the id, if no device has it. - The other errors of
     * dvs_range_move_request(), in the same order." */
    CHECK(dvs_device_move(manager, 8, &held, &device.range, &refusal) ==
          DVS_RESOURCE_NOT_AVAILABLE);
    CHECK(refusal.cause == DVS_CAUSE_ALLOCATED && is_range(refusal.other, 0, 7));
    CHECK(dvs_device_move(manager, 9, &held, &device.range, &refusal) == DVS_NEVER_ALLOCATED);
    CHECK(refusal.id == 9);
    CHECK(dvs_device_move(manager, 7, &held, &device.range, &refusal) ==
          DVS_RESOURCE_NOT_AVAILABLE);
    /* The device is not in its own way. */
    CHECK(refusal.cause == DVS_CAUSE_ALLOCATED && is_range(refusal.other, 8, 15));
    CHECK(dvs_device_move(manager, 8, &last, &device.range, NULL) == DVS_OK);
    CHECK(is_range(device.range, 48, 63));
    CHECK(dvs_device_slot(manager, 8, &device.range, NULL) == DVS_OK);
    CHECK(is_range(device.range, 48, 63));
    CHECK(dvs_device_move(manager, 7, &held, &device.range, NULL) == DVS_OK);
    CHECK(is_range(device.range, 4, 11));
    CHECK(dvs_device_manager_copy_addresses(manager, &space) == DVS_OK);
    CHECK(dvs_range_count(space, &count) == DVS_OK && count == 2);
    CHECK(dvs_device_manager_copy_ids(manager, &ids) == DVS_OK);
    CHECK(dvs_id_allocate(ids, &id) == DVS_OK && id == 0);
    CHECK(dvs_id_allocate_exact(ids, 0, &refusal) == DVS_RESOURCE_NOT_AVAILABLE && refusal.id == 0);
    CHECK(dvs_device_count(manager, &count) == DVS_OK && count == 2);
    destroy(0, space);
    destroy(1, ids);
    destroy(2, manager);
}

/* ---- Null pointers, visits and copies ---- */

/* An object of each group, with two ranges, gaps, ids or devices. */
static void *objects[GROUPS];

static void make_objects(void) {
    static const dvs_request lowest = {1, 2, 0, DVS_FIRST, 0, 0};
    dvs_device device;
    int i;

    prepare();
    CHECK(dvs_address_allocator_new(0, 4, &results.space) == DVS_OK);
    CHECK(dvs_id_allocator_new(0, 4, &results.ids, NULL) == DVS_OK);
    CHECK(dvs_device_manager_new(0, 3, 0, 4, &results.manager, NULL) == DVS_OK);
    CHECK(dvs_range_map_new(0, 4, &results.map) == DVS_OK);
    for (i = 0; i < 2; i++) {
        CHECK(dvs_range_allocate_first(results.space, 1, 2, &device.range, NULL) == DVS_OK);
        CHECK(dvs_id_allocate(results.ids, &device.id) == DVS_OK);
        CHECK(dvs_device_reserve_first(results.manager, 1, 1, &device, NULL) == DVS_OK);
        CHECK(dvs_range_map_allocate(results.map, 7, &lowest, &device.range, NULL) == DVS_OK);
    }
    for (i = 0; i < GROUPS; i++)
        objects[i] = created(i);
}

/* Changes and destroys the objects. */
static void use_objects(void) {
    static const struct step steps[GROUPS][2] = {
        {{FREE, {0, 0}, SUCCEEDS}, {DESTROY_SPACE, {0}, SUCCEEDS}},
        {{FREE_ID, {0}, SUCCEEDS}, {DESTROY_IDS, {0}, SUCCEEDS}},
        {{RELEASE, {0}, SUCCEEDS}, {DESTROY_MANAGER, {0}, SUCCEEDS}},
        {{MAP_FREE, {0, 0}, GETS_NUMBER(7)}, {DESTROY_MAP, {0}, SUCCEEDS}},
    };
    int group;

    for (group = 0; group < GROUPS; group++)
        run(objects[group], ROWS(steps[group]));
}

/* Gives null for the object, for each result, and for the other pointers. */
static void give_null(void) {
    static const int with_pointers[] = {WITH_RANGES,      WITH_FREE,
                                        WITH_IDS,         READ_SPACE,
                                        REPAIR_SPACE,     READ_IDS,
                                        READ_MANAGER,     SPACE_WITHIN,
                                        REPAIR_WITHIN,    IDS_WITHIN,
                                        MANAGER_WITHIN,   MOVE_REQUEST,
                                        REQUEST,          LIST,
                                        PEEK_RANGE,       CONFLICT,
                                        RESERVE,          RESERVE_WITH_ID,
                                        DEVICE_CONFLICT,  EQUAL_SPACE,
                                        EQUAL_IDS,        EQUAL_MANAGERS,
                                        EQUAL_MAPS,       MAP_ALLOCATE,
                                        MAP_MOVE,         WITH_VALUES,
                                        MAP_ALL,          MAP_CONFLICT,
                                        MAP_MOVE_CONFLICT};
    static const struct arguments none = {true, true, NULL, NULL,   NULL, NULL, NULL,
                                          NULL, NULL, 5,    {4, 1}, NULL, false};
    size_t i;
    int call;

    make_objects();
    for (call = 0; call < CALLS; call++) {
        const struct group *group = &groups[group_of(call)];

        given = usual;
        given.other = objects[group_of(call)];
        if (call >= FIRST && call != group->queries - 1)
            refuse(call, NULL, DVS_NULL);
        given.has_result = false;
        if (call < group->done || group->queries <= call)
            refuse(call, objects[group_of(call)], DVS_NULL);
        given.has_result = true;
        given.has_second = false;
        if ((call == group->copy + 1 && call < group->visits) || call == ID_ENDS ||
            call == DEVICE_IDS)
            refuse(call, objects[group_of(call)], DVS_NULL);
    }
    given = none;
    for (i = 0; i < sizeof with_pointers / sizeof with_pointers[0]; i++)
        refuse(with_pointers[i], objects[group_of(with_pointers[i])], DVS_NULL);
    CHECK(dvs_id_allocator_with_held(1, 0, NULL, 0, NULL, NULL) == DVS_NULL);
    CHECK(dvs_address_allocator_with_held(0, 0, NULL, 0, NULL, NULL, NULL) == DVS_NULL);
    CHECK(dvs_address_allocator_with_free(NULL, 0, NULL, NULL, NULL) == DVS_NULL);
    CHECK(dvs_address_allocator_allocate_all((dvs_address_allocator *)objects[0], NULL, SIZE_MAX,
                                             &results.device.range, NULL, NULL) == DVS_NULL);
    CHECK(dvs_address_allocator_allocate_all((dvs_address_allocator *)objects[0], worst, SIZE_MAX,
                                             NULL, NULL, NULL) == DVS_NULL);
    CHECK(dvs_range_map_with_held(0, 0, NULL, 0, NULL, NULL, NULL) == DVS_NULL);
    for (i = 1; i <= 2; i++) {
        dvs_range_map *map = (dvs_range_map *)objects[3];
        void *made = NULL;

        CHECK(dvs_range_map_allocate_all(map, worst, NULL, i, results.ranges, NULL, NULL) ==
              DVS_NULL);
        CHECK(dvs_range_map_allocate_all(map, worst, two_values, i, NULL, NULL, NULL) == DVS_NULL);
        CHECK(dvs_range_map_with_held(0, 9, NULL, i, (dvs_range_map **)&made, NULL, NULL) ==
              DVS_NULL);

        CHECK(dvs_ids_allocate((dvs_id_allocator *)objects[1], NULL, i) == DVS_NULL);
        CHECK(dvs_address_allocator_allocate_all((dvs_address_allocator *)objects[0], NULL, i,
                                                 results.ranges, NULL, NULL) == DVS_NULL);
        CHECK(dvs_address_allocator_allocate_all((dvs_address_allocator *)objects[0], worst, i,
                                                 NULL, NULL, NULL) == DVS_NULL);
        CHECK(dvs_id_allocator_with_held(0, 9, NULL, i, (dvs_id_allocator **)&made, NULL) ==
              DVS_NULL);
        CHECK(dvs_address_allocator_with_held(0, 9, NULL, i, (dvs_address_allocator **)&made, NULL,
                                              NULL) == DVS_NULL);
        CHECK(dvs_address_allocator_with_free(NULL, i, (dvs_address_allocator **)&made, NULL,
                                              NULL) == DVS_NULL &&
              made == NULL);
    }
    CHECK(dvs_range_list((dvs_address_allocator *)objects[0], 0, NULL, 1, &results.length) ==
          DVS_NULL);
    CHECK(dvs_gap_list((dvs_address_allocator *)objects[0], 0, NULL, 1, &results.length) ==
          DVS_NULL);
    CHECK(dvs_range_map_list((dvs_range_map *)objects[3], 0, NULL, 1, &results.length) == DVS_NULL);
    CHECK(dvs_range_map_gap_list((dvs_range_map *)objects[3], 0, NULL, 1, &results.length) ==
          DVS_NULL);
    CHECK(dvs_id_list((dvs_id_allocator *)objects[1], 0, NULL, 1, &results.length) == DVS_NULL);
    CHECK(dvs_device_list((dvs_device_manager *)objects[2], 0, NULL, 1, &results.length) ==
          DVS_NULL);
    dvs_text_destroy(NULL);
    use_objects();
}

/* The group whose object is visited, and the number of visits. */
static int visited, visits;

/* Returns the status of a query with zeros and an invalid request. */
static dvs_status status_of_query(int call) {
    if (call == CONFLICT || call == DEVICE_CONFLICT || call == PEEK_RANGE || call == MAP_CONFLICT ||
        call == MAP_MOVE_CONFLICT)
        return DVS_INVALID_POLICY;
    return call == GAP_AT ? DVS_RESOURCE_NOT_AVAILABLE : DVS_OK;
}

/* Checks that calls with nothing to do are refused in a visit, and calls for an absurd number. */
static void do_nothing(void *object) {
    static const dvs_request to_itself = {1, 1, 0, DVS_EXACT, 0, 0};
    static const uint64_t in_place[4] = {0, 0, 0, 0};
    static const size_t counts[] = {0, SIZE_MAX};
    dvs_address_allocator *space = (dvs_address_allocator *)object;
    dvs_range *to = results.ranges;
    size_t i;

    prepare();
    for (i = 0; i < 2 && visited == 1; i++)
        CHECK(dvs_ids_allocate((dvs_id_allocator *)object, results.several, counts[i]) == DVS_BUSY);
    if (visited == 1)
        CHECK(dvs_ids_allocate((dvs_id_allocator *)object, NULL, 0) == DVS_BUSY);
    if (visited != 0)
        return;
    for (i = 0; i < 2; i++)
        CHECK(dvs_address_allocator_allocate_all(space, worst, counts[i], to, &failed, NULL) ==
                  DVS_BUSY &&
              failed == counts[i]);
    CHECK(dvs_address_allocator_allocate_all(space, NULL, 0, NULL, NULL, NULL) == DVS_BUSY);
    CHECK(dvs_address_allocator_allocate_all(space, NULL, 1, to, NULL, NULL) == DVS_NULL);
    given.request = &to_itself;
    CHECK(attempt(MOVE, object, in_place) == DVS_BUSY);
    CHECK(attempt(MOVE_REQUEST, object, in_place) == DVS_BUSY);
}

/* Checks that a visitor can query, compare, save and copy the object, but not change or destroy it.
 * Without a context it ends the visit. */
/* divsharun.h: "Two errors come first in every call: DVS_NULL if a pointer that must not be null
 * is null, and DVS_BUSY" */
static int keep_object(void *context) {
    static const uint64_t zeros[4] = {0, 0, 0, 0};
    const struct group *group = &groups[visited];
    void *object = objects[visited], *copy;
    int call;

    if (context == NULL)
        return 1;
    visits++;
    do_nothing(object);
    for (call = group->changes; call < group->queries; call++) {
        given = usual;
        refuse(call, object, DVS_BUSY);
        given.has_result = false;
        if (call < group->done)
            refuse(call, object, DVS_NULL);
    }
    given = usual;
    for (call = group->queries; call < group->copy - 1; call++)
        CHECK(copies_part(call) || attempt(call, object, zeros) == status_of_query(call));
    copy = copied(visited, object);
    compare(visited, object, copy, true);
    destroy(visited, copy);
    if (visited < SAVED_GROUPS) {
        CHECK(attempt(group->copy + 1, object, zeros) == DVS_OK);
        dvs_text_destroy(results.text);
    }
    return *(const int *)context;
}

/* divsharun.h: "It returns 0 to continue the visit and any other number to end it." */

/* Any number but 0 ends a visit. */
static void change_in_visits(void) {
    static const uint64_t all[4] = {0, TOP - 1, 0, 0};
    static int ends[] = {0, 1, -1, 256, 65536, INT_MAX, INT_MIN};
    int call, calls = 0;
    size_t i;

    make_objects();
    for (visited = 0; visited < GROUPS; visited++)
        for (call = groups[visited].visits; call < groups[visited].end; call++)
            for (i = 0; i < sizeof ends / sizeof ends[0]; i++) {
                given = usual;
                given.context = &ends[i];
                calls += ends[i] == 0 ? 2 : 1;
                CHECK(attempt(call, objects[visited], all) == DVS_OK && visits == calls);
            }
    use_objects();
}

/* Changes of an object or of its copy, and whether both are equal afterwards. */
static const struct {
    int group, is_copy;
    struct step step;
    bool are_equal;
} changes[] = {
    {0, 1, {FREE, {0, 0}, SUCCEEDS}, false},
    {0, 0, {FREE, {0, 0}, SUCCEEDS}, true},
    {0, 1, {FREE, {2, 2}, SUCCEEDS}, false},
    {0, 0, {FREE, {2, 2}, SUCCEEDS}, true},
    {1, 1, {ID_EXACT, {3}, SUCCEEDS}, false},
    {1, 0, {ID_EXACT, {3}, SUCCEEDS}, true},
    {1, 1, {ID, {0}, GETS_ID(2)}, false},
    {1, 1, {FREE_ID, {2}, SUCCEEDS}, true},
    {1, 1, {ID_EXACT, {4}, SUCCEEDS}, false},
    /* The id is freed in one, and was never allocated in the other. */
    {1, 1, {FREE_ID, {4}, SUCCEEDS}, false},
    {2, 1, {RELEASE, {0}, SUCCEEDS}, false},
    {2, 1, {RESERVE_LAST, {1, 1}, GETS_DEVICE(0, 3, 3)}, false},
    {2, 1, {RELEASE, {0}, SUCCEEDS}, false},
    {2, 1, {RESERVE_FIRST, {1, 1}, GETS_DEVICE(0, 0, 0)}, true},
    {3, 1, {MAP_SET, {2, 8}, GETS_NUMBER(7)}, false},
    {3, 0, {MAP_SET, {2, 8}, GETS_NUMBER(7)}, true},
    {3, 1, {MAP_FREE, {2, 2}, GETS_NUMBER(8)}, false},
    {3, 0, {MAP_FREE, {2, 2}, GETS_NUMBER(8)}, true},
};

static void copy_objects(void) {
    dvs_address_allocator *longer;
    void *pairs[GROUPS][2];
    int group;
    size_t i;

    make_objects();
    for (group = 0; group < GROUPS; group++) {
        pairs[group][0] = objects[group];
        pairs[group][1] = copied(group, objects[group]);
        compare(group, pairs[group][0], pairs[group][1], true);
    }
    for (i = 0; i < sizeof changes / sizeof changes[0]; i++) {
        group = changes[i].group;
        run(pairs[group][changes[i].is_copy], &changes[i].step, 1);
        compare(group, pairs[group][0], pairs[group][1], changes[i].are_equal);
    }
    CHECK(dvs_address_allocator_new(0, 5, &longer) == DVS_OK);
    compare(0, pairs[0][0], longer, false);
    destroy(0, longer);
    for (group = 0; group < GROUPS; group++) {
        destroy(group, pairs[group][0]);
        destroy(group, pairs[group][1]);
    }
}

/* ---- Texts ---- */

#define SPACE_TEXT                                                                                 \
    "{\"address_space\":{\"start\":16,\"end\":19},\"interval_tree\":{\"root\":"                    \
    "{\"key\":{\"start\":16,\"end\":19},\"node_state\":\"Free\",\"left\":null,\"right\":null,"     \
    "\"height\":1}}}"
#define EMPTY "{\"address_space\":{\"end\":19,\"start\":16},\"interval_tree\":{\"root\":null}}"
#define IDS(base, next, freed)                                                                     \
    "{\"range_base\":" base ",\"next_id\":" next ",\"range_end\":23,\"freed_ids\":" freed "}"
#define IDS_TEXT IDS("5", "7", "[5]")
#define MANAGER(version, ids, slots)                                                               \
    "{\"version\":" version ",\"id_allocator\":" ids ",\"mmio_allocator\":" SPACE_TEXT             \
    ",\"slots\":" slots "}"
#define MANAGER_TEXT MANAGER("1", IDS("5", "5", "[]"), "[]")
#define DEVICE "{\"id\":6,\"mmio_range\":{\"start\":1,\"end\":1}}"
/* An allocated node with a left child, and the tree of it in the space from 16 to 19. */
#define NODE(key, left)                                                                            \
    "{\"key\":{\"start\":" key "},\"node_state\":\"Allocated\",\"left\":" left                     \
    ",\"right\":null,\"height\":1}"
#define TREE(key, left)                                                                            \
    "{\"address_space\":{\"start\":16,\"end\":19},\"interval_tree\":{\"root\":" NODE(key, left) "}}"
#define FIFTY(text) TEN(text) TEN(text) TEN(text) TEN(text) TEN(text)
#define TEN(text) text text text text text text text text text text

/* divsharun.h: "The maximum nesting. A value without brackets counts as a level." */

/* Texts that are read, saved texts of the objects, and how deep a value of the text is nested. */
static const struct {
    int call, group;
    const char *text, *saved;
    uint32_t depth;
} readings[] = {
    {SPACE_WITHIN, 0, SPACE_TEXT, SPACE_TEXT, 5},
    {REPAIR_WITHIN, 0, EMPTY, SPACE_TEXT, 3},
    {IDS_WITHIN, 1, IDS_TEXT, IDS_TEXT, 3},
    {MANAGER_WITHIN, 2, MANAGER_TEXT, MANAGER_TEXT, 6},
};

/* divsharun.h: "nested at most 128 deep, without a number greater than any double and without an
 * unpaired surrogate escape."
 * divsharun.h: "The number of bytes before the fault. A wrong value begins there."
 * divsharun.h: "the innermost field whose value is wrong, or which is missing or duplicate, with
 * static storage duration. NULL for other errors, and if the value of the text is not an object or
 * has an unknown field."
 * divsharun.h: "- the field of the range, if the start of a range is past its end; - `key`, if the
 * key of a node does not fit its children; - `root`, if the tree is wrong in another way; -
 * `range_base`, if it is past `range_end`; - `next_id` or `freed_ids`, if it does not fit the
 * other ids; - `slots`, if the devices do not fit the ids and the ranges."
 * divsharun.h: "- the ranges are not in ascending order, overlap or leave the space; - an
 * allocated range ends at UINT64_MAX; - a path from the root of the tree has more than 50 nodes."
 */

/* Texts that are not read, each with its status and its fault. */
static const struct {
    int call;
    const char *text;
    dvs_status status;
    size_t offset;
    const char *field, *reason;
} faults[] = {
    {IDS_WITHIN, "", DVS_NOT_JSON, 0, NULL, "a value"},
    {IDS_WITHIN, "[", DVS_NOT_JSON, 1, NULL, "a value"},
    {IDS_WITHIN, "{\"next_id\":01}", DVS_NOT_JSON, 12, NULL, "a comma"},
    {IDS_WITHIN, "{\"next_id\":1e}", DVS_NOT_JSON, 13, NULL, "a digit"},
    {IDS_WITHIN, "{\"next_id\":\"\\ud800\"}", DVS_NOT_JSON, 13, NULL, "an escape"},
    {IDS_WITHIN, "{\"base\":1e999}", DVS_NOT_JSON, 8, NULL, "greater than any double"},
    {IDS_WITHIN, "{\"base\" 5}", DVS_NOT_JSON, 8, NULL, "a colon"},
    {IDS_WITHIN, "{\"base\":\"ab\n\"}", DVS_NOT_JSON, 11, NULL, "a control character"},
    {IDS_WITHIN, "{\"base\":\"ab", DVS_NOT_JSON, 11, NULL, "a string has no end"},
    {IDS_WITHIN, "{\"range_base\":5 \xff}", DVS_NOT_JSON, 16, NULL, "UTF-8"},
    {IDS_WITHIN, "{\"range_base\":5 \xe2\x82}", DVS_NOT_JSON, 16, NULL, "UTF-8"},
    {IDS_WITHIN, "{\"range_base\":5} x", DVS_NOT_JSON, 17, NULL, "the end"},
    {IDS_WITHIN, "7", DVS_NOT_A_STATE, 0, NULL, "an object"},
    {IDS_WITHIN, " {\"range_base\":5, \"base\":5}", DVS_NOT_A_STATE, 18, NULL, "unknown"},
    {IDS_WITHIN, "{\"range_base\":5}", DVS_NOT_A_STATE, 16, "range_end", "missing"},
    {IDS_WITHIN, "{\"range_base\":5,\"range_base\":5}", DVS_NOT_A_STATE, 16, "range_base",
     "duplicate"},
    {IDS_WITHIN, "{\"range_base\":null}", DVS_NOT_A_STATE, 14, "range_base", "a whole number"},
    {IDS_WITHIN, "{\"range_base\":4294967296}", DVS_NOT_A_STATE, 14, "range_base", "in its range"},
    {IDS_WITHIN, "{\"freed_ids\":{}}", DVS_NOT_A_STATE, 13, "freed_ids", "a list"},
    {IDS_WITHIN, "{\"freed_ids\":[6, 6]}", DVS_NOT_A_STATE, 17, "freed_ids", "ascend"},
    {IDS_WITHIN, "{\"freed_ids\":[6,7,8,8]}", DVS_NOT_A_STATE, 20, "freed_ids", "ascend"},
    {IDS_WITHIN, "{\"freed_ids\":[6,7,9,8]}", DVS_NOT_A_STATE, 20, "freed_ids", "ascend"},
    {IDS_WITHIN, SPACE_TEXT, DVS_NOT_A_STATE, 1, NULL, "unknown"},
    {MANAGER_WITHIN, SPACE_TEXT, DVS_NOT_A_STATE, 1, NULL, "unknown"},
    {MANAGER_WITHIN, "{\"\\u006dmio_allocatorx\":0}", DVS_NOT_A_STATE, 1, NULL, "unknown"},
    {MANAGER_WITHIN, "{\"mmio_allocator\":{\"address_space\":{\"start\":-0}}}", DVS_NOT_A_STATE, 44,
     "start", "a whole number"},
    {SPACE_WITHIN, "{\"address_space\":{\"start\":1,\"end\":0}}", DVS_NOT_A_STATE, 17,
     "address_space", "range"},
    {SPACE_WITHIN, "{\"interval_tree\":{\"root\":{\"node_state\": \"Fre\"}}}", DVS_NOT_A_STATE, 40,
     "node_state", "another text"},
    /* Each condition that the parts of an object can violate. */
    {SPACE_WITHIN, "{\"interval_tree\":{\"root\":" FIFTY("{\"left\":") "0" FIFTY("}") "}}",
     DVS_NOT_A_STATE, 425, "left", "nested more than 50 deep"},
    {SPACE_WITHIN, TREE("16,\"end\":19", NODE("15,\"end\":16", "null")), DVS_NOT_A_STATE, 70, "key",
     "the keys do not ascend"},
    {REPAIR_WITHIN, TREE("16,\"end\":18446744073709551615", "null"), DVS_NOT_A_STATE, 70, "key",
     "ends at u64::MAX"},
    {REPAIR_WITHIN, TREE("16,\"end\":20", "null"), DVS_NOT_A_STATE, 63, "root",
     "outside the space"},
    {SPACE_WITHIN, TREE("16,\"end\":18", "null"), DVS_NOT_A_STATE, 63, "root", "it has a gap"},
    {SPACE_WITHIN, EMPTY, DVS_NOT_A_STATE, 63, "root", "it has a gap"},
    {IDS_WITHIN, IDS("24", "7", "[5]"), DVS_NOT_A_STATE, 14, "range_base", "past range_end"},
    {IDS_WITHIN, IDS("5", "25", "[5]"), DVS_NOT_A_STATE, 26, "next_id", "neither in the range"},
    {IDS_WITHIN, IDS("5", "null", "[5]"), DVS_NOT_A_STATE, 26, "next_id", "neither in the range"},
    {IDS_WITHIN, IDS("5", "7", " [7]"), DVS_NOT_A_STATE, 56, "freed_ids", "not below next_id"},
    {MANAGER_WITHIN, MANAGER("9", IDS("5", "5", "[]"), "[]"), DVS_NOT_A_STATE, 11, "version",
     "the version is not 1"},
    {MANAGER_WITHIN, MANAGER("1", IDS("24", "5", "[]"), "[]"), DVS_NOT_A_STATE, 42, "range_base",
     "past range_end"},
    {MANAGER_WITHIN, "{\"slots\":[" DEVICE "," DEVICE "]}", DVS_NOT_A_STATE, 52, "slots", "ascend"},
    {MANAGER_WITHIN, MANAGER("1", IDS("5", "6", "[]"), "[]"), DVS_NOT_A_STATE, 263, "slots",
     "do not pair"},
};

/* Each field of a format, behind what can be before it. */
static const struct {
    int call;
    const char *before, *field;
} fields[] = {
    {IDS_WITHIN, "{", "range_base"},
    {IDS_WITHIN, "{", "range_end"},
    {IDS_WITHIN, "{", "next_id"},
    {IDS_WITHIN, "{", "freed_ids"},
    {SPACE_WITHIN, "{", "address_space"},
    {SPACE_WITHIN, "{", "interval_tree"},
    {SPACE_WITHIN, "{\"address_space\":{", "start"},
    {SPACE_WITHIN, "{\"address_space\":{", "end"},
    {SPACE_WITHIN, "{\"interval_tree\":{", "root"},
    {SPACE_WITHIN, "{\"interval_tree\":{\"root\":{", "key"},
    {SPACE_WITHIN, "{\"interval_tree\":{\"root\":{\"key\":{", "start"},
    {SPACE_WITHIN, "{\"interval_tree\":{\"root\":{\"key\":{", "end"},
    {SPACE_WITHIN, "{\"interval_tree\":{\"root\":{", "node_state"},
    {SPACE_WITHIN, "{\"interval_tree\":{\"root\":{", "left"},
    {SPACE_WITHIN, "{\"interval_tree\":{\"root\":{", "right"},
    {SPACE_WITHIN, "{\"interval_tree\":{\"root\":{", "height"},
    {MANAGER_WITHIN, "{", "version"},
    {MANAGER_WITHIN, "{", "id_allocator"},
    {MANAGER_WITHIN, "{", "mmio_allocator"},
    {MANAGER_WITHIN, "{", "slots"},
    {MANAGER_WITHIN, "{\"slots\":[{", "id"},
    {MANAGER_WITHIN, "{\"slots\":[{", "mmio_range"},
    {MANAGER_WITHIN, "{\"slots\":[{\"mmio_range\":{", "start"},
    {MANAGER_WITHIN, "{\"slots\":[{\"mmio_range\":{", "end"},
};

/* Sets the text of calls, with a limit of nesting. */
static void give_text(const char *text, size_t length, uint32_t depth) {
    given = usual;
    given.text = text;
    given.length = length;
    given.limits.length = length;
    given.limits.depth = depth;
}

static void check_fault(size_t offset, const char *field, const char *reason) {
    CHECK(fault.offset == offset && strstr(fault.reason, reason) != NULL);
    CHECK(field == NULL ? fault.field == NULL : strcmp(field, fault.field) == 0);
}

static void read_texts(void) {
    size_t i;

    for (i = 0; i < sizeof readings / sizeof readings[0]; i++) {
        int call = readings[i].call, to_plain = READ_SPACE - SPACE_WITHIN;

        for (; call >= 0; call = call >= SPACE_WITHIN ? call + to_plain : -1) {
            void *object;

            give_text(readings[i].text, strlen(readings[i].text), readings[i].depth);
            CHECK(attempt(call, NULL, bad) == DVS_OK && is_untouched(&fault, sizeof fault));
            object = created(readings[i].group);
            is_saved_as(readings[i].group, object, readings[i].saved);
            destroy(readings[i].group, object);
        }
        given.limits.depth--;
        refuse(readings[i].call, NULL, DVS_LIMIT_EXCEEDED);
        CHECK(fault.field == NULL && strstr(fault.reason, "nested") != NULL);
        given.limits.length--;
        refuse(readings[i].call, NULL, DVS_LIMIT_EXCEEDED);
        check_fault(given.limits.length, NULL, "long");
    }
    for (i = 0; i < sizeof faults / sizeof faults[0]; i++) {
        give_text(faults[i].text, strlen(faults[i].text), 0);
        refuse(faults[i].call, NULL, faults[i].status);
        check_fault(faults[i].offset, faults[i].field, faults[i].reason);
        refuse(faults[i].call - SPACE_WITHIN + READ_SPACE, NULL, faults[i].status);
    }
    /* divsharun.h: "Limits for a text that is read. 0 is no limit." */
    /* Limits that no text exceeds. */
    for (i = 0; i < sizeof readings / sizeof readings[0]; i++) {
        give_text(readings[i].text, strlen(readings[i].text), UINT32_MAX);
        given.limits.length = i % 2 == 0 ? SIZE_MAX : BASE + 1;
        CHECK(attempt(readings[i].call, NULL, bad) == DVS_OK);
        destroy(readings[i].group, created(readings[i].group));
    }
    /* divsharun.h: "DVS_LIMIT_EXCEEDED if the text is longer than the limit. Otherwise those of
     * dvs_address_allocator_read(), with DVS_LIMIT_EXCEEDED instead of DVS_NOT_JSON if the text
     * first exceeds the limit of nesting." */
    /* The limit of nesting holds behind a fault. */
    give_text("{\"base\":[[1]]}", 14, 4);
    refuse(IDS_WITHIN, NULL, DVS_NOT_A_STATE);
    given.limits.depth--;
    refuse(IDS_WITHIN, NULL, DVS_LIMIT_EXCEEDED);
    check_fault(10, NULL, "nested");
    /* It comes before that of JSON, unless it is higher. */
    give_text(FIFTY("[") FIFTY("[") TEN("[") TEN("[") "[[[[[[[[[", 129, 128);
    refuse(IDS_WITHIN, NULL, DVS_LIMIT_EXCEEDED);
    given.limits.depth++;
    refuse(IDS_WITHIN, NULL, DVS_NOT_JSON);
    check_fault(128, NULL, "nested");
    /* The limit of length comes first. */
    give_text("[\xff", 2, 1);
    given.limits.length = 1;
    refuse(IDS_WITHIN, NULL, DVS_LIMIT_EXCEEDED);
    check_fault(1, NULL, "long");
}

/* Gives each field a value that it cannot have. */
static void refuse_fields(void) {
    size_t i, open;

    for (i = 0; i < sizeof fields / sizeof fields[0]; i++) {
        const char *before = fields[i].before;
        char text[128];
        int length = sprintf(text, "%s\"%s\":", before, fields[i].field);
        char *end = text + sprintf(text + length, "true") + length;

        for (open = strlen(before); open-- > 0;)
            if (before[open] == '{' || before[open] == '[')
                *end++ = before[open] == '{' ? '}' : ']';
        give_text(text, (size_t)(end - text), 0);
        refuse(fields[i].call, NULL, DVS_NOT_A_STATE);
        check_fault((size_t)length, fields[i].field, "");
    }
}

/* Puts each byte but 0 behind a backslash, in a key and in a value. Nine of them are escapes. */
static void escape_each_byte(void) {
    static const char *const texts[] = {"{\"\\?0041\":1}", "{\"range_base\":\"\\?0041\"}"};
    int i, byte;

    for (i = 0; i < 2; i++)
        for (byte = 1; byte < 256; byte++) {
            char text[32];
            bool is_escape = strchr("\"\\/bfnrtu", byte) != NULL;

            strcpy(text, texts[i]);
            *strchr(text, '?') = (char)byte;
            give_text(text, strlen(text), 0);
            refuse(IDS_WITHIN, NULL, is_escape ? DVS_NOT_A_STATE : DVS_NOT_JSON);
        }
}

/* Reads what it saves, and no part of it. The library must not read past a text, so it refuses
 * lengths that no object can have. */
static void read_again(void) {
    static const int calls[] = {READ_SPACE, READ_IDS, READ_MANAGER, REPAIR_SPACE};
    int i;

    make_objects();
    for (i = 0; i < 4; i++) {
        void *object = objects[i % 3], *again;
        char *text;

        given = usual;
        prepare();
        CHECK(make_call(groups[i % 3].copy + 1, object, bad) == DVS_OK);
        text = results.text;
        give_text(text, results.length, 0);
        prepare();
        CHECK(make_call(calls[i], NULL, bad) == DVS_OK);
        again = created(i % 3);
        compare(i % 3, object, again, true);
        destroy(i % 3, again);
        give_text(text, strlen(text) - 1, 0);
        refuse(calls[i], NULL, DVS_NOT_JSON);
        give_text(text, SIZE_MAX, 0);
        refuse(calls[i], NULL, DVS_NOT_JSON);
        give_text(text, SIZE_MAX / 2 + 1, 0);
        refuse(calls[i], NULL, DVS_NOT_JSON);
        dvs_text_destroy(text);
    }
    use_objects();
}

/* ---- Words ---- */

/* divsharun.h: "It returns the length of the line, which is below 200, and writes at most `length`
 * bytes with the zero byte, as snprintf() does. `buffer` can be null if `length` is 0." */
static void say_numbers(void) {
    static const struct {
        dvs_status status;
        dvs_range range, other;
        uint32_t id, cause;
        const char *text;
    } rows[] = {
        {DVS_RESOURCE_NOT_AVAILABLE,
         {0xfeb00000, 0xfeb0ffff},
         {0xfeb08000, 0xfeb0bfff},
         0,
         DVS_CAUSE_ALLOCATED,
         "0xfeb00000-0xfeb0ffff overlaps 0xfeb08000-0xfeb0bfff"},
        {DVS_INVALID_STATE_TRANSITION,
         {0xfeb00000, 0xfeb0ffff},
         {0xfeb00000, 0xfeb0ffff},
         0,
         DVS_CAUSE_ALLOCATED,
         "0xfeb00000-0xfeb0ffff is already allocated"},
        {DVS_RESOURCE_NOT_AVAILABLE,
         {TOP, TOP},
         {0, TOP - 1},
         0,
         DVS_CAUSE_OUTSIDE_SPACE,
         "0xffffffffffffffff-0xffffffffffffffff is outside the space 0x0-0xfffffffffffffffe"},
        {DVS_RESOURCE_NOT_AVAILABLE,
         {0, 0},
         {0xfeb08000, 0xfeb0bfff},
         0,
         DVS_CAUSE_OUTSIDE_SPACE,
         "The range is outside the space 0xfeb08000-0xfeb0bfff"},
        {DVS_RESOURCE_NOT_AVAILABLE,
         {0xfeb00000, 0xfeb0ffff},
         {0xfeb08000, 0xfeb0bfff},
         0,
         DVS_CAUSE_OUTSIDE_WINDOW,
         "0xfeb00000-0xfeb0ffff is outside the window 0xfeb08000-0xfeb0bfff"},
        {DVS_RESOURCE_NOT_AVAILABLE,
         {0xfeb00000, 0xfeb0ffff},
         {0xfeb08000, 0xfeb0bfff},
         0,
         DVS_CAUSE_EARLIER_REQUEST,
         "0xfeb00000-0xfeb0ffff overlaps 0xfeb08000-0xfeb0bfff of an earlier request"},
        {DVS_RESOURCE_NOT_AVAILABLE,
         {0xfeb08000, 0xfeb0bfff},
         {0xfeb00000, 0xfeb0ffff},
         0,
         DVS_CAUSE_NOT_AFTER,
         "0xfeb08000-0xfeb0bfff does not start after 0xfeb00000-0xfeb0ffff"},
        {DVS_OVERFLOW,
         {TOP, TOP},
         {0, 0},
         0,
         DVS_CAUSE_ENDS_AT_MAX,
         "0xffffffffffffffff-0xffffffffffffffff ends at the last address"},
        {DVS_RESOURCE_NOT_AVAILABLE,
         {0, 0},
         {0xfeb08000, 0xfeb0bfff},
         0,
         DVS_CAUSE_NO_FIT,
         "No gap of the window fits; the longest is 0xfeb08000-0xfeb0bfff"},
        {DVS_RESOURCE_NOT_AVAILABLE,
         {0, 0},
         {1, 0},
         0,
         DVS_CAUSE_NO_FIT,
         "No address of the window is free"},
        {DVS_INVALID_RANGE, {1, 0}, {0, 0}, 0, DVS_CAUSE_NONE, "0x1-0x0 is not a valid range"},
        {DVS_OVERLAP,
         {0xfeb00000, 0xfeb0ffff},
         {0xfeb08000, 0xfeb0bfff},
         0,
         DVS_CAUSE_NONE,
         "0xfeb00000-0xfeb0ffff overlaps 0xfeb08000-0xfeb0bfff"},
        {DVS_OUT_OF_RANGE,
         {0, 0},
         {0, 0},
         UINT32_MAX,
         DVS_CAUSE_NONE,
         "The id 4294967295 is outside the range of the allocator"},
        {DVS_ALREADY_RELEASED, {0, 0}, {0, 0}, 7, DVS_CAUSE_NONE, "The id 7 is already freed"},
        {DVS_NEVER_ALLOCATED,
         {0, 0},
         {0, 0},
         0,
         DVS_CAUSE_NONE,
         "The id 0 was never allocated, or no device has it"},
        {DVS_RESOURCE_NOT_AVAILABLE,
         {0, 0},
         {0, 0},
         7,
         DVS_CAUSE_NONE,
         "The id 7 is allocated, not found or out of order"},
        {DVS_UNDERFLOW, {0, 0}, {0, 0}, 0, DVS_CAUSE_NONE, "The size of a space is 0"},
        /* A call that succeeds writes no details. */
        {DVS_OK,
         {0xfeb00000, 0xfeb0ffff},
         {0xfeb08000, 0xfeb0bfff},
         7,
         DVS_CAUSE_ALLOCATED,
         "The call succeeded"},
        {STATUSES, {0, 0}, {0, 0}, 0, DVS_CAUSE_NONE, "Unknown number"},
    };
    size_t i, room;

    for (i = 0; i < sizeof rows / sizeof rows[0]; i++) {
        const dvs_refusal told = {rows[i].range, rows[i].other, 0, rows[i].id, rows[i].cause};
        const char *const text = rows[i].text;
        const size_t length = strlen(text);
        char line[200], whole[200];

        CHECK(dvs_refusal_text(rows[i].status, &told, NULL, 0) == length);
        CHECK(dvs_refusal_text(rows[i].status, &told, line, SIZE_MAX) == length);
        CHECK(strcmp(line, text) == 0);
        for (room = 0; room <= length + 2; room++) {
            memset(line, UNTOUCHED, sizeof line);
            CHECK(dvs_refusal_text(rows[i].status, &told, line, room) == length);
            snprintf(whole, sizeof whole, "%.*s", room > 0 ? (int)room - 1 : 0, text);
            CHECK(room == 0 || strcmp(line, whole) == 0);
            CHECK(is_untouched(line + (room <= length ? room : length + 1),
                               sizeof line - (room <= length ? room : length + 1)));
        }
    }
    for (i = 0; i < STATUSES; i++) {
        char line[200];

        CHECK(dvs_refusal_text((dvs_status)i, NULL, line, sizeof line) < sizeof line);
        CHECK(strcmp(line, dvs_status_text((dvs_status)i)) == 0);
    }
}

static void say_words(void) {
    static const uint32_t unknown[] = {STATUSES, 99, 256, 65536, UINT32_MAX};
    char version[32];
    size_t i;

    for (i = 0; i < sizeof unknown / sizeof unknown[0]; i++) {
        CHECK(strcmp(dvs_status_name(unknown[i]), "unknown") == 0);
        CHECK(strcmp(dvs_status_text(unknown[i]), "Unknown number") == 0);
        CHECK(strcmp(dvs_cause_text(unknown[i]), "Unknown number") == 0);
    }
    CHECK(dvs_cause_text(DVS_CAUSE_NONE)[0] == 0);
    say_numbers();
    /* divsharun.h: "DVS_VERSION_NUMBER is 10000 * major + 100 * minor + patch." */
    sprintf(version, "%d.%d.%d", DVS_VERSION_MAJOR, DVS_VERSION_MINOR, DVS_VERSION_PATCH);
    CHECK(strcmp(version, DVS_VERSION_TEXT) == 0 && strcmp(version, dvs_version_text()) == 0);
    CHECK(DVS_VERSION_NUMBER ==
          10000 * DVS_VERSION_MAJOR + 100 * DVS_VERSION_MINOR + DVS_VERSION_PATCH);
}

int main(void) {
    int status;

    call_with_numbers();
    allocate_many_ranges();
    allocate_many_ids(0);
    allocate_many_ids(0x7fffff80);
    reserve_many_devices(0);
    reserve_many_devices(0x7fffff80);
    reserve_given_ids();
    give_null();
    change_in_visits();
    copy_objects();
    read_texts();
    refuse_fields();
    escape_each_byte();
    read_again();
    say_words();
    for (status = 0; status < STATUSES; status++)
        CHECK(seen[status] || status == DVS_OVERLAP || status == DVS_OUT_OF_MEMORY);
    puts("calls: every call and every status checked");
    return 0;
}
