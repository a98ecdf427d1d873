/* SPDX-License-Identifier: Apache-2.0 OR BSD-3-Clause */
/*
 * Guards against a request whose window is lost or converted wrongly, by tables.
 */
#include "outcome.h"

SAVED(saved_space, dvs_address_allocator)
SAVED(saved_devices, dvs_device_manager)

/* Returns whether two saved texts are the same, and frees them. */
static bool are_same_texts(char *one, char *other) {
    bool are_same = strcmp(one, other) == 0;

    dvs_text_destroy(one);
    dvs_text_destroy(other);
    return are_same;
}

/* ---- Tables ---- */

/* The id of the device that a test reserves. */
enum { NEXT_ID = 2 };

/* A request with a window, and its outcome. */
struct row {
    uint32_t policy;
    uint64_t size, alignment, start;
    dvs_range window;
    struct outcome outcome;
};

/* A range that is not available. The test finds the requested range and the one in the way. */
#define BLOCKED(cause) IN_THE_WAY(0, 0, cause, 0, 0)
#define TAKEN_PAST_WINDOW                                                                          \
    {                                                                                              \
        DVS_INVALID_STATE_TRANSITION, {0, 0}, 0, DVS_CAUSE_OUTSIDE_WINDOW, {                       \
            0, 0                                                                                   \
        }                                                                                          \
    }

/* In the space from 0x1000 to 0x1fff, with the ranges of `held` allocated. */
static const dvs_range held[] = {{0x1400, 0x14ff}, {0x1800, 0x18ff}};

/* divsharun.h: "DVS_FIRST allocates the lowest range in the window of the request, and DVS_LAST
 * the highest. DVS_EXACT allocates the range that starts at `start`, if it lies in the window." */
static const struct row in_gaps[] = {
    /* A gap. */
    {DVS_FIRST, 0x100, 0x100, 0, {0x1500, 0x17ff}, GETS(0x1500, 0x15ff)},
    {DVS_LAST, 0x100, 0x100, 0, {0x1500, 0x17ff}, GETS(0x1700, 0x17ff)},
    {DVS_EXACT, 0x100, 0x100, 0x1500, {0x1500, 0x17ff}, GETS(0x1500, 0x15ff)},
    {DVS_EXACT, 0x100, 0x100, 0x1700, {0x1500, 0x17ff}, GETS(0x1700, 0x17ff)},
    /* A part of a gap. */
    {DVS_FIRST, 0x10, 1, 0, {0x1510, 0x17ef}, GETS(0x1510, 0x151f)},
    {DVS_FIRST, 0x10, 0x100, 0, {0x1510, 0x17ef}, GETS(0x1600, 0x160f)},
    {DVS_LAST, 0x10, 1, 0, {0x1510, 0x17ef}, GETS(0x17e0, 0x17ef)},
    {DVS_LAST, 0x10, 0x100, 0, {0x1510, 0x17ef}, GETS(0x1700, 0x170f)},
    {DVS_EXACT, 0x10, 1, 0x1510, {0x1510, 0x17ef}, GETS(0x1510, 0x151f)},
    {DVS_EXACT, 0x10, 1, 0x17e0, {0x1510, 0x17ef}, GETS(0x17e0, 0x17ef)},
    {DVS_EXACT, 0x10, 1, 0x150f, {0x1510, 0x17ef}, BLOCKED(OUTSIDE_WINDOW)},
    {DVS_EXACT, 0x10, 1, 0x17e1, {0x1510, 0x17ef}, BLOCKED(OUTSIDE_WINDOW)},
    /* All addresses of the window, and one more. */
    {DVS_FIRST, 0x2e0, 1, 0, {0x1510, 0x17ef}, GETS(0x1510, 0x17ef)},
    {DVS_LAST, 0x2e0, 1, 0, {0x1510, 0x17ef}, GETS(0x1510, 0x17ef)},
    {DVS_EXACT, 0x2e0, 1, 0x1510, {0x1510, 0x17ef}, GETS(0x1510, 0x17ef)},
    {DVS_FIRST, 0x2e1, 1, 0, {0x1510, 0x17ef}, NO_FIT(0x1510, 0x17ef)},
    {DVS_LAST, 0x2e1, 1, 0, {0x1510, 0x17ef}, NO_FIT(0x1510, 0x17ef)},
    {DVS_EXACT, 0x2e1, 1, 0x1510, {0x1510, 0x17ef}, BLOCKED(OUTSIDE_WINDOW)},
    /* Three gaps. */
    {DVS_FIRST, 0x100, 1, 0, {0x1300, 0x19ff}, GETS(0x1300, 0x13ff)},
    {DVS_FIRST, 0x101, 1, 0, {0x1300, 0x19ff}, GETS(0x1500, 0x1600)},
    {DVS_LAST, 0x100, 1, 0, {0x1300, 0x19ff}, GETS(0x1900, 0x19ff)},
    {DVS_LAST, 0x101, 1, 0, {0x1300, 0x19ff}, GETS(0x16ff, 0x17ff)},
    {DVS_FIRST, 0x301, 1, 0, {0x1300, 0x19ff}, NO_FIT(0x1500, 0x17ff)},
    {DVS_LAST, 0x301, 1, 0, {0x1300, 0x19ff}, NO_FIT(0x1500, 0x17ff)},
    /* The lowest of two that are as long, and two parts of gaps. */
    {DVS_LAST, 0x101, 1, 0, {0x1300, 0x15ff}, NO_FIT(0x1300, 0x13ff)},
    {DVS_FIRST, 0x101, 1, 0, {0x1380, 0x15ff}, NO_FIT(0x1500, 0x15ff)},
    /* One address, which is free or allocated. */
    {DVS_FIRST, 1, 1, 0, {0x1555, 0x1555}, GETS(0x1555, 0x1555)},
    {DVS_LAST, 1, 1, 0, {0x1555, 0x1555}, GETS(0x1555, 0x1555)},
    {DVS_EXACT, 1, 1, 0x1555, {0x1555, 0x1555}, GETS(0x1555, 0x1555)},
    {DVS_FIRST, 1, 2, 0, {0x1555, 0x1555}, NO_FIT(0x1555, 0x1555)},
    {DVS_LAST, 2, 1, 0, {0x1555, 0x1555}, NO_FIT(0x1555, 0x1555)},
    {DVS_EXACT, 1, 1, 0x1554, {0x1555, 0x1555}, BLOCKED(OUTSIDE_WINDOW)},
    {DVS_EXACT, 1, 1, 0x1556, {0x1555, 0x1555}, BLOCKED(OUTSIDE_WINDOW)},
    {DVS_FIRST, 1, 1, 0, {0x1400, 0x1400}, NO_FIT(1, 0)},
    {DVS_LAST, 1, 1, 0, {0x14ff, 0x14ff}, NO_FIT(1, 0)},
};

/* divsharun.h: "Without a given start, all addresses of the window are outside it."
 * divsharun.h: "For the other policies it is DVS_CAUSE_OUTSIDE_SPACE if the window and the space
 * have no address in common, and otherwise DVS_CAUSE_NONE." */
static const struct row at_ends[] = {
    /* No address of the space. */
    {DVS_FIRST, 1, 1, 0, {0, 0xfff}, BLOCKED(OUTSIDE_SPACE)},
    {DVS_LAST, 1, 1, 0, {0x2000, TOP - 1}, BLOCKED(OUTSIDE_SPACE)},
    {DVS_EXACT, 1, 1, 0x1000, {0, 0xfff}, BLOCKED(OUTSIDE_WINDOW)},
    {DVS_EXACT, 1, 1, 0xf00, {0, 0xfff}, BLOCKED(OUTSIDE_SPACE)},
    {DVS_EXACT, 1, 1, 0x2000, {0x2000, TOP}, BLOCKED(OUTSIDE_SPACE)},
    {DVS_FIRST, 1, 1, 0, {0, 1}, BLOCKED(OUTSIDE_SPACE)},
    {DVS_LAST, 1, 1, 0, {TOP, TOP}, BLOCKED(OUTSIDE_SPACE)},
    /* The space or a part of it, and addresses outside it. */
    {DVS_FIRST, 0x10, 1, 0, {0, 0x2fff}, GETS(0x1000, 0x100f)},
    {DVS_LAST, 0x10, 1, 0, {0, 0x2fff}, GETS(0x1ff0, 0x1fff)},
    {DVS_EXACT, 0x10, 1, 0x1ff0, {1, TOP}, GETS(0x1ff0, 0x1fff)},
    {DVS_EXACT, 0x11, 1, 0x1ff0, {1, TOP}, BLOCKED(OUTSIDE_SPACE)},
    {DVS_FIRST, 0x10, 1, 0, {0x1f00, TOP}, GETS(0x1f00, 0x1f0f)},
    {DVS_LAST, 0x10, 1, 0, {0, 0x100f}, GETS(0x1000, 0x100f)},
    {DVS_LAST, 0x11, 1, 0, {0, 0x100f}, NO_FIT(0x1000, 0x100f)},
    /* All addresses: no limit. */
    {DVS_FIRST, 0x10, 1, 0, {0, TOP}, GETS(0x1000, 0x100f)},
    {DVS_LAST, 0x10, 1, 0, {0, TOP}, GETS(0x1ff0, 0x1fff)},
    {DVS_EXACT, 0x10, 1, 0x1500, {0, TOP}, GETS(0x1500, 0x150f)},
    {DVS_EXACT, 0x100, 1, 0x1400, {0, TOP}, IS_TAKEN(0x1400, 0x14ff)},
    /* divsharun.h: "For a request at alignment 1 without a window, DVS_FIRST and DVS_LAST return
     * DVS_RESOURCE_NOT_AVAILABLE if and only if its size is more than this length." */
    {DVS_FIRST, 0x701, 1, 0, {0, TOP}, NO_FIT(0x1900, 0x1fff)},
};

/* Windows that are not ranges, allocated ranges, and requests with two errors or two causes. */
/* divsharun.h: "The first one that applies is written, in this order: outside the space, outside
 * the window, allocated or an earlier request, no fit."
 * divsharun.h: "DVS_INVALID_STATE_TRANSITION is also returned if exactly the requested range is
 * allocated, starts in the window and ends past it." */
static const struct row refused[] = {
    {DVS_FIRST, 1, 1, 0, {9, 8}, TELLS(DVS_INVALID_RANGE, 9, 8)},
    {DVS_LAST, 1, 1, 0, {TOP, 1}, TELLS(DVS_INVALID_RANGE, TOP, 1)},
    {DVS_EXACT, 1, 1, 0x1500, {0x1501, 0x1500}, TELLS(DVS_INVALID_RANGE, 0x1501, 0x1500)},
    {DVS_EXACT, 0x100, 1, 0x1400, {0x1400, 0x14fe}, TAKEN_PAST_WINDOW},
    {DVS_EXACT, 0x100, 1, 0x1400, {0x1400, 0x1400}, TAKEN_PAST_WINDOW},
    {DVS_EXACT, 0x100, 1, 0x1400, {0x1401, 0x14ff}, BLOCKED(OUTSIDE_WINDOW)},
    {DVS_EXACT, 0x100, 1, 0x1400, {0x1401, TOP}, BLOCKED(OUTSIDE_WINDOW)},
    {DVS_EXACT, 0x80, 1, 0x1400, {0x1400, 0x14fe}, BLOCKED(ALLOCATED)},
    {DVS_EXACT + 1, 0, 3, 0, {9, 8}, FAILS(DVS_INVALID_POLICY)},
    {UINT32_MAX, 1, 1, 0, {0x1500, 0x17ff}, FAILS(DVS_INVALID_POLICY)},
    {DVS_EXACT, 0, 3, 1, {9, 8}, FAILS(DVS_INVALID_SIZE)},
    {DVS_EXACT, 1, 3, 1, {9, 8}, FAILS(DVS_INVALID_ALIGNMENT)},
    {DVS_EXACT, 1, 4, 0x1502, {9, 8}, FAILS(DVS_UNALIGNED_ADDRESS)},
    {DVS_EXACT, 2, 1, TOP, {9, 8}, TELLS(DVS_INVALID_RANGE, 9, 8)},
    {DVS_EXACT, 2, 1, TOP, {0, 0xfff}, FAILS(DVS_OVERFLOW)},
    {DVS_EXACT, 2, 1, 0xfff, {0x1500, 0x17ff}, BLOCKED(OUTSIDE_SPACE)},
    {DVS_EXACT, 0xf00, 1, 0x1400, {0x1400, 0x17ff}, BLOCKED(OUTSIDE_SPACE)},
    {DVS_EXACT, 0x200, 1, 0x1400, {0x1500, 0x17ff}, BLOCKED(OUTSIDE_WINDOW)},
    {DVS_EXACT, TOP, 1, 0x1500, {0x1600, 0x17ff}, BLOCKED(OUTSIDE_SPACE)},
    {DVS_EXACT, TOP, 1, 0x1500, {0x1500, 0x1501}, FAILS(DVS_OVERFLOW)},
    {DVS_EXACT, TOP, 1, 0x1400, {0x1400, 0x1401}, FAILS(DVS_OVERFLOW)},
};

/* divsharun.h: "A `low` of 0 is no lower limit. A `high` of 0 or UINT64_MAX is no upper limit. With
 * neither limit there is no window. Use DVS_EXACT for the address 0 alone." */

/* In the space from 0 to 0xff. */
static const struct row at_zero[] = {
    {DVS_FIRST, 1, 1, 0, {0, 0}, GETS(0, 0)},
    {DVS_LAST, 1, 1, 0, {0, 0}, GETS(0xff, 0xff)},
    {DVS_EXACT, 1, 1, 0, {0, 0}, GETS(0, 0)},
    {DVS_EXACT, 2, 1, 0, {0, 0}, GETS(0, 1)},
    {DVS_LAST, 1, 1, 0, {0, 1}, GETS(1, 1)},
    {DVS_EXACT, 2, 1, 0, {0, 1}, GETS(0, 1)},
    {DVS_EXACT, 3, 1, 0, {0, 1}, BLOCKED(OUTSIDE_WINDOW)},
    {DVS_EXACT, 1, 1, 0, {1, TOP}, BLOCKED(OUTSIDE_WINDOW)},
    {DVS_FIRST, 1, 1, 0, {1, TOP}, GETS(1, 1)},
    {DVS_FIRST, 0x100, 0x100, 0, {0, 0xff}, GETS(0, 0xff)},
    {DVS_LAST, 0x100, 0x100, 0, {0, 0xfe}, NO_FIT(0, 0xfe)},
    {DVS_LAST, 0x10, 0x10, 0, {0, 0xfe}, GETS(0xe0, 0xef)},
};

/* divsharun.h: "DVS_OVERFLOW is returned if the highest range ends at UINT64_MAX, even if another
 * is free."
 * divsharun.h: "A window that ends before UINT64_MAX avoids the DVS_OVERFLOW of a range that ends
 * there." */

/* In the space of the 256 addresses up to UINT64_MAX. */
static const struct row at_top[] = {
    {DVS_FIRST, 1, 1, 0, {TOP, TOP}, FAILS(DVS_OVERFLOW)},
    {DVS_FIRST, 0x80, 1, 0, {TOP - 0x7f, TOP}, FAILS(DVS_OVERFLOW)},
    {DVS_FIRST, 0x81, 1, 0, {TOP - 0x7f, TOP}, NO_FIT(TOP - 0x7f, TOP)},
    {DVS_FIRST, 0x10, 1, 0, {TOP - 0x7f, TOP}, GETS(TOP - 0x7f, TOP - 0x70)},
    {DVS_LAST, 0x10, 1, 0, {TOP - 0x7f, TOP}, FAILS(DVS_OVERFLOW)},
    {DVS_LAST, 0x10, 1, 0, {TOP - 0x7f, TOP - 1}, GETS(TOP - 0x10, TOP - 1)},
    {DVS_LAST, 0x10, 0x10, 0, {TOP - 0x7f, TOP - 1}, GETS(TOP - 0x1f, TOP - 0x10)},
    {DVS_LAST, 1, 1, 0, {0, TOP}, FAILS(DVS_OVERFLOW)},
    {DVS_LAST, 1, 1, 0, {0, TOP - 1}, GETS(TOP - 1, TOP - 1)},
    {DVS_EXACT, 0x10, 1, TOP - 0xf, {TOP - 0x7f, TOP}, FAILS(DVS_OVERFLOW)},
    {DVS_EXACT, 0x11, 1, TOP - 0xf, {TOP - 0x7f, TOP}, FAILS(DVS_OVERFLOW)},
    {DVS_EXACT, 0x10, 1, TOP - 0xf, {TOP - 0x7f, TOP - 1}, BLOCKED(OUTSIDE_WINDOW)},
    {DVS_EXACT, 0x10, 1, TOP - 0x10, {TOP - 0x7f, TOP - 1}, GETS(TOP - 0x10, TOP - 1)},
    {DVS_EXACT, 1, 1, TOP, {TOP, TOP}, FAILS(DVS_OVERFLOW)},
};

/* divsharun.h: "An address is allocated. `other` is the lowest allocated range that has one." */

/* Requests without a window. */
static const struct row in_the_way[] = {
    {DVS_EXACT, 1, 1, 0xfff, {0, TOP}, BLOCKED(OUTSIDE_SPACE)},
    {DVS_EXACT, 0x10, 1, 0xff8, {0, TOP}, BLOCKED(OUTSIDE_SPACE)},
    {DVS_EXACT, 2, 1, 0x1fff, {0, TOP}, BLOCKED(OUTSIDE_SPACE)},
    {DVS_EXACT, 0x1000, 1, 0x1400, {0, TOP}, BLOCKED(OUTSIDE_SPACE)},
    {DVS_EXACT, TOP, 1, 0x2000, {0, TOP}, BLOCKED(OUTSIDE_SPACE)},
    {DVS_EXACT, TOP, 1, 0, {0, TOP}, BLOCKED(OUTSIDE_SPACE)},
    {DVS_EXACT, 0x1000, 1, 0x1000, {0, TOP}, BLOCKED(ALLOCATED)},
    {DVS_EXACT, 2, 1, 0x13ff, {0, TOP}, BLOCKED(ALLOCATED)},
    {DVS_EXACT, 2, 1, 0x14ff, {0, TOP}, BLOCKED(ALLOCATED)},
    {DVS_EXACT, 0x400, 1, 0x1500, {0, TOP}, BLOCKED(ALLOCATED)},
};

/* In the space from 1 to UINT64_MAX. */
#define MUCH ((uint64_t)1 << 41)
#define QUARTER ((uint64_t)1 << 62)
#define HALF (2 * QUARTER)
static const struct row of_largest[] = {
    {DVS_FIRST, QUARTER, HALF, 0, {0, TOP}, GETS(HALF, HALF + QUARTER - 1)},
    {DVS_FIRST, QUARTER + 1, QUARTER, 0, {0, TOP}, GETS(QUARTER, HALF)},
    {DVS_FIRST, MUCH, 1, 0, {HALF + 5, TOP}, GETS(HALF + 5, HALF + 4 + MUCH)},
    {DVS_FIRST, MUCH + 1, 1, 0, {TOP - MUCH, TOP}, FAILS(DVS_OVERFLOW)},
    {DVS_FIRST, MUCH + 2, 1, 0, {TOP - MUCH, TOP}, NO_FIT(TOP - MUCH, TOP)},
    {DVS_FIRST, HALF + QUARTER, HALF, 0, {0, TOP}, NO_FIT(0x1900, TOP)},
    {DVS_LAST, QUARTER + 1, QUARTER, 0, {0, TOP}, GETS(HALF, HALF + QUARTER)},
    {DVS_LAST, MUCH, MUCH, 0, {0, TOP}, FAILS(DVS_OVERFLOW)},
    {DVS_LAST, MUCH, MUCH, 0, {0, TOP - 1}, GETS(TOP - 2 * MUCH + 1, TOP - MUCH)},
    {DVS_LAST, MUCH, HALF, 0, {1, HALF + MUCH - 2}, NO_FIT(0x1900, HALF + MUCH - 2)},
    {DVS_EXACT, HALF - 1, HALF, HALF, {HALF, TOP - 1}, GETS(HALF, TOP - 1)},
    {DVS_EXACT, HALF, HALF, HALF, {0, TOP}, FAILS(DVS_OVERFLOW)},
    {DVS_EXACT, HALF + 1, HALF, HALF, {0, TOP}, FAILS(DVS_OVERFLOW)},
    {DVS_EXACT, MUCH, HALF, HALF + QUARTER, {0, TOP}, FAILS(DVS_UNALIGNED_ADDRESS)},
    {DVS_EXACT, MUCH, HALF + QUARTER, 0, {0, TOP}, FAILS(DVS_INVALID_ALIGNMENT)},
    {DVS_EXACT, MUCH, 1, HALF + 5, {HALF + 6, TOP}, BLOCKED(OUTSIDE_WINDOW)},
    {DVS_EXACT, MUCH, 1, HALF + 5, {HALF, HALF + 3 + MUCH}, BLOCKED(OUTSIDE_WINDOW)},
    {DVS_EXACT, MUCH, 1, 0, {0, TOP}, BLOCKED(OUTSIDE_SPACE)},
    {DVS_EXACT, TOP, 1, 1, {0, TOP}, BLOCKED(ALLOCATED)},
    {DVS_FIRST, 1, 1, 0, {TOP, HALF}, TELLS(DVS_INVALID_RANGE, TOP, HALF)},
};

/* divsharun.h: "But the errors of an invalid request precede those of the id." */

/* In a manager whose id UINT32_MAX is allocated. An error of the id precedes that of the range. */
static const struct row without_ids[] = {
    {DVS_EXACT + 1, 0, 3, 1, {9, 8}, FAILS(DVS_INVALID_POLICY)},
    {DVS_EXACT, 0, 3, 1, {9, 8}, FAILS(DVS_INVALID_SIZE)},
    {DVS_EXACT, 1, 3, 1, {9, 8}, FAILS(DVS_INVALID_ALIGNMENT)},
    {DVS_EXACT, 1, 4, 0x1502, {9, 8}, FAILS(DVS_UNALIGNED_ADDRESS)},
    {DVS_EXACT, 1, 1, 0x1502, {9, 8}, TELLS(DVS_INVALID_RANGE, 9, 8)},
    {DVS_EXACT, 0x100, 1, 0x1400, {0x1400, 0x14ff}, FAILS(DVS_OVERFLOW)},
    {DVS_FIRST, 1, 1, 0, {0, 0xfff}, FAILS(DVS_OVERFLOW)},
    {DVS_LAST, 1, 1, 0, {0x1500, 0x17ff}, FAILS(DVS_OVERFLOW)},
};

/* In a manager without a free id. No range is in the way. */
static const struct row without_id[] = {
    {DVS_EXACT, 0x10, 1, 0x1400, {0, TOP}, NO_PLACE},
    {DVS_EXACT, 0x10, 1, 0x1500, {0, 0xfff}, NO_PLACE},
};

/* divsharun.h: "This is dvs_range_move_request() for as many addresses at `start`, at alignment 1
 * and without a window. So it does not check the alignment and the window of the first request." */

/* Moves of a range in a space of 256 units, of which the units 4 and 5 are allocated. */
#define UNIT ((uint64_t)1 << 32)
#define AT(unit) (0xfedcba9000000000 + (unit)*UNIT)
/* clang-format off */
#define HELD {AT(4), AT(6) - 1}

static const struct {
    dvs_range range;
    struct row row;
} moves[] = {
    {HELD, {DVS_FIRST, 3 * UNIT + 1, 4 * UNIT, 0, {AT(6), TOP}, GETS(AT(8), AT(11))}},
    {HELD, {DVS_LAST, 2 * UNIT, 8 * UNIT, 0, {0, AT(248) - 1}, GETS(AT(240), AT(242) - 1)}},
    {HELD, {DVS_EXACT, UNIT + 1, 8 * UNIT, AT(128), {AT(128), AT(129)}, GETS(AT(128), AT(129))}},
    {HELD, {DVS_EXACT, UNIT + 1, 8 * UNIT, AT(128), {AT(128), AT(129) - 1},
            IN_THE_WAY(AT(128), AT(129), OUTSIDE_WINDOW, AT(128), AT(129) - 1)}},
    /* Over its own addresses. */
    {HELD, {DVS_EXACT, 2 * UNIT, 1, AT(3), {0, TOP}, GETS(AT(3), AT(5) - 1)}},
    {HELD, {DVS_EXACT, 8 * UNIT, 1, AT(4), {0, TOP}, GETS(AT(4), AT(12) - 1)}},
    {HELD, {DVS_EXACT, UNIT, 1, AT(4), {0, TOP}, GETS(AT(4), AT(5) - 1)}},
    {HELD, {DVS_FIRST, 256 * UNIT - 1, 1, 0, {0, TOP}, GETS(AT(0), AT(256) - 2)}},
    {HELD, {DVS_LAST, UNIT, UNIT, 0, HELD, GETS(AT(5), AT(6) - 1)}},
    {HELD, {DVS_EXACT, 2 * UNIT, 1, AT(4), HELD, GETS(AT(4), AT(6) - 1)}},
    {HELD, {DVS_EXACT, 2 * UNIT, 1, AT(4), {AT(4), AT(5)},
            IN_THE_WAY(AT(4), AT(6) - 1, OUTSIDE_WINDOW, AT(4), AT(5))}},
    {HELD, {DVS_FIRST, 1, 1, 0, {0, 9}, IN_THE_WAY(0, 0, OUTSIDE_SPACE, AT(0), AT(256) - 1)}},
    /* Errors of the request, then of the range, then of the new range. */
    {{2, 1}, {DVS_EXACT + 1, 0, 1, TOP, {9, 8}, FAILS(DVS_INVALID_POLICY)}},
    {{2, 1}, {DVS_EXACT, 1, 1, TOP, {9, 8}, TELLS(DVS_INVALID_RANGE, 9, 8)}},
    {{2, 1}, {DVS_EXACT, 1, 1, TOP, {0, TOP}, TELLS(DVS_INVALID_RANGE, 2, 1)}},
    {{AT(4), AT(5)}, {DVS_EXACT, 1, 1, TOP, {0, TOP}, NO_PLACE}},
    {{AT(4), AT(5)}, {DVS_EXACT, 1, 1, AT(5), {0, TOP}, NO_PLACE}},
    {HELD, {DVS_EXACT, 1, 1, TOP, {0, TOP}, FAILS(DVS_OVERFLOW)}},
};
/* clang-format on */

/* divsharun.h: "With a cause: the requested range, or 0 to 0 if it has no given start or would end
 * past UINT64_MAX." */

/* Returns the window of a request with these limits. */
static dvs_range window_of(uint64_t low, uint64_t high) {
    return range_of(low, high == 0 ? TOP : high);
}

/* Returns the outcome of a row, with the requested range and the one that the cause names. */
static struct outcome outcome_of(const struct row *row, dvs_range space) {
    struct outcome all = row->outcome;
    size_t i = 2;

    if (all.cause == DVS_CAUSE_NONE)
        return all;
    if (row->policy == DVS_EXACT && row->start <= TOP - (row->size - 1))
        all.range = range_of(row->start, row->start + (row->size - 1));
    while (all.cause == DVS_CAUSE_ALLOCATED && i-- > 0)
        if (all.range.start <= held[i].end && held[i].start <= all.range.end)
            all.other = held[i];
    if (all.cause == DVS_CAUSE_OUTSIDE_SPACE)
        all.other = space;
    if (all.cause == DVS_CAUSE_OUTSIDE_WINDOW)
        all.other = window_of(row->window.start, row->window.end);
    return all;
}

/* Checks the conflict of a request with this outcome, with a space, or with a manager if there is
 * no space. */
static void check_conflict(const dvs_request *request, const struct outcome *outcome, dvs_range all,
                           const dvs_address_allocator *space, const dvs_device_manager *manager) {
    dvs_refusal expected = {outcome->range, outcome->other, 0, 0, outcome->cause};
    dvs_status status = DVS_OK;

    switch (outcome->status) {
    case DVS_OK:
        memset(&expected, 0, sizeof expected);
        break;
    case DVS_OVERFLOW:
        if (request->start > TOP - (request->size - 1)) {
            expected.cause = DVS_CAUSE_OUTSIDE_SPACE;
            expected.other = all;
        }
        break;
    case DVS_INVALID_STATE_TRANSITION:
    case DVS_RESOURCE_NOT_AVAILABLE:
        if (expected.cause == DVS_CAUSE_NO_FIT)
            memset(&expected, 0, sizeof expected);
        break;
    default:
        status = outcome->status;
    }
    prepare();
    CHECK(status == (space != NULL ? dvs_range_conflict(space, request, &results.conflict)
                                   : dvs_device_conflict(manager, request, &results.conflict)));
    CHECK(status == DVS_OK ? memcmp(&results.conflict, &expected, sizeof expected) == 0
                           : is_untouched(&results, sizeof results));
}

/* A call with a request, on a space or a manager. It frees what it has allocated. */
typedef dvs_status request_call(void *object, const dvs_request *request);

static dvs_status allocate_one(void *object, const dvs_request *request) {
    dvs_address_allocator *space = (dvs_address_allocator *)object;
    dvs_range *range = &results.device.range;
    dvs_status status = dvs_range_allocate(space, request, range, &refusal);

    CHECK(status != DVS_OK || dvs_range_free(space, *range, NULL) == DVS_OK);
    return status;
}

/* divsharun.h: "Writes to `range` the range that dvs_range_allocate() would allocate now, and
 * changes nothing." */
static dvs_status peek_one(void *object, const dvs_request *request) {
    return dvs_range_peek((const dvs_address_allocator *)object, request, &results.device.range,
                          &refusal);
}

static dvs_status allocate_list(void *object, const dvs_request *request) {
    dvs_address_allocator *space = (dvs_address_allocator *)object;
    dvs_range *range = &results.device.range;
    size_t failed = 9;
    dvs_status status =
        dvs_address_allocator_allocate_all(space, request, 1, range, &failed, &refusal);

    CHECK(failed == (status == DVS_OK ? 1 : 0));
    CHECK(status != DVS_OK || dvs_range_free(space, *range, NULL) == DVS_OK);
    return status;
}

/* Checks the move of the last range of `held` beside its freeing and an allocation. */
static void check_move(const dvs_address_allocator *space, const dvs_request *request) {
    dvs_address_allocator *moved, *changed;
    dvs_range ranges[2] = {{0, 0}, {0, 0}};
    dvs_refusal refusals[2];
    dvs_status status;
    bool are_equal;

    memset(refusals, 0, sizeof refusals);
    CHECK(dvs_address_allocator_copy(space, &moved) == DVS_OK);
    CHECK(dvs_address_allocator_copy(space, &changed) == DVS_OK);
    CHECK(dvs_range_free(changed, held[1], NULL) == DVS_OK);
    status = dvs_range_allocate(changed, request, &ranges[0], &refusals[0]);
    /* A move does not look for the longest gap. */
    if (refusals[0].cause == DVS_CAUSE_NO_FIT)
        memset(&refusals[0], 0, sizeof refusals[0]);
    CHECK(dvs_range_move_request(moved, held[1], request, &ranges[1], &refusals[1]) == status);
    CHECK(memcmp(&ranges[0], &ranges[1], sizeof ranges[0]) == 0);
    CHECK(memcmp(&refusals[0], &refusals[1], sizeof refusals[0]) == 0);
    CHECK(dvs_address_allocator_equal(moved, status == DVS_OK ? changed : space, &are_equal) ==
          DVS_OK);
    CHECK(are_equal);
    dvs_address_allocator_destroy(moved);
    dvs_address_allocator_destroy(changed);
}

static dvs_status reserve_one(void *object, const dvs_request *request) {
    dvs_device_manager *manager = (dvs_device_manager *)object;
    dvs_status status = dvs_device_reserve(manager, request, &results.device, &refusal);

    if (status == DVS_OK) {
        CHECK(results.device.id == NEXT_ID);
        CHECK(dvs_device_release(manager, NEXT_ID, NULL) == DVS_OK);
        results.device.id = NO_ID;
    }
    return status;
}

static dvs_request request_of(const struct row *row) {
    const dvs_request request = {row->size,   row->alignment,    row->start,
                                 row->policy, row->window.start, row->window.end};

    return request;
}

/* Checks a call for a row. The lack of an upper limit is written in two ways. */
static void check_call(const struct row *row, dvs_range space, request_call *call, void *object) {
    const struct outcome outcome = outcome_of(row, space);
    dvs_request request = request_of(row);
    int i;

    for (i = 0; i <= (row->window.end == TOP); i++) {
        prepare();
        CHECK(has_outcome(&outcome, call(object, &request)));
        request.high = 0;
    }
}

/* Returns a manager with a device for each of the first `count` ranges of `held`. */
static dvs_device_manager *manager_with(dvs_range space, uint32_t first, uint32_t last,
                                        uint32_t count) {
    dvs_device_manager *manager;
    dvs_device device;
    uint32_t i;

    CHECK(dvs_device_manager_new(first, last, space.start, space.end - space.start + 1, &manager,
                                 NULL) == DVS_OK);
    for (i = 0; i < count; i++)
        CHECK(dvs_device_reserve_exact(manager, held[i].end - held[i].start + 1, 1, held[i].start,
                                       &device, NULL) == DVS_OK);
    return manager;
}

/* Checks rows in a space in which the first `held_count` ranges of `held` are allocated. An error
 * must change nothing. */
static void check_rows(dvs_range all, uint32_t held_count, const struct row *rows, size_t count) {
    dvs_device_manager *manager = manager_with(all, NEXT_ID - held_count, NEXT_ID, held_count);
    dvs_address_allocator *space;
    size_t length, i;

    CHECK(dvs_address_allocator_with_held(all.start, all.end - all.start + 1, held, held_count,
                                          &space, NULL, NULL) == DVS_OK);
    for (i = 0; i < count; i++) {
        char *ranges = saved_space(space, &length), *devices = saved_devices(manager, &length);
        const struct outcome outcome = outcome_of(&rows[i], all);
        const dvs_request request = request_of(&rows[i]);
        bool is_ok = rows[i].outcome.status == DVS_OK;

        check_conflict(&request, &outcome, all, space, NULL);
        check_conflict(&request, &outcome, all, NULL, manager);
        if (held_count == 2)
            check_move(space, &request);
        check_call(&rows[i], all, peek_one, space);
        CHECK(are_same_texts(ranges, saved_space(space, &length)));
        ranges = saved_space(space, &length);
        check_call(&rows[i], all, allocate_one, space);
        check_call(&rows[i], all, allocate_list, space);
        check_call(&rows[i], all, reserve_one, manager);
        CHECK(are_same_texts(ranges, saved_space(space, &length)) || is_ok);
        CHECK(are_same_texts(devices, saved_devices(manager, &length)) || is_ok);
    }
    dvs_address_allocator_destroy(space);
    dvs_device_manager_destroy(manager);
}

static void move_in_windows(void) {
    static const dvs_range range = HELD;
    dvs_address_allocator *space;
    size_t i;

    for (i = 0; i < sizeof moves / sizeof moves[0]; i++) {
        const dvs_request request = request_of(&moves[i].row);
        dvs_range *to = &results.device.range;

        CHECK(dvs_address_allocator_with_held(AT(0), 256 * UNIT, &range, 1, &space, NULL, NULL) ==
              DVS_OK);
        prepare();
        CHECK(has_outcome(&moves[i].row.outcome,
                          dvs_range_move_request(space, moves[i].range, &request, to, &refusal)));
        dvs_address_allocator_destroy(space);
    }
}

/* Checks rows with a manager that has the id `id` only, for the first range of `held`. The ids do
 * not matter for a conflict. */
static void check_without_ids(uint32_t id, const struct row *rows, size_t count) {
    const dvs_request taken = {0x10, 1, 0x1400, DVS_EXACT, 0, 0};
    const struct outcome conflict = IN_THE_WAY(0x1400, 0x140f, ALLOCATED, 0x1400, 0x14ff);
    const dvs_range all = range_of(0x1000, 0x1fff);
    dvs_device_manager *manager = manager_with(all, id, id, 1);
    size_t i;

    check_conflict(&taken, &conflict, all, NULL, manager);
    for (i = 0; i < count; i++)
        check_call(&rows[i], all, reserve_one, manager);
    prepare();
    CHECK(dvs_device_reserve_first(manager, 0, 3, &results.device, NULL) ==
          (id == UINT32_MAX ? DVS_OVERFLOW : DVS_RESOURCE_NOT_AVAILABLE));
    dvs_device_manager_destroy(manager);
}

static void request_in_windows(void) {
    const dvs_range page = range_of(0x1000, 0x1fff);

    check_rows(page, 2, ROWS(in_gaps));
    check_rows(page, 2, ROWS(at_ends));
    check_rows(page, 2, ROWS(refused));
    check_rows(page, 2, ROWS(in_the_way));
    check_rows(range_of(0, 0xff), 0, ROWS(at_zero));
    check_rows(range_of(1, TOP), 2, ROWS(of_largest));
    check_rows(range_of(TOP - 0xff, TOP), 0, ROWS(at_top));
    check_without_ids(UINT32_MAX, ROWS(without_ids));
    check_without_ids(7, ROWS(without_id));
}

int main(void) {
    request_in_windows();
    move_in_windows();
    puts("windows: requests in tables checked");
    return 0;
}
