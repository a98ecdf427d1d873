/* SPDX-License-Identifier: Apache-2.0 OR BSD-3-Clause */
/*
 * Tests of the calls that list, look up and count items, and of those with arrays. They
 * guard against an item that is left out or repeated.
 */
#include "check.h"

enum { MOST = 8 };

#define HALF ((uint64_t)1 << 63)

/* The arguments of the visitor's calls. */
struct seen {
    size_t count;
    size_t stop_at;
    dvs_range ranges[MOST];
    uint32_t ids[MOST];
};

static struct seen all_of(void) {
    struct seen seen;

    memset(&seen, 0, sizeof seen);
    seen.stop_at = MOST;
    return seen;
}

static int see_range(void *context, dvs_range range) {
    struct seen *seen = (struct seen *)context;

    seen->ranges[seen->count++] = range;
    return seen->count == seen->stop_at;
}

static int see_id(void *context, uint32_t id) {
    struct seen *seen = (struct seen *)context;

    seen->ids[seen->count++] = id;
    return seen->count == seen->stop_at;
}

static int see_device(void *context, dvs_device device) {
    struct seen *seen = (struct seen *)context;

    seen->ids[seen->count] = device.id;
    return see_range(context, device.range);
}

static dvs_request request_of(uint64_t size, uint64_t alignment, uint32_t policy, uint64_t start) {
    dvs_request request;

    request.size = size;
    request.alignment = alignment;
    request.policy = policy;
    request.start = start;
    request.low = 0;
    request.high = 0;
    return request;
}

/* ---- Spaces with ranges ---- */

static dvs_address_allocator *two_held(void) {
    dvs_range held[2];
    dvs_address_allocator *space;

    held[0] = range_of(0x1000, 0x1fff);
    held[1] = range_of(0x3000, 0x37ff);
    CHECK(dvs_address_allocator_with_held(0, 0x4000, held, 2, &space, NULL, NULL) == DVS_OK);
    return space;
}

/* divsharun.h: "They must be in ascending order. `held` can be null if `count` is 0." */
static void make_with_ranges(void) {
    dvs_address_allocator *space = two_held();
    struct seen seen = all_of();
    size_t failed = MOST;

    CHECK(dvs_range_visit(space, see_range, &seen) == DVS_OK && seen.count == 2);
    CHECK(is_range(seen.ranges[0], 0x1000, 0x1fff) && is_range(seen.ranges[1], 0x3000, 0x37ff));
    dvs_address_allocator_destroy(space);
    CHECK(dvs_address_allocator_with_held(0, 4, NULL, 0, &space, &failed, NULL) == DVS_OK);
    CHECK(failed == 0);
    dvs_address_allocator_destroy(space);
}

static void refuse_ranges(void) {
    static const struct row {
        uint64_t base, size;
        uint64_t start, end;
        dvs_status status;
        size_t failed;
        uint32_t cause;
        dvs_range other;
    } rows[] = {
        {0, 0, 5, 4, DVS_INVALID_RANGE, 1, DVS_CAUSE_NONE, {0, 0}},
        {0, 0, 5, 5, DVS_UNDERFLOW, 2, DVS_CAUSE_NONE, {0, 0}},
        {2, UINT64_MAX, 5, 5, DVS_OVERFLOW, 2, DVS_CAUSE_NONE, {0, 0}},
        {0, 16, 3, 5, DVS_RESOURCE_NOT_AVAILABLE, 1, DVS_CAUSE_NOT_AFTER, {1, 3}},
        {2, 16, 5, 5, DVS_RESOURCE_NOT_AVAILABLE, 0, DVS_CAUSE_OUTSIDE_SPACE, {2, 17}},
        {0, 16, UINT64_MAX, UINT64_MAX, DVS_OVERFLOW, 1, DVS_CAUSE_ENDS_AT_MAX, {0, 0}},
        {0, 16, 15, 16, DVS_RESOURCE_NOT_AVAILABLE, 1, DVS_CAUSE_OUTSIDE_SPACE, {0, 15}},
        {1, UINT64_MAX, 7, UINT64_MAX, DVS_OVERFLOW, 1, DVS_CAUSE_ENDS_AT_MAX, {0, 0}},
        {1, UINT64_MAX, 3, UINT64_MAX, DVS_RESOURCE_NOT_AVAILABLE, 1, DVS_CAUSE_NOT_AFTER, {1, 3}},
        {0, 16, 15, UINT64_MAX, DVS_RESOURCE_NOT_AVAILABLE, 1, DVS_CAUSE_OUTSIDE_SPACE, {0, 15}},
    };
    /* None, or one that is wrong too. */
    static const dvs_range third[] = {{0, 0}, {9, 8}, {30, 40}};
    char none;
    size_t i;

    for (i = 0; i < 3 * sizeof rows / sizeof rows[0]; i++) {
        const struct row *row = &rows[i / 3];
        const bool is_second = row->status == DVS_INVALID_RANGE,
                   is_third = i % 3 == 1 && !is_second,
                   has_cause = !is_third && row->cause != DVS_CAUSE_NONE;
        dvs_address_allocator *const before = (dvs_address_allocator *)&none, *space = before;
        dvs_refusal refusal;
        dvs_range held[3];
        size_t failed = MOST, count = i % 3 == 0 ? 2 : 3;

        held[0] = range_of(1, 3);
        held[1] = range_of(row->start, row->end);
        held[2] = third[i % 3];
        CHECK(dvs_address_allocator_with_held(row->base, row->size, held, count, &space, &failed,
                                              &refusal) ==
              (is_third ? (dvs_status)DVS_INVALID_RANGE : row->status));
        CHECK(space == before);
        CHECK(failed == (is_third ? 2 : row->failed == 2 ? count : row->failed));
        CHECK(is_range(refusal.range,
                       is_third    ? 9
                       : is_second ? 5
                       : has_cause ? held[row->failed].start
                                   : 0,
                       is_third    ? 8
                       : is_second ? 4
                       : has_cause ? held[row->failed].end
                                   : 0));
        CHECK(refusal.cause == (has_cause ? row->cause : (uint32_t)DVS_CAUSE_NONE));
        CHECK(is_range(refusal.other, has_cause ? row->other.start : 0,
                       has_cause ? row->other.end : 0));
    }
}

/* divsharun.h: "They must be in ascending order, and share no address."
 * divsharun.h: "The space is from the first address of the first range to the last address of the
 * last one. Each hole between the ranges is an allocated range, and can be freed." */

/* The first two ranges have no hole between them. */
static void make_with_free(void) {
    static const dvs_range parts[] = {{0xfedcba9000000000, 0xfedcba90ffffffff},
                                      {0xfedcba9100000000, 0xfedcba91ffffffff},
                                      {0xfedcba9300000000, 0xfedcba9300000000}};
    dvs_address_allocator *space;
    struct seen held = all_of(), gaps = all_of();
    dvs_range range;
    size_t failed = MOST;

    CHECK(dvs_address_allocator_with_free(parts, 3, &space, &failed, NULL) == DVS_OK);
    CHECK(failed == 3 && dvs_address_allocator_space(space, &range) == DVS_OK);
    CHECK(is_range(range, parts[0].start, parts[2].end));
    CHECK(dvs_range_visit(space, see_range, &held) == DVS_OK && held.count == 1);
    CHECK(is_range(held.ranges[0], 0xfedcba9200000000, 0xfedcba92ffffffff));
    CHECK(dvs_gap_visit(space, see_range, &gaps) == DVS_OK && gaps.count == 2);
    CHECK(is_range(gaps.ranges[0], parts[0].start, parts[1].end));
    CHECK(dvs_range_free(space, held.ranges[0], NULL) == DVS_OK);
    dvs_address_allocator_destroy(space);
}

static void refuse_free(void) {
    static const struct row {
        dvs_range parts[3];
        size_t count;
        dvs_status status;
        size_t failed;
        dvs_range told;
    } rows[] = {
        {{{5, 4}, {1, 3}}, 2, DVS_INVALID_RANGE, 0, {5, 4}},
        {{{5, 9}, {1, 0}}, 2, DVS_INVALID_RANGE, 1, {1, 0}},
        {{{5, 9}, {5, 9}}, 0, DVS_UNDERFLOW, 0, {0, 0}},
        {{{5, 9}, {9, 12}}, 2, DVS_RESOURCE_NOT_AVAILABLE, 1, {9, 12}},
        {{{5, 9}, {1, 3}}, 2, DVS_RESOURCE_NOT_AVAILABLE, 1, {1, 3}},
        {{{0, 9}, {11, UINT64_MAX}}, 2, DVS_INVALID_RANGE, 2, {0, UINT64_MAX}},
        {{{5, 9}, {9, 12}, {4, 3}}, 3, DVS_INVALID_RANGE, 2, {4, 3}},
        {{{5, 9}, {9, 12}, {1, 3}}, 3, DVS_RESOURCE_NOT_AVAILABLE, 1, {9, 12}},
        {{{0, 9}, {9, 12}, {20, UINT64_MAX}}, 3, DVS_RESOURCE_NOT_AVAILABLE, 1, {9, 12}},
        {{{0, 4}, {9, 12}, {11, 13}}, 3, DVS_RESOURCE_NOT_AVAILABLE, 2, {11, 13}},
    };
    size_t i;

    for (i = 0; i < sizeof rows / sizeof rows[0]; i++) {
        dvs_address_allocator *space = NULL;
        dvs_refusal refusal;
        size_t failed = MOST;

        CHECK(dvs_address_allocator_with_free(rows[i].parts, rows[i].count, &space, &failed,
                                              &refusal) == rows[i].status);
        CHECK(space == NULL && failed == rows[i].failed);
        CHECK(is_range(refusal.range, rows[i].told.start, rows[i].told.end));
        if (rows[i].status == DVS_RESOURCE_NOT_AVAILABLE) {
            const dvs_range before = rows[i].parts[failed - 1];

            CHECK(refusal.cause == DVS_CAUSE_NOT_AFTER);
            CHECK(is_range(refusal.other, before.start, before.end));
        } else {
            CHECK(refusal.cause == DVS_CAUSE_NONE && is_range(refusal.other, 0, 0));
        }
    }
}

/* Lists with two wrong ids, for the ids from 5 to 12. */
static void refuse_ids(void) {
    static const struct {
        uint32_t held[3];
        dvs_status status;
        uint32_t id;
    } rows[] = {
        {{9, 9, 20}, DVS_RESOURCE_NOT_AVAILABLE, 9}, {{9, 8, 4}, DVS_RESOURCE_NOT_AVAILABLE, 8},
        {{9, 20, 9}, DVS_OUT_OF_RANGE, 20},          {{9, 4, 8}, DVS_OUT_OF_RANGE, 4},
        {{4, 4, 20}, DVS_OUT_OF_RANGE, 4},
    };
    dvs_id_allocator *ids;
    dvs_refusal refusal;
    size_t i;

    for (i = 0; i < sizeof rows / sizeof rows[0]; i++) {
        CHECK(dvs_id_allocator_with_held(5, 12, rows[i].held, 3, &ids, &refusal) == rows[i].status);
        CHECK(refusal.id == rows[i].id && is_range(refusal.range, 0, 0));
    }
}

/* Counts that no array has. */
static void refuse_counts(void) {
    static const uint32_t ids[] = {9, 9};
    static const dvs_request request = {0, 0, 0, 9, 0, 0};
    const size_t counts[] = {SIZE_MAX, SIZE_MAX / 2 + 1, SIZE_MAX / 4 + 3, SIZE_MAX / 32 + 1};
    dvs_range held = {5, 4};
    dvs_address_allocator *space = two_held(), *made;
    dvs_id_allocator *made_ids;
    size_t i, failed = MOST;

    for (i = 0; i < sizeof counts / sizeof counts[0]; i++) {
        CHECK(dvs_address_allocator_with_held(0, 9, &held, counts[i], &made, &failed, NULL) ==
              DVS_OUT_OF_MEMORY);
        CHECK(failed == counts[i]);
        CHECK(dvs_address_allocator_with_free(&held, counts[i], &made, &failed, NULL) ==
              DVS_OUT_OF_MEMORY);
        CHECK(failed == counts[i]);
        /* An id has a quarter of the bytes of a range. */
        CHECK(counts[i] <= SIZE_MAX / 8 ||
              dvs_id_allocator_with_held(0, 9, ids, counts[i], &made_ids, NULL) ==
                  DVS_OUT_OF_MEMORY);
        CHECK(dvs_address_allocator_allocate_all(space, &request, counts[i], &held, &failed,
                                                 NULL) == DVS_OUT_OF_MEMORY);
        CHECK(failed == counts[i]);
    }
    dvs_address_allocator_destroy(space);
}

/* ---- Look-ups ---- */

/* divsharun.h: "Calls `visitor` with each allocated range, in ascending order." */
static void look_up_ranges(void) {
    dvs_address_allocator *space = two_held();
    static const uint64_t clear[] = {0, 0xfff, 0x2000, 0x2fff, 0x3800, 0x3fff, 0x4000, UINT64_MAX};
    static const uint64_t in_none[] = {0x1000, 0x1fff, 0x3000, 0x37ff, 0x4000, UINT64_MAX};
    dvs_range range;
    uint64_t number;
    size_t i;

    CHECK(dvs_range_at(space, 0x1000, &range) == DVS_OK && is_range(range, 0x1000, 0x1fff));
    CHECK(dvs_range_at(space, 0x1fff, &range) == DVS_OK && is_range(range, 0x1000, 0x1fff));
    CHECK(dvs_range_at(space, 0x3123, &range) == DVS_OK && is_range(range, 0x3000, 0x37ff));
    for (i = 0; i < sizeof clear / sizeof clear[0]; i++)
        CHECK(dvs_range_at(space, clear[i], &range) == DVS_RESOURCE_NOT_AVAILABLE);
    CHECK(is_range(range, 0x3000, 0x37ff));
    CHECK(dvs_gap_at(space, 0, &range) == DVS_OK && is_range(range, 0, 0xfff));
    CHECK(dvs_gap_at(space, 0x2fff, &range) == DVS_OK && is_range(range, 0x2000, 0x2fff));
    CHECK(dvs_gap_at(space, 0x3fff, &range) == DVS_OK && is_range(range, 0x3800, 0x3fff));
    for (i = 0; i < sizeof in_none / sizeof in_none[0]; i++)
        CHECK(dvs_gap_at(space, in_none[i], &range) == DVS_RESOURCE_NOT_AVAILABLE);
    CHECK(is_range(range, 0x3800, 0x3fff));
    CHECK(dvs_longest_gap(space, &number) == DVS_OK && number == 0x1000);
    CHECK(dvs_gap_count(space, &number) == DVS_OK && number == 3);
    CHECK(dvs_free_length(space, &number) == DVS_OK && number == 0x2800);
    dvs_address_allocator_destroy(space);
}

static void visit_gaps(void) {
    dvs_address_allocator *space = two_held();
    struct seen seen = all_of();
    dvs_range range;
    uint64_t number;

    CHECK(dvs_gap_visit(space, see_range, &seen) == DVS_OK && seen.count == 3);
    CHECK(is_range(seen.ranges[0], 0, 0xfff) && is_range(seen.ranges[1], 0x2000, 0x2fff));
    CHECK(is_range(seen.ranges[2], 0x3800, 0x3fff));
    seen = all_of();
    seen.stop_at = 2;
    CHECK(dvs_gap_visit(space, see_range, &seen) == DVS_OK && seen.count == 2);
    while (dvs_longest_gap(space, &number) == DVS_OK && number > 0)
        CHECK(dvs_range_allocate_first(space, number, 1, &range, NULL) == DVS_OK);
    seen = all_of();
    CHECK(dvs_gap_visit(space, see_range, &seen) == DVS_OK && seen.count == 0);
    CHECK(dvs_gap_count(space, &number) == DVS_OK && number == 0);
    CHECK(dvs_free_length(space, &number) == DVS_OK && number == 0);
    dvs_address_allocator_destroy(space);
}

static void refuse_parts(void) {
    dvs_address_allocator *space = two_held();
    dvs_refusal refusal;
    struct seen seen = all_of();

    CHECK(dvs_range_visit_in(space, range_of(5, 4), see_range, &seen, &refusal) ==
          DVS_INVALID_RANGE);
    CHECK(is_range(refusal.range, 5, 4) && seen.count == 0);
    CHECK(dvs_gap_visit_in(space, range_of(0, UINT64_MAX), see_range, &seen, &refusal) ==
          DVS_INVALID_RANGE);
    CHECK(is_range(refusal.range, 0, UINT64_MAX) && seen.count == 0);
    CHECK(dvs_range_free(space, range_of(0x1000, 0x1fff), NULL) == DVS_OK);
    dvs_address_allocator_destroy(space);
}

typedef dvs_status visit_all(const dvs_address_allocator *space, dvs_range_visitor *visitor,
                             void *context);
typedef dvs_status visit_at(const dvs_address_allocator *space, uint64_t address,
                            dvs_range_visitor *visitor, void *context);
typedef dvs_status visit_part(const dvs_address_allocator *space, dvs_range within,
                              dvs_range_visitor *visitor, void *context, dvs_refusal *refusal);

/* divsharun.h: "Visits the allocated ranges that have an address at or above `address`" */

/* Compares a visit within a range with a visit of all ranges or gaps. */
static void visit_within(const dvs_address_allocator *space, dvs_range within, visit_all *all,
                         visit_part *part) {
    struct seen every = all_of(), some = all_of();
    size_t i, count = 0;

    CHECK(all(space, see_range, &every) == DVS_OK);
    CHECK(part(space, within, see_range, &some, NULL) == DVS_OK);
    for (i = 0; i < every.count; i++)
        if (every.ranges[i].start <= within.end && within.start <= every.ranges[i].end) {
            CHECK(is_range(some.ranges[count], every.ranges[i].start, every.ranges[i].end));
            count++;
        }
    CHECK(some.count == count);
}

/* divsharun.h: "So the first one contains `address` or is the next one above it."
 * divsharun.h: "at or below `address`, in descending order, like dvs_range_visit(). Each of them
 * is passed whole. So the first one contains `address` or is the next one below it." */

/* Compares the visits from an address, up and down, with a visit of all ranges or gaps. */
static void visit_from(const dvs_address_allocator *space, uint64_t address, visit_all *all,
                       visit_at *up, visit_at *down) {
    struct seen every = all_of(), above = all_of(), below = all_of();
    size_t i, ups = 0, downs = 0;

    CHECK(all(space, see_range, &every) == DVS_OK);
    CHECK(up(space, address, see_range, &above) == DVS_OK);
    CHECK(down(space, address, see_range, &below) == DVS_OK);
    for (i = 0; i < every.count; i++) {
        dvs_range low = every.ranges[i], high = every.ranges[every.count - 1 - i];

        if (low.end >= address)
            CHECK(is_range(above.ranges[ups++], low.start, low.end));
        if (high.start <= address)
            CHECK(is_range(below.ranges[downs++], high.start, high.end));
    }
    CHECK(above.count == ups && below.count == downs);
}

/* divsharun.h: "If `count` is less than `capacity`, there are no more."
 * divsharun.h: "Only a gap can end at UINT64_MAX, and is the last one then." */

typedef dvs_status list_some(const dvs_address_allocator *space, uint64_t from, dvs_range *ranges,
                             size_t capacity, size_t *count);

/* Compares lists of each length with the visit from an address. */
static void list_from(const dvs_address_allocator *space, uint64_t address, visit_at *up,
                      list_some *list) {
    struct seen above = all_of();
    dvs_range ranges[MOST];
    size_t capacity, count, i;

    CHECK(up(space, address, see_range, &above) == DVS_OK);
    for (capacity = 0; capacity <= above.count + 1; capacity++) {
        memset(ranges, 0, sizeof ranges);
        CHECK(list(space, address, capacity == 0 ? NULL : ranges, capacity, &count) == DVS_OK);
        CHECK(count == (capacity < above.count ? capacity : above.count));
        for (i = 0; i <= count; i++)
            CHECK(is_range(ranges[i], i < count ? above.ranges[i].start : 0,
                           i < count ? above.ranges[i].end : 0));
    }
}

/* The values are the starts. */
static void list_map(void) {
    static const dvs_range held[] = {{2, 4}, {5, 9}, {20, HALF}};
    dvs_valued_range found[4];
    dvs_range_map *map;
    size_t count, capacity, first, i;
    uint64_t from;

    CHECK(dvs_range_map_new(0, UINT64_MAX, &map) == DVS_OK);
    for (i = 3; i-- > 0;) {
        const dvs_request request = {
            held[i].end - held[i].start + 1, 1, held[i].start, DVS_EXACT, 0, 0};
        dvs_range range;

        CHECK(dvs_range_map_allocate(map, held[i].start, &request, &range, NULL) == DVS_OK);
    }
    for (from = 0; from < 24; from++)
        for (capacity = 0; capacity <= 4; capacity++) {
            first = from <= 4 ? 0 : from <= 9 ? 1 : 2;
            CHECK(dvs_range_map_list(map, from, found, capacity, &count) == DVS_OK);
            CHECK(count == (capacity < 3 - first ? capacity : 3 - first));
            for (i = 0; i < count; i++)
                CHECK(is_range(found[i].range, held[first + i].start, held[first + i].end) &&
                      found[i].value == held[first + i].start);
        }
    CHECK(dvs_range_map_list(map, HALF + 1, found, 4, &count) == DVS_OK && count == 0);
    CHECK(dvs_range_map_list(map, UINT64_MAX, NULL, 0, &count) == DVS_OK && count == 0);
    dvs_range_map_destroy(map);
}

/* Visits from and between the ends of each range, the addresses next to them, and the ends of all.
 */
static void visit_from_addresses(void) {
    static const dvs_range held[] = {{2, 4}, {5, 9}, {20, HALF}, {HALF + 9, UINT64_MAX - 9}};
    static const uint64_t bases[] = {0, 2, 1},
                          lasts[] = {UINT64_MAX - 1, UINT64_MAX, UINT64_MAX - 9};
    uint64_t addresses[] = {0,  1,        2,    3,        4, 5, 9, 10, 19, 20,
                            21, HALF - 1, HALF, HALF + 5, 0, 0, 0, 0,  0};
    dvs_address_allocator *space;
    size_t i, j, k;

    for (j = 0; j < 5; j++)
        addresses[14 + j] = UINT64_MAX - (j < 3 ? j : 5 + j);
    for (i = 0; i < 3; i++) {
        CHECK(dvs_address_allocator_with_held(bases[i], lasts[i] - bases[i] + 1, held, 4, &space,
                                              NULL, NULL) == DVS_OK);
        for (j = 0; j < sizeof addresses / sizeof addresses[0]; j++) {
            visit_from(space, addresses[j], dvs_range_visit, dvs_range_visit_from,
                       dvs_range_visit_back);
            visit_from(space, addresses[j], dvs_gap_visit, dvs_gap_visit_from, dvs_gap_visit_back);
            list_from(space, addresses[j], dvs_range_visit_from, dvs_range_list);
            list_from(space, addresses[j], dvs_gap_visit_from, dvs_gap_list);
            for (k = 0; k < sizeof addresses / sizeof addresses[0]; k++) {
                dvs_range within = range_of(addresses[j], addresses[k]);

                if (within.start > within.end || is_range(within, 0, UINT64_MAX))
                    continue;
                visit_within(space, within, dvs_range_visit, dvs_range_visit_in);
                visit_within(space, within, dvs_gap_visit, dvs_gap_visit_in);
            }
        }
        dvs_address_allocator_destroy(space);
    }
}

/* ---- Visits in visits ---- */

/* Nests more visits than a byte can count. The allocator stays busy until all of them end. */
enum { MANY = 300 };

struct deep {
    dvs_address_allocator *space;
    int visits;
};

static int visit_deeper(void *context, dvs_range range) {
    struct deep *deep = (struct deep *)context;

    if (++deep->visits < MANY)
        CHECK(dvs_range_visit(deep->space, visit_deeper, deep) == DVS_OK);
    CHECK(dvs_range_free(deep->space, range, NULL) == DVS_BUSY);
    return 1;
}

static void nest_visits(void) {
    struct deep deep = {NULL, 0};
    struct seen seen = all_of();
    size_t i;

    CHECK(dvs_address_allocator_new(0, 100, &deep.space) == DVS_OK);
    CHECK(dvs_range_visit(deep.space, see_range, &seen) == DVS_OK && seen.count == 0);
    for (i = 0; i < MOST; i++)
        CHECK(dvs_range_allocate_exact(deep.space, 1, 1, 2 * i, &seen.ranges[i], NULL) == DVS_OK);
    CHECK(dvs_range_visit(deep.space, see_range, &seen) == DVS_OK && seen.count == MOST);
    for (i = 0; i < MOST; i++)
        CHECK(is_range(seen.ranges[i], 2 * i, 2 * i));
    CHECK(dvs_range_visit(deep.space, visit_deeper, &deep) == DVS_OK && deep.visits == MANY);
    CHECK(dvs_range_free(deep.space, seen.ranges[0], NULL) == DVS_OK);
    dvs_address_allocator_destroy(deep.space);
}

/* ---- Several requests ---- */

/* divsharun.h: "Each range is the one that dvs_range_allocate() would allocate after the requests
 * before it."
 * divsharun.h: "For the first request that is invalid for every allocator: DVS_INVALID_POLICY" */
static void allocate_all(void) {
    dvs_address_allocator *space = two_held();
    dvs_request requests[3];
    dvs_range ranges[3];
    size_t failed = MOST;
    uint64_t count;

    requests[0] = request_of(0x800, 0x800, DVS_LAST, 7);
    requests[1] = request_of(0x10, 1, DVS_FIRST, 0);
    requests[2] = request_of(0x100, 0x100, DVS_EXACT, 0x2100);
    CHECK(dvs_address_allocator_allocate_all(space, requests, 3, ranges, &failed, NULL) == DVS_OK);
    CHECK(failed == 3);
    CHECK(is_range(ranges[0], 0x3800, 0x3fff) && is_range(ranges[1], 0, 0xf));
    CHECK(is_range(ranges[2], 0x2100, 0x21ff));
    CHECK(dvs_address_allocator_allocate_all(space, NULL, 0, NULL, NULL, NULL) == DVS_OK);
    CHECK(dvs_range_count(space, &count) == DVS_OK && count == 5);
    CHECK(dvs_free_length(space, &count) == DVS_OK && count == 0x2800 - 0x910);
    dvs_address_allocator_destroy(space);
}

/* Checks that the second of two BARs does not fit into its window, so that neither is allocated. */
static void refuse_bars(dvs_address_allocator *space, const dvs_request *bars, dvs_status status,
                        dvs_range told) {
    dvs_range ranges[2];
    dvs_refusal refusal;
    size_t failed = MOST;
    uint64_t count = MOST;

    ranges[0] = range_of(1, 2);
    CHECK(dvs_address_allocator_allocate_all(space, bars, 2, ranges, &failed, &refusal) == status);
    CHECK(failed == 1 && is_range(ranges[0], 1, 2));
    CHECK(is_range(refusal.range, told.start, told.end));
    CHECK(dvs_range_count(space, &count) == DVS_OK && count == 2);
    CHECK(dvs_free_length(space, &count) == DVS_OK && count == 0x2800);
}

/* Allocates two BARs, each in a separate window. */
static void allocate_in_windows(void) {
    dvs_address_allocator *space = two_held();
    dvs_range ranges[2];
    dvs_request bars[2];
    size_t failed = MOST;

    bars[0] = request_of(0x800, 0x100, DVS_LAST, 0);
    bars[0].high = 0x1fff;
    bars[1] = request_of(0x1001, 1, DVS_FIRST, 0);
    bars[1].low = 0x2000;
    refuse_bars(space, bars, DVS_RESOURCE_NOT_AVAILABLE, range_of(0, 0));
    bars[1] = request_of(0x1000, 1, DVS_EXACT, 0x1000);
    bars[1].high = 0x1fff;
    refuse_bars(space, bars, DVS_INVALID_STATE_TRANSITION, range_of(0x1000, 0x1fff));
    bars[0].high = 0xdff;
    bars[1] = request_of(0x1000, 1, DVS_FIRST, 0);
    bars[1].low = 0x2000;
    CHECK(dvs_address_allocator_allocate_all(space, bars, 2, ranges, &failed, NULL) == DVS_OK);
    CHECK(failed == 2 && is_range(ranges[0], 0x600, 0xdff) && is_range(ranges[1], 0x2000, 0x2fff));
    dvs_address_allocator_destroy(space);
}

#define NO_PLACE(cause) DVS_RESOURCE_NOT_AVAILABLE, DVS_CAUSE_##cause

/* Whether a request with this error is invalid for every allocator. */
static bool is_invalid(dvs_status status) {
    return status == DVS_INVALID_POLICY || status == DVS_INVALID_SIZE ||
           status == DVS_INVALID_ALIGNMENT || status == DVS_UNALIGNED_ADDRESS ||
           status == DVS_INVALID_RANGE;
}

/* divsharun.h: "`failed` receives the index of the member of an array that has the error. If no
 * member has one, also with DVS_OK, it receives the length of the array." */

/* Allocates lists with two faults. The first one that is invalid is returned, or else the first. */
static void allocate_none(void) {
    static const struct row {
        dvs_request request;
        dvs_status status;
        uint32_t cause;
        dvs_range other;
    } rows[] = {
        {{0, 1, 0, DVS_FIRST, 0, 0}, DVS_INVALID_SIZE, 0, {0, 0}},
        {{1, 3, 0, DVS_FIRST, 0, 0}, DVS_INVALID_ALIGNMENT, 0, {0, 0}},
        {{1, 2, 1, DVS_EXACT, 0, 0}, DVS_UNALIGNED_ADDRESS, 0, {0, 0}},
        {{0x1000, 1, 0x1000, DVS_EXACT, 0, 0},
         DVS_INVALID_STATE_TRANSITION,
         DVS_CAUSE_ALLOCATED,
         {0x1000, 0x1fff}},
        {{0x1000, 1, 0, DVS_EXACT, 0, 0},
         DVS_INVALID_STATE_TRANSITION,
         DVS_CAUSE_EARLIER_REQUEST,
         {0, 0xfff}},
        {{0x1000, 1, 0, DVS_LAST, 0, 0}, NO_PLACE(NO_FIT), {0x2800, 0x2fff}},
        {{1, 1, 0, DVS_FIRST, 0x4000, 0}, NO_PLACE(OUTSIDE_SPACE), {0, 0x3fff}},
        /* The first two requests have 0 to 0xfff and 0x2000 to 0x27ff. */
        /* divsharun.h: "An address is in the range of an earlier request of the same call. `other`
         * is that range, the lowest range in the way." */
        {{1, 1, 0xfff, DVS_EXACT, 0, 0}, NO_PLACE(EARLIER_REQUEST), {0, 0xfff}},
        {{0x900, 1, 0x2700, DVS_EXACT, 0, 0}, NO_PLACE(EARLIER_REQUEST), {0x2000, 0x27ff}},
        {{0x2000, 1, 0x800, DVS_EXACT, 0, 0}, NO_PLACE(EARLIER_REQUEST), {0, 0xfff}},
        {{0x1800, 1, 0x1000, DVS_EXACT, 0, 0}, NO_PLACE(ALLOCATED), {0x1000, 0x1fff}},
        {{0x4000, 1, 1, DVS_EXACT, 0, 0}, NO_PLACE(OUTSIDE_SPACE), {0, 0x3fff}},
        {{1, 1, 0, DVS_EXACT, 0x4000, 0}, NO_PLACE(OUTSIDE_WINDOW), {0x4000, UINT64_MAX}},
        {{1, 1, UINT64_MAX, DVS_EXACT, 0, 0}, DVS_OVERFLOW, 0, {0, 0}},
        {{1, 1, 0, DVS_EXACT + 1, 0, 0}, DVS_INVALID_POLICY, 0, {0, 0}},
        {{1, 1, 0, UINT32_MAX, 5, 4}, DVS_INVALID_POLICY, 0, {0, 0}},
        {{1, 1, 0, DVS_LAST, 5, 4}, DVS_INVALID_RANGE, 0, {0, 0}},
    };
    dvs_address_allocator *space = two_held();
    dvs_address_allocator *before = two_held();
    const size_t count = sizeof rows / sizeof rows[0];
    dvs_range ranges[4];
    dvs_refusal refusal;
    size_t i, failed;

    for (i = 0; i < count * count; i++) {
        const struct row *third = &rows[i / count], *fourth = &rows[i % count];
        /* A row with itself is the fourth request only. */
        const bool is_third =
            third != fourth && (is_invalid(third->status) || !is_invalid(fourth->status));
        const struct row *first = is_third ? third : fourth;
        dvs_request requests[4];
        struct seen now = all_of(), then = all_of();

        failed = MOST;
        requests[0] = request_of(0x1000, 1, DVS_FIRST, 0);
        requests[1] = request_of(0x800, 1, DVS_EXACT, 0x2000);
        requests[2] = third != fourth ? third->request : request_of(1, 1, DVS_EXACT, 0x2fff);
        requests[3] = fourth->request;
        ranges[0] = range_of(1, 2);
        CHECK(dvs_address_allocator_allocate_all(space, requests, 4, ranges, &failed, &refusal) ==
              first->status);
        CHECK(failed == (is_third ? 2 : 3) && is_range(ranges[0], 1, 2) && refusal.id == 0);
        CHECK(refusal.cause == first->cause);
        /* If the third request gets 0x2fff, the gap from 0x3800 on is the longest. */
        if (first->cause == DVS_CAUSE_NO_FIT && !is_third)
            CHECK(is_range(refusal.other, 0x3800, 0x3fff));
        else
            CHECK(is_range(refusal.other, first->other.start, first->other.end));
        CHECK(refusal.cause == 0 || refusal.range.start == first->request.start);
        CHECK(dvs_range_visit(space, see_range, &now) == DVS_OK);
        CHECK(dvs_range_visit(before, see_range, &then) == DVS_OK);
        CHECK(memcmp(&now, &then, sizeof now) == 0);
    }
    CHECK(dvs_address_allocator_allocate_all(space, NULL, SIZE_MAX, ranges, NULL, NULL) ==
          DVS_NULL);
    dvs_address_allocator_destroy(space);
    dvs_address_allocator_destroy(before);
}

/* ---- Ids and devices ---- */

/* divsharun.h: "Visits the allocated ids in ascending order"
 * divsharun.h: "They must be in ascending order. The array can be null if `count` is 0." */
static void visit_ids(void) {
    dvs_id_allocator *ids;
    struct seen seen = all_of();
    uint32_t first = 0, last = 0, id;
    int i;

    CHECK(dvs_id_allocator_new(UINT32_MAX - 3, UINT32_MAX, &ids, NULL) == DVS_OK);
    CHECK(dvs_id_allocator_range(ids, &first, &last) == DVS_OK);
    CHECK(first == UINT32_MAX - 3 && last == UINT32_MAX);
    CHECK(dvs_id_visit(ids, see_id, &seen) == DVS_OK && seen.count == 0);
    for (i = 0; i < 4; i++)
        CHECK(dvs_id_allocate(ids, &id) == DVS_OK);
    CHECK(dvs_id_free(ids, UINT32_MAX - 1, NULL) == DVS_OK);
    CHECK(dvs_id_visit(ids, see_id, &seen) == DVS_OK && seen.count == 3);
    CHECK(seen.ids[0] == UINT32_MAX - 3 && seen.ids[1] == UINT32_MAX - 2 &&
          seen.ids[2] == UINT32_MAX);
    dvs_id_allocator_destroy(ids);
}

/* divsharun.h: "Writes the allocated ids at or above `from` to the array `ids`"
 * Devices have the same ids, and ranges in their order. */
static void list_ids_and_devices(void) {
    static const uint32_t held[] = {3, 4, 7, UINT32_MAX - 1, UINT32_MAX},
                          from[] = {0, 3, 4, 5, 7, 8, UINT32_MAX - 1, UINT32_MAX};
    enum { HELD = 5, LISTS = sizeof from / sizeof from[0] };
    dvs_device_manager *manager;
    dvs_id_allocator *ids;
    dvs_device devices[HELD + 1];
    uint32_t found[HELD + 1];
    size_t capacity, count, first, i, j;

    CHECK(dvs_device_manager_new(2, UINT32_MAX, 0, HELD, &manager, NULL) == DVS_OK);
    for (i = 0; i < HELD; i++) {
        const dvs_request request = {1, 1, i, DVS_EXACT, 0, 0};

        CHECK(dvs_device_reserve_with_id(manager, held[i], held[i], &request, devices, NULL) ==
              DVS_OK);
    }
    CHECK(dvs_device_manager_copy_ids(manager, &ids) == DVS_OK);
    for (j = 0; j < LISTS; j++)
        for (capacity = 0; capacity <= HELD + 1; capacity++) {
            for (first = 0; held[first] < from[j];)
                first++;
            CHECK(dvs_id_list(ids, from[j], capacity == 0 ? NULL : found, capacity, &count) ==
                  DVS_OK);
            CHECK(count == (capacity < HELD - first ? capacity : HELD - first));
            for (i = 0; i < count; i++)
                CHECK(found[i] == held[first + i]);
            CHECK(dvs_device_list(manager, from[j], devices, capacity, &count) == DVS_OK);
            CHECK(count == (capacity < HELD - first ? capacity : HELD - first));
            for (i = 0; i < count; i++)
                CHECK(devices[i].id == held[first + i] &&
                      is_range(devices[i].range, first + i, first + i));
        }
    dvs_id_allocator_destroy(ids);
    dvs_device_manager_destroy(manager);
}

/* divsharun.h: "Allocates the `count` lowest free ids, or none, and writes them to `ids` in
 * ascending order." */
static void allocate_several_ids(void) {
    const uint32_t held[2] = {6, 9};
    uint32_t several[4] = {0, 0, 0, 0};
    dvs_id_allocator *ids;
    struct seen seen = all_of();
    uint64_t count;

    CHECK(dvs_id_allocator_with_held(5, 12, held, 2, &ids, NULL) == DVS_OK);
    CHECK(dvs_ids_allocate(ids, several, 7) == DVS_RESOURCE_NOT_AVAILABLE);
    CHECK(dvs_ids_allocate(ids, several, SIZE_MAX) == DVS_RESOURCE_NOT_AVAILABLE);
    CHECK(dvs_ids_allocate(ids, several, (size_t)UINT32_MAX + 2) == DVS_RESOURCE_NOT_AVAILABLE);
    CHECK(several[0] == 0);
    CHECK(dvs_ids_allocate(ids, NULL, 0) == DVS_OK);
    CHECK(dvs_ids_allocate(ids, several, 4) == DVS_OK);
    CHECK(several[0] == 5 && several[1] == 7 && several[2] == 8 && several[3] == 10);
    CHECK(dvs_id_free_count(ids, &count) == DVS_OK && count == 2);
    CHECK(dvs_id_visit(ids, see_id, &seen) == DVS_OK && seen.count == 6 && seen.ids[5] == 10);
    dvs_id_allocator_destroy(ids);
    CHECK(dvs_id_allocator_with_held(UINT32_MAX, UINT32_MAX, NULL, 0, &ids, NULL) == DVS_OK);
    CHECK(dvs_ids_allocate(ids, several, 2) == DVS_OVERFLOW && several[0] == 5);
    CHECK(dvs_ids_allocate(ids, several, 1) == DVS_OK && several[0] == UINT32_MAX);
    CHECK(dvs_ids_allocate(ids, several, SIZE_MAX) == DVS_OVERFLOW && several[1] == 7);
    CHECK(dvs_ids_allocate(ids, several, SIZE_MAX / 2 + 1) == DVS_OVERFLOW);
    dvs_id_allocator_destroy(ids);
}

/* divsharun.h: "Visits the devices in ascending order of ids" */
static void look_up_devices(void) {
    dvs_device_manager *manager;
    struct seen seen = all_of();
    uint32_t first = 0, last = 0;
    uint64_t count;
    dvs_range space;
    dvs_device device;

    CHECK(dvs_device_manager_new(5, 7, 0x1000, 0x1000, &manager, NULL) == DVS_OK);
    CHECK(dvs_device_manager_space(manager, &space) == DVS_OK && is_range(space, 0x1000, 0x1fff));
    CHECK(dvs_device_manager_ids(manager, &first, &last) == DVS_OK && first == 5 && last == 7);
    CHECK(dvs_device_reserve_last(manager, 0x100, 1, &device, NULL) == DVS_OK);
    CHECK(dvs_device_reserve_first(manager, 0x10, 1, &device, NULL) == DVS_OK);
    CHECK(dvs_device_reserve_first(manager, 0x10, 1, &device, NULL) == DVS_OK);
    CHECK(dvs_device_release(manager, 6, NULL) == DVS_OK);
    CHECK(dvs_device_count(manager, &count) == DVS_OK && count == 2);
    CHECK(dvs_device_visit(manager, see_device, &seen) == DVS_OK && seen.count == 2);
    CHECK(seen.ids[0] == 5 && is_range(seen.ranges[0], 0x1f00, 0x1fff));
    CHECK(seen.ids[1] == 7 && is_range(seen.ranges[1], 0x1010, 0x101f));
    CHECK(dvs_device_at(manager, 0x101f, &device) == DVS_OK && device.id == 7);
    CHECK(is_range(device.range, 0x1010, 0x101f));
    CHECK(dvs_device_at(manager, 0x1f00, &device) == DVS_OK && device.id == 5);
    CHECK(dvs_device_at(manager, 0x1000, &device) == DVS_RESOURCE_NOT_AVAILABLE && device.id == 5);
    CHECK(dvs_device_at(manager, UINT64_MAX, &device) == DVS_RESOURCE_NOT_AVAILABLE);
    dvs_device_manager_destroy(manager);
}

/* ---- Maps from ranges to values ---- */

static int see_valued(void *context, dvs_valued_range found) {
    struct seen *seen = (struct seen *)context;

    seen->ids[seen->count] = (uint32_t)found.value;
    return see_range(context, found.range);
}

enum map_call { ALLOCATE, FREE, MOVE, GET, SET };

/* divsharun.h: "Replaces the value of the allocated range that contains the address, and writes
 * the value before to `before`."
 * divsharun.h: "Visits the allocated ranges with their values in ascending order" */

/* Calls of a map of the addresses 16 to 79, the range that is given, and what is returned. */
static const struct map_row {
    enum map_call call;
    dvs_range range;
    /* The value to keep, the address to look up, or the start to move to. */
    uint64_t number;
    dvs_status status;
    dvs_range expected;
    uint64_t value;
} map_rows[] = {
    {ALLOCATE, {16, 23}, 7, DVS_OK, {16, 23}, 0},
    {ALLOCATE, {32, 32}, UINT64_MAX, DVS_OK, {32, 32}, 0},
    {ALLOCATE, {32, 32}, 1, DVS_INVALID_STATE_TRANSITION, {0, 0}, 0},
    {ALLOCATE, {23, 24}, 1, DVS_RESOURCE_NOT_AVAILABLE, {0, 0}, 0},
    {ALLOCATE, {80, 80}, 1, DVS_RESOURCE_NOT_AVAILABLE, {0, 0}, 0},
    {GET, {0, 0}, 16, DVS_OK, {16, 23}, 7},
    {GET, {0, 0}, 23, DVS_OK, {16, 23}, 7},
    {GET, {0, 0}, 32, DVS_OK, {32, 32}, UINT64_MAX},
    {GET, {0, 0}, 24, DVS_RESOURCE_NOT_AVAILABLE, {0, 0}, 0},
    {GET, {0, 0}, 80, DVS_RESOURCE_NOT_AVAILABLE, {0, 0}, 0},
    {SET, {20, 0}, 8, DVS_OK, {0, 0}, 7},
    {SET, {24, 0}, 8, DVS_RESOURCE_NOT_AVAILABLE, {0, 0}, 0},
    {MOVE, {16, 23}, 26, DVS_RESOURCE_NOT_AVAILABLE, {0, 0}, 0},
    {MOVE, {23, 16}, 26, DVS_INVALID_RANGE, {0, 0}, 0},
    {MOVE, {16, 23}, 20, DVS_OK, {20, 27}, 0},
    {MOVE, {16, 23}, 20, DVS_RESOURCE_NOT_AVAILABLE, {0, 0}, 0},
    {GET, {0, 0}, 27, DVS_OK, {20, 27}, 8},
    {FREE, {20, 26}, 0, DVS_RESOURCE_NOT_AVAILABLE, {0, 0}, 0},
    {FREE, {27, 20}, 0, DVS_INVALID_RANGE, {0, 0}, 0},
    {FREE, {32, 32}, 0, DVS_OK, {0, 0}, UINT64_MAX},
    {FREE, {32, 32}, 0, DVS_RESOURCE_NOT_AVAILABLE, {0, 0}, 0},
    {ALLOCATE, {79, 79}, 9, DVS_OK, {79, 79}, 0},
};

/* Makes a call of the table. */
static dvs_status make_map_call(dvs_range_map *map, const struct map_row *row,
                                dvs_valued_range *got, dvs_refusal *refusal) {
    const uint64_t size = row->range.end - row->range.start + 1;
    const uint64_t start = row->call == MOVE ? row->number : row->range.start;
    const dvs_request request = request_of(size, 1, DVS_EXACT, start);

    switch (row->call) {
    case ALLOCATE:
        return dvs_range_map_allocate(map, row->number, &request, &got->range, refusal);
    case FREE:
        return dvs_range_map_free(map, row->range, &got->value, refusal);
    case MOVE:
        return dvs_range_map_move(map, row->range, &request, &got->range, refusal);
    case GET:
        return dvs_range_map_get(map, row->number, got);
    default:
        return dvs_range_map_set(map, row->range.start, row->number, &got->value);
    }
}

static void keep_values(void) {
    const dvs_request wide = request_of(30, 1, DVS_EXACT, 16);
    const dvs_request at_its_end = request_of(2, 1, DVS_EXACT, 45);
    const dvs_request between = request_of(40, 1, DVS_EXACT, 40);
    struct seen seen = all_of();
    dvs_refusal refusal;
    dvs_range_map *map;
    dvs_range range;
    uint64_t count;
    size_t i;

    CHECK(dvs_range_map_new(16, 64, &map) == DVS_OK);
    CHECK(dvs_range_map_space(map, &range) == DVS_OK && is_range(range, 16, 79));
    CHECK(dvs_range_map_count(map, &count) == DVS_OK && count == 0);
    for (i = 0; i < sizeof map_rows / sizeof map_rows[0]; i++) {
        const struct map_row *row = &map_rows[i];
        dvs_valued_range got = {{0, 0}, 0};

        CHECK(make_map_call(map, row, &got, &refusal) == row->status && got.value == row->value);
        if (row->status == DVS_INVALID_RANGE || row->status == DVS_INVALID_STATE_TRANSITION)
            CHECK(is_range(refusal.range, row->range.start, row->range.end));
        CHECK(is_range(got.range, row->expected.start, row->expected.end));
    }
    CHECK(dvs_range_map_count(map, &count) == DVS_OK && count == 2);
    CHECK(dvs_range_map_visit(map, see_valued, &seen) == DVS_OK && seen.count == 2);
    CHECK(seen.ids[0] == 8 && is_range(seen.ranges[0], 20, 27));
    CHECK(seen.ids[1] == 9 && is_range(seen.ranges[1], 79, 79));
    CHECK(dvs_range_map_allocate(map, 1, &wide, &range, &refusal) == DVS_RESOURCE_NOT_AVAILABLE);
    CHECK(refusal.cause == DVS_CAUSE_ALLOCATED && is_range(refusal.other, 20, 27));
    CHECK(dvs_range_map_free(map, range_of(20, 26), &count, &refusal) ==
          DVS_RESOURCE_NOT_AVAILABLE);
    CHECK(refusal.cause == DVS_CAUSE_ALLOCATED && is_range(refusal.other, 20, 27));
    /* A moved range can overlap its old place. */
    CHECK(dvs_range_map_move(map, range_of(20, 27), &wide, &range, &refusal) == DVS_OK);
    CHECK(dvs_range_map_move(map, range_of(79, 79), &at_its_end, &range, &refusal) ==
          DVS_RESOURCE_NOT_AVAILABLE);
    CHECK(refusal.cause == DVS_CAUSE_ALLOCATED && is_range(refusal.other, 16, 45));
    CHECK(dvs_range_map_move(map, range_of(16, 45), &between, &range, &refusal) ==
          DVS_RESOURCE_NOT_AVAILABLE);
    CHECK(refusal.cause == DVS_CAUSE_ALLOCATED && is_range(refusal.other, 79, 79));
    CHECK(dvs_range_map_destroy(map) == DVS_OK && dvs_range_map_destroy(NULL) == DVS_OK);
    CHECK(dvs_range_map_new(16, 0, &map) == DVS_UNDERFLOW);
}

/* Returns a map of the addresses 16 to 39 with two ranges. */
static dvs_range_map *two_valued(void) {
    static const dvs_valued_range held[] = {{{16, 19}, 7}, {{24, 31}, UINT64_MAX}};
    dvs_range_map *map;
    size_t failed;

    CHECK(dvs_range_map_with_held(16, 24, held, 2, &map, &failed, NULL) == DVS_OK && failed == 2);
    return map;
}

static void make_map_with_held(void) {
    static const dvs_valued_range wrong[] = {{{16, 19}, 7}, {{19, 20}, 8}};
    dvs_range_map *map = two_valued();
    dvs_valued_range found;
    dvs_refusal refusal;
    size_t failed;

    CHECK(dvs_range_map_get(map, 31, &found) == DVS_OK && found.value == UINT64_MAX);
    dvs_range_map_destroy(map);
    CHECK(dvs_range_map_with_held(16, 24, NULL, 0, &map, NULL, NULL) == DVS_OK);
    dvs_range_map_destroy(map);
    CHECK(dvs_range_map_with_held(16, 24, wrong, 2, &map, &failed, &refusal) ==
          DVS_RESOURCE_NOT_AVAILABLE);
    CHECK(failed == 1 && refusal.cause == DVS_CAUSE_NOT_AFTER && is_range(refusal.other, 16, 19));
}

/* divsharun.h: "If exactly `range` is not allocated, the cause is DVS_CAUSE_NONE." */
static void query_map(void) {
    static const dvs_request over = {8, 1, 18, DVS_EXACT, 0, 0};
    dvs_range_map *map = two_valued();
    struct seen in = all_of(), from = all_of(), back = all_of(), free = all_of();
    dvs_range gaps[MOST];
    dvs_refusal refusal;
    size_t count;

    CHECK(dvs_range_map_conflict(map, &over, &refusal) == DVS_OK);
    CHECK(refusal.cause == DVS_CAUSE_ALLOCATED && is_range(refusal.other, 16, 19));
    CHECK(dvs_range_map_move_conflict(map, range_of(16, 19), &over, &refusal) == DVS_OK);
    CHECK(refusal.cause == DVS_CAUSE_ALLOCATED && is_range(refusal.other, 24, 31));
    CHECK(dvs_range_map_move_conflict(map, range_of(16, 18), &over, &refusal) == DVS_OK);
    CHECK(refusal.cause == DVS_CAUSE_NONE);
    CHECK(dvs_range_map_move_conflict(map, range_of(2, 1), &over, &refusal) == DVS_INVALID_RANGE);
    CHECK(dvs_range_map_gap_list(map, 22, gaps, MOST, &count) == DVS_OK && count == 2);
    CHECK(is_range(gaps[0], 20, 23) && is_range(gaps[1], 32, 39));
    CHECK(dvs_range_map_gap_visit(map, see_range, &free) == DVS_OK && free.count == 2);
    CHECK(memcmp(free.ranges, gaps, 2 * sizeof gaps[0]) == 0);
    CHECK(dvs_range_map_visit_in(map, range_of(19, 23), see_valued, &in, NULL) == DVS_OK);
    CHECK(in.count == 1 && in.ids[0] == 7 && is_range(in.ranges[0], 16, 19));
    CHECK(dvs_range_map_visit_in(map, range_of(3, 2), see_valued, &in, NULL) == DVS_INVALID_RANGE);
    CHECK(dvs_range_map_visit_from(map, 20, see_valued, &from) == DVS_OK);
    CHECK(from.count == 1 && is_range(from.ranges[0], 24, 31));
    CHECK(dvs_range_map_visit_back(map, 24, see_valued, &back) == DVS_OK && back.count == 2);
    CHECK(is_range(back.ranges[0], 24, 31) && is_range(back.ranges[1], 16, 19));
    dvs_range_map_destroy(map);
}

/* divsharun.h: "The range of a request keeps the value with the same index in the array `values`."
 */
static void allocate_all_in_map(void) {
    static const dvs_request pair[] = {{4, 4, 0, DVS_FIRST, 0, 0}, {4, 4, 32, DVS_EXACT, 0, 0}};
    static const dvs_request too_many[] = {{4, 4, 0, DVS_LAST, 0, 0}, {2, 1, 0, DVS_FIRST, 0, 0}};
    static const uint64_t values[] = {40, 41};
    dvs_range_map *map = two_valued();
    dvs_range ranges[2];
    dvs_valued_range found;
    dvs_refusal refusal;
    size_t failed;

    CHECK(dvs_range_map_allocate_all(map, pair, values, 2, ranges, &failed, &refusal) == DVS_OK);
    CHECK(failed == 2 && is_range(ranges[0], 20, 23) && is_range(ranges[1], 32, 35));
    CHECK(dvs_range_map_get(map, 33, &found) == DVS_OK && found.value == 41);
    CHECK(dvs_range_map_allocate_all(map, pair, values, 2, ranges, &failed, &refusal) ==
          DVS_INVALID_STATE_TRANSITION);
    CHECK(failed == 1 && refusal.cause == DVS_CAUSE_ALLOCATED && is_range(refusal.other, 32, 35));
    CHECK(dvs_range_map_allocate_all(map, too_many, values, 2, ranges, &failed, &refusal) ==
          DVS_RESOURCE_NOT_AVAILABLE);
    CHECK(failed == 1 && dvs_range_map_count(map, &found.value) == DVS_OK && found.value == 4);
    CHECK(dvs_range_map_allocate_all(map, NULL, NULL, 0, NULL, &failed, NULL) == DVS_OK);
    CHECK(failed == 0);
    dvs_range_map_destroy(map);
}

int main(void) {
    make_with_ranges();
    refuse_ranges();
    make_with_free();
    refuse_free();
    refuse_ids();
    refuse_counts();
    look_up_ranges();
    visit_gaps();
    refuse_parts();
    visit_from_addresses();
    list_map();
    nest_visits();
    allocate_all();
    allocate_in_windows();
    allocate_none();
    visit_ids();
    list_ids_and_devices();
    allocate_several_ids();
    look_up_devices();
    keep_values();
    make_map_with_held();
    query_map();
    allocate_all_in_map();
    CHECK(dvs_version_number() == DVS_VERSION_NUMBER);
    puts("enumerate: every list, look-up and array checked");
    return 0;
}
