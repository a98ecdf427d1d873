/* SPDX-License-Identifier: Apache-2.0 OR BSD-3-Clause */
/* Every call by a number, so that a test can make many calls in the same way. */
#ifndef EVERY_CALL_H
#define EVERY_CALL_H

#include "outcome.h"

/* More than a byte can count. */
enum { MANY = 300 };

/* The calls without an object, and the groups of calls on each kind of object. Each has a name. The
 * calls with limits are in the order of those without. */
/* clang-format off */
#define EVERY_CALL(CALL) \
    CALL(FROM_LENGTH, dvs_range_from_start_length(n[0], n[1], to)) \
    CALL(OFFSET_OF, dvs_range_offset_of(range, n[2], to_number)) \
    CALL(NEW_SPACE, dvs_address_allocator_new(n[0], n[1], to_space)) \
    CALL(NEW_IDS, dvs_id_allocator_new(first, last, to_ids, REFUSAL)) \
    CALL(NEW_MANAGER, dvs_device_manager_new(first, last, n[2], n[3], to_manager, REFUSAL)) \
    CALL(NEW_MAP, dvs_range_map_new(n[0], n[1], TO(results.map))) \
    CALL(WITH_RANGES, dvs_address_allocator_with_held(n[0], n[1], given.held_ranges, 2, to_space, &failed, REFUSAL)) \
    CALL(WITH_FREE, dvs_address_allocator_with_free(given.held_ranges, 2, to_space, &failed, REFUSAL)) \
    CALL(WITH_VALUES, dvs_range_map_with_held(n[0], n[1], given.held_values, 2, TO(results.map), &failed, REFUSAL)) \
    CALL(WITH_IDS, dvs_id_allocator_with_held(first, last, given.held, 2, to_ids, REFUSAL)) \
    CALL(READ_SPACE, dvs_address_allocator_read(text, length, to_space)) \
    CALL(REPAIR_SPACE, dvs_address_allocator_read_repaired(text, length, to_space)) \
    CALL(READ_IDS, dvs_id_allocator_read(text, length, to_ids)) \
    CALL(READ_MANAGER, dvs_device_manager_read(text, length, to_manager)) \
    CALL(SPACE_WITHIN, dvs_address_allocator_read_within(text, length, limits, to_space, FAULT)) \
    CALL(REPAIR_WITHIN, dvs_address_allocator_read_repaired_within(text, length, limits, to_space, FAULT)) \
    CALL(IDS_WITHIN, dvs_id_allocator_read_within(text, length, limits, to_ids, FAULT)) \
    CALL(MANAGER_WITHIN, dvs_device_manager_read_within(text, length, limits, to_manager, FAULT)) \
    \
    CALL(FIRST, dvs_range_allocate_first(space, n[0], n[1], to, REFUSAL)) \
    CALL(LAST, dvs_range_allocate_last(space, n[0], n[1], to, REFUSAL)) \
    CALL(EXACT, dvs_range_allocate_exact(space, n[0], n[1], n[2], to, REFUSAL)) \
    CALL(MOVE, dvs_range_move(space, range, n[2], to, REFUSAL)) \
    CALL(MOVE_REQUEST, dvs_range_move_request(space, range, given.request, to, REFUSAL)) \
    CALL(REQUEST, dvs_range_allocate(space, given.request, to, REFUSAL)) \
    CALL(LIST, dvs_address_allocator_allocate_all(space, given.request, 2, to_all, &failed, REFUSAL)) \
    CALL(FREE, dvs_range_free(space, range, REFUSAL)) \
    CALL(DESTROY_SPACE, dvs_address_allocator_destroy(space)) \
    CALL(SPACE, dvs_address_allocator_space(seen_space, to)) \
    CALL(IS_ALLOCATED, dvs_range_is_allocated(seen_space, range, to_flag, REFUSAL)) \
    CALL(COUNT, dvs_range_count(seen_space, to_number)) \
    CALL(GAP_COUNT, dvs_gap_count(seen_space, to_number)) \
    CALL(FREE_LENGTH, dvs_free_length(seen_space, to_number)) \
    CALL(LONGEST_GAP, dvs_longest_gap(seen_space, to_number)) \
    CALL(RANGE_AT, dvs_range_at(seen_space, n[0], to)) \
    CALL(GAP_AT, dvs_gap_at(seen_space, n[0], to)) \
    CALL(LIST_RANGES, dvs_range_list(seen_space, n[0], results.ranges, 1, TO(results.length))) \
    CALL(LIST_GAPS, dvs_gap_list(seen_space, n[0], results.ranges, 1, TO(results.length))) \
    CALL(PEEK_RANGE, dvs_range_peek(seen_space, given.request, to, REFUSAL)) \
    CALL(CONFLICT, dvs_range_conflict(seen_space, given.request, to_conflict)) \
    CALL(EQUAL_SPACE, dvs_address_allocator_equal(seen_space, other_space, to_flag)) \
    CALL(COPY_SPACE, dvs_address_allocator_copy(seen_space, to_space)) \
    CALL(SAVE_SPACE, dvs_address_allocator_save(seen_space, to_text, to_length)) \
    CALL(VISIT, dvs_range_visit(seen_space, visitor, given.context)) \
    CALL(VISIT_GAPS, dvs_gap_visit(seen_space, visitor, given.context)) \
    CALL(VISIT_IN, dvs_range_visit_in(seen_space, range, visitor, given.context, REFUSAL)) \
    CALL(GAPS_IN, dvs_gap_visit_in(seen_space, range, visitor, given.context, REFUSAL)) \
    CALL(VISIT_FROM, dvs_range_visit_from(seen_space, n[0], visitor, given.context)) \
    CALL(VISIT_BACK, dvs_range_visit_back(seen_space, n[1], visitor, given.context)) \
    CALL(GAPS_FROM, dvs_gap_visit_from(seen_space, n[0], visitor, given.context)) \
    CALL(GAPS_BACK, dvs_gap_visit_back(seen_space, n[1], visitor, given.context)) \
    \
    CALL(ID, dvs_id_allocate(ids, to_id)) \
    CALL(ID_IN, dvs_id_allocate_in(ids, first, last, to_id, REFUSAL)) \
    CALL(IDS, dvs_ids_allocate(ids, TO(*results.several), 2)) \
    CALL(ID_EXACT, dvs_id_allocate_exact(ids, first, REFUSAL)) \
    CALL(FREE_ID, dvs_id_free(ids, first, REFUSAL)) \
    CALL(DESTROY_IDS, dvs_id_allocator_destroy(ids)) \
    CALL(PEEK, dvs_id_peek(seen_ids, to_id)) \
    CALL(IS_ID_HELD, dvs_id_is_allocated(seen_ids, first, to_flag)) \
    CALL(LIST_IDS, dvs_id_list(seen_ids, first, results.several, 1, TO(results.length))) \
    CALL(ID_COUNT, dvs_id_count(seen_ids, to_number)) \
    CALL(FREE_COUNT, dvs_id_free_count(seen_ids, to_number)) \
    CALL(ID_ENDS, dvs_id_allocator_range(seen_ids, to_id, to_last)) \
    CALL(EQUAL_IDS, dvs_id_allocator_equal(seen_ids, other_ids, to_flag)) \
    CALL(COPY_IDS, dvs_id_allocator_copy(seen_ids, to_ids)) \
    CALL(SAVE_IDS, dvs_id_allocator_save(seen_ids, to_text, to_length)) \
    CALL(VISIT_IDS, dvs_id_visit(seen_ids, TO(*see_id), given.context)) \
    \
    CALL(RESERVE_FIRST, dvs_device_reserve_first(manager, n[0], n[1], to_device, REFUSAL)) \
    CALL(RESERVE_LAST, dvs_device_reserve_last(manager, n[0], n[1], to_device, REFUSAL)) \
    CALL(RESERVE_EXACT, dvs_device_reserve_exact(manager, n[0], n[1], n[2], to_device, REFUSAL)) \
    CALL(RESERVE, dvs_device_reserve(manager, given.request, to_device, REFUSAL)) \
    CALL(RESERVE_WITH_ID, dvs_device_reserve_with_id(manager, first, last, given.request, to_device, REFUSAL)) \
    CALL(MOVE_DEVICE, dvs_device_move(manager, first, given.request, to, REFUSAL)) \
    CALL(RELEASE, dvs_device_release(manager, first, REFUSAL)) \
    CALL(DESTROY_MANAGER, dvs_device_manager_destroy(manager)) \
    CALL(DEVICE_SLOT, dvs_device_slot(seen_manager, first, to, REFUSAL)) \
    CALL(DEVICE_AT, dvs_device_at(seen_manager, n[0], to_device)) \
    CALL(LIST_DEVICES, dvs_device_list(seen_manager, first, &results.device, 1, TO(results.length))) \
    CALL(DEVICE_COUNT, dvs_device_count(seen_manager, to_number)) \
    CALL(DEVICE_SPACE, dvs_device_manager_space(seen_manager, to)) \
    CALL(DEVICE_IDS, dvs_device_manager_ids(seen_manager, to_id, to_last)) \
    CALL(DEVICE_CONFLICT, dvs_device_conflict(seen_manager, given.request, to_conflict)) \
    CALL(COPY_ADDRESSES, dvs_device_manager_copy_addresses(seen_manager, to_space)) \
    CALL(COPY_DEVICE_IDS, dvs_device_manager_copy_ids(seen_manager, to_ids)) \
    CALL(EQUAL_MANAGERS, dvs_device_manager_equal(seen_manager, other_manager, to_flag)) \
    CALL(COPY_MANAGER, dvs_device_manager_copy(seen_manager, to_manager)) \
    CALL(SAVE_MANAGER, dvs_device_manager_save(seen_manager, to_text, to_length)) \
    CALL(VISIT_DEVICES, dvs_device_visit(seen_manager, TO(*see_device), given.context)) \
    \
    CALL(MAP_ALLOCATE, dvs_range_map_allocate(map, n[0], given.request, to, REFUSAL)) \
    CALL(MAP_MOVE, dvs_range_map_move(map, range, given.request, to, REFUSAL)) \
    CALL(MAP_ALL, dvs_range_map_allocate_all(map, given.request, given.values, 2, to_all, &failed, REFUSAL)) \
    CALL(MAP_FREE, dvs_range_map_free(map, range, to_number, REFUSAL)) \
    CALL(MAP_SET, dvs_range_map_set(map, n[0], n[1], to_number)) \
    CALL(DESTROY_MAP, dvs_range_map_destroy(map)) \
    CALL(MAP_GET, dvs_range_map_get(seen_map, n[0], TO(results.found))) \
    CALL(LIST_MAP, dvs_range_map_list(seen_map, n[0], &results.found, 1, TO(results.length))) \
    CALL(MAP_GAPS, dvs_range_map_gap_list(seen_map, n[0], results.ranges, 1, TO(results.length))) \
    CALL(MAP_CONFLICT, dvs_range_map_conflict(seen_map, given.request, to_conflict)) \
    CALL(MAP_MOVE_CONFLICT, dvs_range_map_move_conflict(seen_map, range, given.request, to_conflict)) \
    CALL(MAP_COUNT, dvs_range_map_count(seen_map, to_number)) \
    CALL(MAP_SPACE, dvs_range_map_space(seen_map, to)) \
    CALL(EQUAL_MAPS, dvs_range_map_equal(seen_map, other_map, to_flag)) \
    CALL(COPY_MAP, dvs_range_map_copy(seen_map, TO(results.map))) \
    CALL(VISIT_MAP, dvs_range_map_visit(seen_map, TO(*see_valued), given.context)) \
    CALL(MAP_VISIT_IN, dvs_range_map_visit_in(seen_map, range, TO(*see_valued), given.context, REFUSAL)) \
    CALL(MAP_VISIT_FROM, dvs_range_map_visit_from(seen_map, n[0], TO(*see_valued), given.context)) \
    CALL(MAP_VISIT_BACK, dvs_range_map_visit_back(seen_map, n[1], TO(*see_valued), given.context)) \
    CALL(VISIT_MAP_GAPS, dvs_range_map_gap_visit(seen_map, visitor, given.context))
/* clang-format on */

#define NAME(name, call) name,
enum { EVERY_CALL(NAME) CALLS };

/* In each group, where the changes, the changes without a result, the queries and the visits begin,
 * and where it ends. A group destroys its object by the last change, and compares, copies and saves
 * it by the last queries. A map is not saved. */
static const struct group {
    int changes, done, queries, copy, visits, end;
} groups[] = {
    {FIRST, FREE, SPACE, COPY_SPACE, VISIT, ID},
    {ID, ID_EXACT, PEEK, COPY_IDS, VISIT_IDS, RESERVE_FIRST},
    {RESERVE_FIRST, RELEASE, DEVICE_SLOT, COPY_MANAGER, VISIT_DEVICES, MAP_ALLOCATE},
    {MAP_ALLOCATE, DESTROY_MAP, MAP_GET, COPY_MAP, VISIT_MAP, CALLS},
};
enum { GROUPS = sizeof groups / sizeof groups[0], SAVED_GROUPS = GROUPS - 1 };

/* Whether a query creates a copy of an allocator of a manager. */
static inline bool copies_part(int call) {
    return call == COPY_ADDRESSES || call == COPY_DEVICE_IDS;
}

/* Ranges, requests and ids that are invalid. The second id is also below the first. An array has
 * two members. */
static const dvs_range backwards[] = {{2, 1}, {2, 1}};
static const dvs_request worst[] = {{0, 0, 1, DVS_EXACT + 1, 2, 1}, {0, 0, 1, DVS_EXACT + 1, 2, 1}};
static const uint32_t falling_ids[] = {9, 3};
static const dvs_valued_range backwards_with_values[] = {{{2, 1}, 7}, {{2, 1}, 8}};
static const uint64_t two_values[] = {7, 8};

/* The arguments that are not numbers. */
struct arguments {
    /* Whether the pointers to the results are not null, and the one to a second result. */
    bool has_result, has_second;
    const dvs_request *request;
    const dvs_range *held_ranges;
    const uint32_t *held;
    const dvs_valued_range *held_values;
    const uint64_t *values;
    /* An object to compare with. */
    void *other;
    const char *text;
    size_t length;
    /* Null if the depth is 0. */
    dvs_text_limits limits;
    /* Of a visit. */
    void *context;
    /* Whether a refusal is null. */
    bool has_no_refusal;
};

static const struct arguments usual = {
    true, true, worst,  backwards, falling_ids, backwards_with_values, two_values, NULL,
    "",   0,    {0, 0}, NULL,      false};
static struct arguments given;

/* What every visitor does. */
static int keep_object(void *context);

static int see_range(void *context, dvs_range range) {
    return (void)range, keep_object(context);
}

static int see_id(void *context, uint32_t id) {
    return (void)id, keep_object(context);
}

static int see_device(void *context, dvs_device device) {
    return (void)device, keep_object(context);
}

static int see_valued(void *context, dvs_valued_range found) {
    return (void)found, keep_object(context);
}

/* Whether the last call has a pointer to a refusal, and to a fault. */
static bool has_refusal, has_fault;

#define TO(result) (given.has_result ? &(result) : NULL)
#define REFUSAL (has_refusal = !given.has_no_refusal, has_refusal ? &refusal : NULL)
#define FAULT (has_fault = true, &fault)
#define CASE(name, call)                                                                           \
    case name:                                                                                     \
        return call;

/* The index of the request that failed, in the last list. */
static size_t failed;

/* Makes a call with these numbers, in the order of its parameters. */
static dvs_status make_call(int call, void *object, const uint64_t *n) {
    dvs_address_allocator *space = (dvs_address_allocator *)object;
    const dvs_address_allocator *seen_space = space,
                                *other_space = (const dvs_address_allocator *)given.other;
    dvs_address_allocator **to_space = TO(results.space);
    dvs_id_allocator *ids = (dvs_id_allocator *)object;
    dvs_id_allocator **to_ids = TO(results.ids);
    const dvs_id_allocator *seen_ids = ids, *other_ids = (const dvs_id_allocator *)given.other;
    dvs_device_manager *manager = (dvs_device_manager *)object, **to_manager = TO(results.manager);
    const dvs_device_manager *seen_manager = manager,
                             *other_manager = (const dvs_device_manager *)given.other;
    dvs_range_map *map = (dvs_range_map *)object;
    const dvs_range_map *seen_map = map, *other_map = (const dvs_range_map *)given.other;
    const dvs_range range = range_of(n[0], n[1]);
    const uint32_t first = (uint32_t)n[0], last = (uint32_t)n[1];
    const dvs_text_limits *limits = given.limits.depth == 0 ? NULL : &given.limits;
    const char *text = given.text;
    const size_t length = given.length;
    dvs_device *to_device = TO(results.device);
    dvs_range *to = TO(results.device.range), *to_all = TO(*results.ranges);
    uint64_t *to_number = TO(results.device.range.start);
    uint32_t *to_id = TO(results.device.id), *to_last = given.has_second ? &results.last : NULL;
    bool *to_flag = TO(results.flag);
    dvs_refusal *to_conflict = TO(results.conflict);
    char **to_text = TO(results.text);
    size_t *to_length = given.has_second ? &results.length : NULL;
    dvs_range_visitor *visitor = TO(*see_range);

    has_refusal = has_fault = false;
    switch (call) {
        EVERY_CALL(CASE)
    default:
        CHECK(!"a call");
        return DVS_OK;
    }
}

/* Numbers that are invalid in each call. */
static const uint64_t bad[4] = {3, 0, 1, 0};

/* Makes a call whose results and details are prepared. */
static inline dvs_status attempt(int call, void *object, const uint64_t *n) {
    prepare();
    failed = MANY;
    return noted(make_call(call, object, n));
}

/* Checks that the last call returned an error without numbers. It must write no result, and all
 * details. */
static inline void check_refused(int call, dvs_status status, dvs_status expected) {
    static const dvs_refusal none = {{0, 0}, {0, 0}, 0, 0, 0};
    const bool has_reason = expected != DVS_NULL && expected != DVS_OUT_OF_MEMORY;

    if (status != expected)
        fprintf(stderr, "call %d: status %d\n", call, (int)status);
    const bool has_requests = call == LIST || call == MAP_ALL;
    const bool has_ranges = call == WITH_RANGES || call == WITH_FREE || call == WITH_VALUES;
    CHECK(failed == (has_requests || has_ranges ? 2 : MANY) ||
          (failed < 2 && has_requests && expected == DVS_OUT_OF_MEMORY));
    CHECK(status == expected && is_untouched(&results, sizeof results));
    CHECK(has_refusal ? memcmp(&refusal, &none, sizeof none) == 0
                      : is_untouched(&refusal, sizeof refusal));
    CHECK(has_fault != is_untouched(&fault.offset, sizeof fault.offset));
    CHECK(has_fault != is_untouched(&fault.reason, sizeof fault.reason));
    CHECK(has_fault != is_untouched(&fault.field, sizeof fault.field));
    CHECK(!has_fault || has_reason ||
          (fault.offset == 0 && fault.field == NULL &&
           strcmp(fault.reason, dvs_status_text(status)) == 0));
}

/* Checks that a call with bad numbers returns an error without numbers. */
static inline void refuse(int call, void *object, dvs_status expected) {
    check_refused(call, attempt(call, object, bad), expected);
}

/* ---- The calls that each group has ---- */

static inline void destroy(int group, void *object) {
    CHECK(make_call(groups[group].queries - 1, object, bad) == DVS_OK);
}

/* Returns the object that a call has created. */
static inline void *created(int group) {
    return group == 0   ? (void *)results.space
           : group == 1 ? (void *)results.ids
           : group == 2 ? (void *)results.manager
                        : (void *)results.map;
}

static inline void *copied(int group, void *object) {
    prepare();
    CHECK(make_call(groups[group].copy, object, bad) == DVS_OK);
    return created(group);
}

/* Checks whether two objects are equal. Each equals itself. */
static inline void compare(int group, void *one, void *other, bool are_equal) {
    void *pairs[4][2] = {{one, other}, {other, one}, {one, one}, {other, other}};
    int i;

    for (i = 0; i < 4; i++) {
        given = usual;
        given.other = pairs[i][1];
        prepare();
        CHECK(make_call(groups[group].copy - 1, pairs[i][0], bad) == DVS_OK);
        CHECK(results.flag == (are_equal || i >= 2));
    }
}

static inline int group_of(int call) {
    return (call >= ID) + (call >= RESERVE_FIRST) + (call >= MAP_ALLOCATE);
}

#endif
