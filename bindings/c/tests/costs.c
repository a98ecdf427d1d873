/* SPDX-License-Identifier: Apache-2.0 OR BSD-3-Clause */
/*
 * Guards against a call that goes through all items, although it takes constant or logarithmic
 * time, and against calls that take quadratic time. No call looks for a cause that the caller does
 * not want.
 */
#define _POSIX_C_SOURCE 200809L
#include "every_call.h"

#include <time.h>

/* A multiple of 2^60. */
#define PART(number) ((uint64_t)(number) << 60)

/* Returns the processor time of this thread in nanoseconds. The time of the process is rounded to
 * a tick if it has a limit. */
static int64_t processor_time(void) {
    struct timespec time;

    CHECK(clock_gettime(CLOCK_THREAD_CPUTIME_ID, &time) == 0);
    return (int64_t)time.tv_sec * 1000000000 + time.tv_nsec;
}

/* Ends a visit without a context at its first item. */
static int keep_object(void *context) {
    return context == NULL;
}

/* ---- The cost of a cause ---- */

enum { ROUNDS = 100, TRIES = 2000 };

/* Returns the processor time of requests whose addresses are allocated. */
static int64_t time_refused(int call, void *object) {
    const int64_t begun = processor_time();
    uint64_t i;

    for (i = 1; i < TRIES; i++) {
        const uint64_t numbers[] = {2, 2, 4 * i, 0};
        const dvs_request request = {2, 2, 4 * i, DVS_EXACT, 0, 0};
        const dvs_request requests[] = {request, request};

        given.request = requests;
        CHECK(make_call(call, object, numbers) == DVS_RESOURCE_NOT_AVAILABLE);
    }
    return processor_time() - begun;
}

/* Checks that a call without a refusal looks for no cause. Other processes only add time, so the
 * shortest rounds are compared. */
static void look_for_no_cause(void) {
    static const int calls[] = {EXACT, MOVE, MOVE_REQUEST, REQUEST, LIST, RESERVE_EXACT, RESERVE};
    dvs_address_allocator *space;
    dvs_device_manager *manager;
    dvs_device device;
    uint64_t at;
    size_t i;
    int round;

    CHECK(dvs_address_allocator_new(0, 4 * TRIES, &space) == DVS_OK);
    CHECK(dvs_device_manager_new(0, TRIES, 0, 4 * TRIES, &manager, NULL) == DVS_OK);
    /* MOVE moves this range. */
    CHECK(dvs_range_allocate_exact(space, 1, 1, 2, &device.range, NULL) == DVS_OK);
    for (at = 4; at < 4 * TRIES; at += 4) {
        CHECK(dvs_range_allocate_exact(space, 3, 1, at, &device.range, NULL) == DVS_OK);
        CHECK(dvs_device_reserve_exact(manager, 3, 1, at, &device, NULL) == DVS_OK);
    }
    given = usual;
    for (i = 0; i < sizeof calls / sizeof calls[0]; i++) {
        int64_t with = 0, without = 0;

        for (round = 0; round < ROUNDS; round++) {
            void *object = calls[i] < ID ? (void *)space : (void *)manager;
            int64_t time;

            given.has_no_refusal = false;
            time = time_refused(calls[i], object);
            with = round == 0 || time < with ? time : with;
            given.has_no_refusal = true;
            time = time_refused(calls[i], object);
            without = round == 0 || time < without ? time : without;
        }
        if (10 * without >= 9 * with)
            fprintf(stderr, "call %d: %ld and %ld\n", calls[i], (long)with, (long)without);
        CHECK(10 * without < 9 * with);
    }
    destroy(0, space);
    destroy(2, manager);
}

/* ---- Calls in constant or logarithmic time ---- */

/* A number of a call near an address, and the id of its device. */
#define NEAR(distance) (PART(1) + (distance))
#define NTH PART(2)
#define FAR PART(8)

/* A call that moves a word of each item takes a hundred times as long in the large object, also if
 * it is quick in the small one. */
enum { FEW = 1000, LOTS = 1000000, PLACES = 1000, LIMIT = 50 };

/* Each with the call that undoes a change. */
static const struct quick {
    int call;
    uint64_t numbers[3];
    int undo;
} quick[] = {
    {SPACE, {0}, 0},
    {IS_ALLOCATED, {NEAR(0), NEAR(1)}, 0},
    {COUNT, {0}, 0},
    {GAP_COUNT, {0}, 0},
    {FREE_LENGTH, {0}, 0},
    {LONGEST_GAP, {0}, 0},
    {RANGE_AT, {NEAR(1)}, 0},
    {GAP_AT, {NEAR(2)}, 0},
    {LIST_RANGES, {NEAR(2)}, 0},
    {LIST_GAPS, {NEAR(2)}, 0},
    {CONFLICT, {0}, 0},
    {PEEK_RANGE, {0}, 0},
    {VISIT_IN, {NEAR(0), NEAR(3)}, 0},
    {GAPS_IN, {NEAR(0), NEAR(3)}, 0},
    {VISIT_FROM, {NEAR(2)}, 0},
    {VISIT_BACK, {0, NEAR(2)}, 0},
    {GAPS_FROM, {NEAR(0)}, 0},
    {GAPS_BACK, {0, NEAR(0)}, 0},
    {FIRST, {1, 1}, FREE},
    {LAST, {1, 1}, FREE},
    {EXACT, {1, 1, NEAR(2)}, FREE},
    {REQUEST, {0}, FREE},
    {MOVE, {NEAR(0), NEAR(1), NEAR(2)}, MOVE},
    {MOVE_REQUEST, {NEAR(0), NEAR(1)}, MOVE},
    {PEEK, {0}, 0},
    {IS_ID_HELD, {NEAR(0)}, 0},
    {ID_COUNT, {0}, 0},
    {FREE_COUNT, {0}, 0},
    {ID_ENDS, {0}, 0},
    {LIST_IDS, {NEAR(1)}, 0},
    {ID, {0}, FREE_ID},
    {ID_EXACT, {NEAR(1)}, FREE_ID},
    {ID_IN, {NEAR(2), NEAR(3)}, FREE_ID},
    {DEVICE_SLOT, {NTH}, 0},
    {DEVICE_AT, {NEAR(1)}, 0},
    {DEVICE_COUNT, {0}, 0},
    {LIST_DEVICES, {NTH}, 0},
    {DEVICE_SPACE, {0}, 0},
    {DEVICE_IDS, {0}, 0},
    {DEVICE_CONFLICT, {0}, 0},
    {RESERVE_FIRST, {1, 1}, RELEASE},
    {RESERVE_LAST, {1, 1}, RELEASE},
    {RESERVE_EXACT, {1, 1, NEAR(2)}, RELEASE},
    {RESERVE, {0}, RELEASE},
    {MAP_GET, {NEAR(1)}, 0},
    {MAP_SET, {NEAR(1), 7}, 0},
    {LIST_MAP, {NEAR(1)}, 0},
    {MAP_COUNT, {0}, 0},
    {MAP_SPACE, {0}, 0},
};

/* Makes objects with a range, an id, a device and a value at each multiple of 4 from FAR, which is
 * 0 for ids. In the first and the last quarter of the addresses, and in the first of the ids, none
 * is free. */
static void make_many(uint32_t count, void **many) {
    dvs_range *ranges = (dvs_range *)malloc(count * sizeof *ranges);
    uint32_t *ids = (uint32_t *)malloc(count * sizeof *ids), i, id;
    dvs_device device;

    CHECK(dvs_device_manager_new(0, count, FAR, 4 * count, &results.manager, NULL) == DVS_OK);
    CHECK(dvs_range_map_new(FAR, 4 * count, &results.map) == DVS_OK);
    for (i = 0; i < count; i++) {
        const uint64_t start = FAR + 4 * i, size = i < count / 4 || i >= 3 * count / 4 ? 4 : 2;
        const dvs_request request = {size, 1, start, DVS_EXACT, 0, 0};

        ids[i] = 4 * i;
        ranges[i] = range_of(start, start + size - 1);
        CHECK(dvs_device_reserve_exact(results.manager, size, 1, start, &device, NULL) == DVS_OK);
        CHECK(dvs_range_map_allocate(results.map, i, &request, &device.range, NULL) == DVS_OK);
    }
    CHECK(dvs_address_allocator_with_held(FAR, 4 * count, ranges, count, &results.space, NULL,
                                          NULL) == DVS_OK);
    CHECK(dvs_id_allocator_with_held(0, 4 * count, ids, count, &results.ids, NULL) == DVS_OK);
    for (i = 0; i < 3 * count / 4; i++)
        CHECK(dvs_id_allocate(results.ids, &id) == DVS_OK);
    for (i = 0; i < GROUPS; i++)
        many[i] = created(i);
    free(ids);
    free(ranges);
}

/* Returns the processor time of a call at many places. */
static int64_t time_quick(const struct quick *row, void *object, uint64_t count) {
    const int64_t begun = processor_time();
    uint64_t i, j;

    for (i = 0; i < PLACES; i++) {
        const uint64_t nth = count / 4 + 1 + i * 7919 % (count / 2 - 2), at = FAR + 4 * nth;
        const dvs_request request = {2, 2, at + 2, DVS_EXACT, 0, 0};
        uint64_t numbers[4] = {0, 0, 0, 0};

        given.request = &request;
        for (j = 0; j < 3; j++)
            numbers[j] = row->numbers[j] == NTH       ? nth
                         : row->numbers[j] >= NEAR(0) ? at + (row->numbers[j] - NEAR(0))
                                                      : row->numbers[j];
        results.device.id = (uint32_t)at + 1;
        CHECK(make_call(row->call, object, numbers) == DVS_OK);
        numbers[0] = row->undo < ID ? results.device.range.start : results.device.id;
        numbers[1] = results.device.range.end;
        numbers[2] = at;
        CHECK(row->undo == 0 || make_call(row->undo, object, numbers) == DVS_OK);
    }
    return processor_time() - begun;
}

/* divsharun.h: "Calls on one id, device or range of a map take logarithmic time too, also if they
 * skip ids. An allocation in a map can also move its values, in linear time. Counts,
 * dvs_longest_gap() and the ends of a space or of a range of ids take constant time." */

/* divsharun.h: "Let k be the number of allocated ranges. Allocating, moving and freeing a range
 * takes time of the order of log k, and so do dvs_range_peek(), dvs_range_conflict(),
 * dvs_range_is_allocated(), dvs_range_at() and dvs_gap_at(). An alignment can make the search for a
 * range visit more gaps. A visit or list takes time of the order of log k, plus the number of
 * allocated ranges and gaps up to where it ends. A list of ids or devices does too, with ids, runs
 * of freed ids, and devices." */

/* Compares the shortest times in small and in large objects. */
static void be_quick(void *const *few, void *const *lots) {
    size_t i;
    int round;

    given = usual;
    for (i = 0; i < sizeof quick / sizeof quick[0]; i++) {
        const int group = group_of(quick[i].call);
        int64_t in_few = 0, in_lots = 0;

        for (round = 0; round < 3; round++) {
            int64_t time = time_quick(&quick[i], few[group], FEW);

            in_few = round == 0 || time < in_few ? time : in_few;
            time = time_quick(&quick[i], lots[group], LOTS);
            in_lots = round == 0 || time < in_lots ? time : in_lots;
        }
        if (in_lots >= LIMIT * in_few)
            fprintf(stderr, "call %d: %ld and %ld\n", quick[i].call, (long)in_few, (long)in_lots);
        CHECK(in_lots < LIMIT * in_few);
    }
}

/* All addresses of the objects. */
static const uint64_t everywhere[4] = {FAR, TOP - 1, 0, 0};

/* Copies, compares, visits and saves an object, and reads it again. */
static void go_through(int group, void *object) {
    static const int readers[] = {READ_SPACE, READ_IDS, READ_MANAGER};
    void *copy = copied(group, object);
    int call;

    compare(group, object, copy, true);
    given.context = object;
    for (call = groups[group].visits; call < groups[group].end; call++)
        CHECK(make_call(call, object, everywhere) == DVS_OK);
    destroy(group, copy);
    if (group >= SAVED_GROUPS)
        return;
    CHECK(make_call(groups[group].copy + 1, object, bad) == DVS_OK);
    given.text = results.text;
    given.length = results.length;
    CHECK(make_call(readers[group], NULL, bad) == DVS_OK);
    dvs_text_destroy(results.text);
    copy = created(group);
    compare(group, object, copy, true);
    destroy(group, copy);
}

/* divsharun.h: "Allocating an array takes the time of each request or id. All other calls take time
 * at most linear in the size of the object, the array or the text." */
static void be_linear(int group, void *few, void *lots) {
    int64_t times[2] = {0, 0}, begun;
    int round;

    for (round = 0; round < 6; round++) {
        begun = processor_time();
        go_through(group, round < 5 ? few : lots);
        begun = processor_time() - begun;
        if (round == 0 || round == 5 || begun < times[0])
            times[round == 5] = begun;
    }
    CHECK(times[1] < LOTS / FEW * LIMIT * times[0]);
}

int main(void) {
    void *few[GROUPS], *lots[GROUPS];
    int i;

    look_for_no_cause();
    make_many(FEW, few);
    make_many(LOTS, lots);
    be_quick(few, lots);
    for (i = 0; i < GROUPS; i++) {
        be_linear(i, few[i], lots[i]);
        destroy(i, few[i]);
        destroy(i, lots[i]);
    }
    puts("costs: no call looks at more than it needs");
    return 0;
}
