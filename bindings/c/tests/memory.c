/* SPDX-License-Identifier: Apache-2.0 OR BSD-3-Clause */
/*
 * Guards against a call that ends the process, loses memory or changes its object when
 * memory runs out. Each allocation of each call fails in turn. The call must return
 * DVS_OUT_OF_MEMORY, free what it has allocated, and change nothing. The test also
 * measures the memory that texts allocate.
 */
#define _POSIX_C_SOURCE 200809L
#include "every_call.h"
#include "refuse.h"

SAVED(saved_space, dvs_address_allocator)

/* An object of each group, its copy, and its saved text. */
static void *objects[GROUPS], *copies[GROUPS];
static char *texts[GROUPS];
static size_t lengths[GROUPS];

static const uint64_t zeros[4] = {0, 0, 0, 0};

static int keep_object(void *context) {
    return (void)context, 0;
}

/* Allocates two addresses of the space. */
static void hold(uint64_t start) {
    dvs_range range;

    CHECK(dvs_range_allocate_exact(results.space, 2, 1, start, &range, NULL) == DVS_OK);
}

/* Allocates numbers with each number of digits, and some free addresses and ids between them. */
static void fill(void) {
    static const dvs_request lowest = {1, 1, 0, DVS_FIRST, 0, 0};
    uint64_t power = 10;
    dvs_device device;
    uint32_t id;
    int i;

    /* Two leaves of 32 ranges and gaps, below a root with room. The next split allocates a leaf. */
    for (i = 1; i < 20; i++, power *= 10)
        hold(power - 1);
    for (i = 4, power = 10000; i < 9; i++, power *= 10)
        hold(5 * power);
    hold(power + 1);
    for (i = 11, power = 100000000000; i < 18; i++, power *= 10)
        hold(5 * power);
    for (i = 0; i < 300; i++)
        CHECK(dvs_id_allocate(results.ids, &id) == DVS_OK);
    /* The runs of freed ids fill a leaf of 64. The next one needs memory. */
    for (id = 2; id <= 128; id += 2)
        CHECK(dvs_id_free(results.ids, id, NULL) == DVS_OK);
    /* A leaf of 30 ranges and a gap. The lists of devices have memory for one more. */
    for (i = 0; i < 30; i++)
        CHECK(dvs_device_reserve_first(results.manager, 1, 1, &device, NULL) == DVS_OK);
    /* The values fill a leaf of 64. */
    for (i = 0; i < 64; i++)
        CHECK(dvs_range_map_allocate(results.map, i, &lowest, &device.range, NULL) == DVS_OK);
}

static void set_up(bool is_empty) {
    int group;

    given = usual;
    prepare();
    CHECK(dvs_address_allocator_new(0, UINT64_MAX, &results.space) == DVS_OK);
    CHECK(dvs_id_allocator_new(0, UINT32_MAX, &results.ids, NULL) == DVS_OK);
    CHECK(dvs_device_manager_new(0, UINT32_MAX, 0, 1000, &results.manager, NULL) == DVS_OK);
    CHECK(dvs_range_map_new(0, 1000, &results.map) == DVS_OK);
    if (!is_empty)
        fill();
    for (group = 0; group < GROUPS; group++)
        objects[group] = created(group);
    for (group = 0; group < GROUPS; group++)
        copies[group] = copied(group, objects[group]);
    for (group = 0; group < SAVED_GROUPS; group++) {
        CHECK(attempt(groups[group].copy + 1, objects[group], zeros) == DVS_OK);
        texts[group] = results.text;
        lengths[group] = results.length;
    }
}

/* Also destroys what the last call has created. */
static void tear_down(void) {
    int group;

    if (!is_untouched(&results.space, sizeof results.space))
        destroy(0, results.space);
    if (!is_untouched(&results.ids, sizeof results.ids))
        destroy(1, results.ids);
    if (!is_untouched(&results.manager, sizeof results.manager))
        destroy(2, results.manager);
    if (!is_untouched(&results.map, sizeof results.map))
        destroy(3, results.map);
    if (!is_untouched(&results.text, sizeof results.text))
        dvs_text_destroy(results.text);
    for (group = 0; group < GROUPS; group++) {
        destroy(group, objects[group]);
        destroy(group, copies[group]);
        dvs_text_destroy(texts[group]);
    }
}

struct row {
    const char *name;
    int call, group;
    uint64_t numbers[4];
    /* The minimum number of its allocations. */
    unsigned long requests;
};

static const struct row rows[] = {
    {"new space", NEW_SPACE, 0, {1, 2}, 2},
    {"new ids", NEW_IDS, 1, {1, 2}, 1},
    {"new manager", NEW_MANAGER, 2, {1, 2, 3, 4}, 2},
    {"new map", NEW_MAP, 3, {1, 2}, 2},
    {"first", FIRST, 0, {3, 16}, 1},
    {"last", LAST, 0, {3, 8}, 1},
    {"exact", EXACT, 0, {3, 1, 500}, 1},
    {"in a window", REQUEST, 0, {0}, 1},
    {"move", MOVE, 0, {9, 10, 500}, 1},
    {"move in a window", MOVE_REQUEST, 0, {9, 10}, 1},
    {"copy a space", COPY_SPACE, 0, {0}, 4},
    {"copy ids", COPY_IDS, 1, {0}, 2},
    {"copy a manager", COPY_MANAGER, 2, {0}, 4},
    {"copy the space of a manager", COPY_ADDRESSES, 2, {0}, 2},
    {"copy the ids of a manager", COPY_DEVICE_IDS, 2, {0}, 1},
    {"save a space", SAVE_SPACE, 0, {0}, 2},
    {"save ids", SAVE_IDS, 1, {0}, 1},
    {"save a manager", SAVE_MANAGER, 2, {0}, 2},
    {"read a space", SPACE_WITHIN, 0, {0}, 5},
    {"repair a space", REPAIR_WITHIN, 0, {0}, 5},
    {"with ranges", WITH_RANGES, 0, {0, 16}, 3},
    {"with free ranges", WITH_FREE, 0, {0}, 4},
    {"several requests", LIST, 0, {0}, 3},
    {"several ids", IDS, 1, {0}, 1},
    {"free an id", FREE_ID, 1, {0}, 1},
    {"with ids", WITH_IDS, 1, {0, 9}, 2},
    {"an id above others", ID_EXACT, 1, {999}, 1},
    {"an id in a range", ID_IN, 1, {999, 1000}, 1},
    {"read ids", IDS_WITHIN, 1, {0}, 2},
    {"release a device", RELEASE, 2, {0}, 1},
    {"reserve first", RESERVE_FIRST, 2, {4, 8}, 2},
    {"reserve last", RESERVE_LAST, 2, {4, 8}, 2},
    {"reserve exactly", RESERVE_EXACT, 2, {4, 1, 50}, 2},
    {"reserve in a window", RESERVE, 2, {0}, 2},
    {"move a device", MOVE_DEVICE, 2, {9}, 2},
    {"reserve with an id", RESERVE_WITH_ID, 2, {999, 1000}, 3},
    {"read a manager", MANAGER_WITHIN, 2, {0}, 9},
    {"allocate in a map", MAP_ALLOCATE, 3, {0}, 1},
    {"move in a map", MAP_MOVE, 3, {9, 9}, 1},
    {"copy a map", COPY_MAP, 3, {0}, 7},
    {"with values", WITH_VALUES, 3, {0, 16}, 8},
    {"several requests in a map", MAP_ALL, 3, {0}, 6},
};

/* Sets the arguments that are not numbers. */
static void give(int group) {
    static const dvs_range held[] = {{4, 7}, {9, 9}};
    static const dvs_request requests[] = {{3, 1, 0, DVS_LAST, 490, 510},
                                           {3, 1, 500, DVS_EXACT, 0, 0}};
    static const uint32_t held_ids[] = {4, 9};
    static const dvs_valued_range with_values[] = {{{4, 7}, 1}, {{9, 9}, 2}};

    given = usual;
    given.held_values = with_values;
    given.request = requests;
    given.held_ranges = held;
    given.held = held_ids;
    given.text = texts[group];
    given.length = lengths[group];
}

/* divsharun.h: "If memory runs out, a call returns DVS_OUT_OF_MEMORY. It frees what it has made,
 * or keeps it for later calls on the object. No call ends the process then." */

/* Makes a call of which this allocation fails. Returns whether it has fewer allocations. */
static bool refuse_one(const struct row *row, bool is_empty, unsigned long number) {
    bool is_done;
    dvs_status status;
    long before;

    set_up(is_empty);
    give(row->group);
    before = blocks;
    until_refused = number;
    status = attempt(row->call, objects[row->group], row->numbers);
    is_done = until_refused > 0;
    until_refused = 0;
    if (!is_done) {
        /* The lists of ids and of devices keep memory for later. */
        CHECK(blocks == before || row->call >= ID);
        check_refused(row->call, status, DVS_OUT_OF_MEMORY);
        compare(row->group, objects[row->group], copies[row->group], true);
    }
    CHECK(status == DVS_OK || !is_done || is_empty);
    tear_down();
    return is_done;
}

/* divsharun.h: "This is the last error, except in a call that reads a text or takes an array." */

/* Fails each allocation of a call in turn, until a run has no failed allocation. */
static void refuse_in_turn(const struct row *row) {
    unsigned long number = 1;

    while (!refuse_one(row, true, number))
        number++;
    for (number = 1; !refuse_one(row, false, number);)
        number++;
    if (number <= row->requests)
        fprintf(stderr, "%s: %lu allocations\n", row->name, number - 1);
    CHECK(number > row->requests);
}

/* divsharun.h: "Freeing a range, dvs_id_allocate() and queries do not allocate memory."
 * divsharun.h: "Memory is allocated only if there are some, or if the ids right below and right
 * above the id are both freed ids." */

/* Calls that do not allocate, because of an error, because a range fills its gap, or in all cases,
 * and their statuses. A request has its members as numbers. */
static const struct {
    int call, group;
    uint64_t numbers[4];
    dvs_status status;
} without_memory[] = {
    {NEW_SPACE, 0, {0, 0}, DVS_UNDERFLOW},
    {NEW_SPACE, 0, {2, TOP}, DVS_OVERFLOW},
    {NEW_IDS, 1, {2, 1}, DVS_INVALID_RANGE},
    {NEW_MANAGER, 2, {2, 1, 0, 0}, DVS_INVALID_RANGE},
    {NEW_MANAGER, 2, {1, 2, 2, TOP}, DVS_OVERFLOW},
    {WITH_IDS, 1, {9, 5}, DVS_INVALID_RANGE},
    {WITH_IDS, 1, {5, 9}, DVS_OUT_OF_RANGE},
    {FIRST, 0, {TOP, 1}, DVS_RESOURCE_NOT_AVAILABLE},
    {LAST, 0, {TOP, 1}, DVS_RESOURCE_NOT_AVAILABLE},
    {FIRST, 0, {9, 1}, DVS_OK},
    {EXACT, 0, {2, 1, 9}, DVS_INVALID_STATE_TRANSITION},
    {EXACT, 0, {88, 1, 11}, DVS_OK},
    {REQUEST, 0, {9, 1, 0, DVS_FIRST}, DVS_OK},
    {REQUEST, 0, {88, 1, 11, DVS_EXACT}, DVS_OK},
    {REQUEST, 0, {TOP, 1, 0, DVS_LAST}, DVS_RESOURCE_NOT_AVAILABLE},
    {LIST, 0, {1, 3}, DVS_INVALID_ALIGNMENT},
    {MOVE, 0, {9, 10, 99}, DVS_INVALID_STATE_TRANSITION},
    {MOVE, 0, {9, 10, 98}, DVS_RESOURCE_NOT_AVAILABLE},
    {MOVE, 0, {9, 10, 9}, DVS_OK},
    {MOVE_REQUEST, 0, {1, 1, 0, DVS_FIRST}, DVS_RESOURCE_NOT_AVAILABLE},
    {CONFLICT, 0, {2, 1, 9, DVS_EXACT}, DVS_OK},
    {FREE, 0, {9, 10}, DVS_OK},
    {ID, 1, {0}, DVS_OK},
    {ID_EXACT, 1, {0}, DVS_RESOURCE_NOT_AVAILABLE},
    {ID_EXACT, 1, {300}, DVS_OK},
    {ID_IN, 1, {0, 0}, DVS_RESOURCE_NOT_AVAILABLE},
    {FREE_ID, 1, {300}, DVS_NEVER_ALLOCATED},
    {FREE_ID, 1, {2}, DVS_ALREADY_RELEASED},
    {RESERVE_FIRST, 2, {TOP, 1}, DVS_RESOURCE_NOT_AVAILABLE},
    {RESERVE_LAST, 2, {TOP, 1}, DVS_RESOURCE_NOT_AVAILABLE},
    {RESERVE_EXACT, 2, {1, 1, TOP}, DVS_OVERFLOW},
    {RESERVE_FIRST, 2, {969, 1}, DVS_OK},
    {RESERVE_LAST, 2, {969, 1}, DVS_OK},
    {RESERVE_EXACT, 2, {969, 1, 31}, DVS_OK},
    {RESERVE, 2, {969, 1, 31, DVS_EXACT}, DVS_OK},
    {RESERVE, 2, {TOP, 1, 0, DVS_LAST}, DVS_RESOURCE_NOT_AVAILABLE},
    {DEVICE_CONFLICT, 2, {969, 1, 31, DVS_EXACT}, DVS_OK},
    {RELEASE, 2, {31}, DVS_NEVER_ALLOCATED},
    {NEW_MAP, 3, {2, TOP}, DVS_OVERFLOW},
    {MAP_ALLOCATE, 3, {TOP, 1, 0, DVS_LAST}, DVS_RESOURCE_NOT_AVAILABLE},
    {MAP_MOVE, 3, {9, 1, 0, DVS_FIRST}, DVS_INVALID_RANGE},
    {MAP_FREE, 3, {9, 9}, DVS_OK},
    {MAP_FREE, 3, {9, 10}, DVS_RESOURCE_NOT_AVAILABLE},
    {MAP_SET, 3, {9, 5}, DVS_OK},
};

static void call_without_memory(int call, int group, const uint64_t *numbers, dvs_status status) {
    const dvs_request one = {numbers[0], numbers[1], numbers[2], (uint32_t)numbers[3], 0, 0};
    const dvs_request requests[] = {one, one};
    dvs_status got;

    set_up(false);
    give(group);
    given.request = requests;
    given.other = copies[group];
    given.has_result = status != DVS_NULL;
    until_refused = 1;
    got = attempt(call, objects[group], numbers);
    CHECK(until_refused == 1);
    until_refused = 0;
    CHECK(got == status || (numbers == zeros && status == DVS_OK &&
                            (got == DVS_RESOURCE_NOT_AVAILABLE || got == DVS_INVALID_SIZE)));
    tear_down();
}

/* Also makes the queries, except those that copy and save, and the visits. All calls come without a
 * place for the result, too. */
static void do_without_memory(void) {
    size_t i;
    int call;

    for (i = 0; i < sizeof without_memory / sizeof without_memory[0]; i++)
        call_without_memory(without_memory[i].call, without_memory[i].group,
                            without_memory[i].numbers, without_memory[i].status);
    for (call = 0; call < CALLS; call++) {
        const struct group *group = &groups[group_of(call)];

        if (call < group->done || group->queries <= call)
            call_without_memory(call, group_of(call), zeros, DVS_NULL);
        if ((group->queries <= call && call < group->copy && !copies_part(call)) ||
            call >= group->visits)
            call_without_memory(call, group_of(call), zeros, DVS_OK);
    }
}

/* ---- The memory for texts ---- */

/* The number of ranges of a space, each with a gap after it. */
enum { RANGES = 20000 };

/* divsharun.h: "Saving and reading allocate less than 100 bytes for each allocated range, freed id
 * and device, beyond the text and the object." */

/* src/lib.rs: "An address allocator is written from a list of its blocks, and read into a list of
 * its allocated ranges, in 16 bytes for each." */

/* The maximum numbers of bytes for each range, which are below the limit of the header. Saving
 * lists the range and its gap in 16 bytes each. Reading lists the range in 16 bytes, and an eighth
 * more. A text can be refused when the tree is built. */
enum { SAVING = 2 * 16, READING = 18, REFUSING = READING + 22 };

/* Returns the space with all ranges. */
static dvs_address_allocator *many_ranges(void) {
    dvs_address_allocator *many;
    dvs_range range;
    int i;

    CHECK(dvs_address_allocator_new(0, 8 * RANGES, &many) == DVS_OK);
    for (i = 0; i < RANGES; i++)
        CHECK(dvs_range_allocate_first(many, 3, 8, &range, NULL) == DVS_OK);
    return many;
}

/* Measures the bytes for each range, beyond the text and the object. */
static void measure_texts(void) {
    dvs_address_allocator *many = many_ranges(), *again;
    size_t before = bytes, length, saving, reading, refusing;
    char *text;

    most_bytes = bytes;
    text = saved_space(many, &length);
    saving = (most_bytes - bytes) / RANGES;
    dvs_address_allocator_destroy(many);
    before = bytes;
    most_bytes = bytes;
    CHECK(dvs_address_allocator_read(text, length, &again) == DVS_OK);
    reading = (most_bytes - bytes) / RANGES;
    dvs_address_allocator_destroy(again);
    CHECK(bytes == before);
    /* The height of the root is the last number of the text. */
    text[length - 4] = text[length - 4] == '1' ? '2' : '1';
    most_bytes = bytes;
    CHECK(dvs_address_allocator_read(text, length, &again) == DVS_NOT_A_STATE);
    refusing = (most_bytes - before) / RANGES;
    CHECK(bytes == before);
    dvs_text_destroy(text);
    printf("memory: bytes for each range: saving %lu, reading %lu, refusing %lu\n",
           (unsigned long)saving, (unsigned long)reading, (unsigned long)refusing);
    CHECK(saving <= SAVING && reading <= READING && refusing <= REFUSING);
}

/* Checks that the list of nested nodes has less than 8 KiB, for as many as a text can have. */
static void measure_nesting(void) {
    static char text[8192];
    char *end = text;
    dvs_address_allocator *made;
    int i;

    end += sprintf(end, "{\"address_space\":{\"start\":0,\"end\":99},\"interval_tree\":{\"root\":");
    for (i = 50; i > 0; i--)
        end += sprintf(
            end, "{\"key\":{\"start\":%d,\"end\":%d},\"node_state\":\"Free\",\"left\":", i, i);
    end += sprintf(end, "null");
    for (i = 0; i < 50; i++)
        end += sprintf(end, ",\"right\":null,\"height\":1}");
    end += sprintf(end, "}}");
    most_bytes = bytes;
    CHECK(dvs_address_allocator_read_repaired(text, (size_t)(end - text), &made) == DVS_OK);
    CHECK(most_bytes - bytes < 8 * 1024);
    destroy(0, made);
}

/* Checks the bytes for each member of an array that a call has allocated and freed. */
static void check_freed(size_t most) {
    CHECK((most_bytes - bytes) / RANGES <= most);
    most_bytes = bytes;
}

/* Checks that calls with arrays allocate only one copy of the array, and lists of their results and
 * of holes. A request takes 56 bytes. */
static void measure_arrays(void) {
    static dvs_range ranges[RANGES];
    static dvs_request requests[RANGES];
    static uint32_t several[RANGES];
    const dvs_request request = {1, 1, 0, DVS_FIRST, 0, 0};
    const size_t size = sizeof ranges[0];
    dvs_address_allocator *space, *other;
    dvs_id_allocator *ids;
    int i;

    for (i = 0; i < RANGES; i++) {
        ranges[i] = range_of(2 * i, 2 * i);
        requests[i] = request;
    }
    most_bytes = bytes;
    CHECK(dvs_address_allocator_with_held(0, 2 * RANGES, ranges, RANGES, &space, NULL, NULL) ==
          DVS_OK);
    check_freed(size);
    CHECK(dvs_address_allocator_with_free(ranges, RANGES, &other, NULL, NULL) == DVS_OK);
    check_freed(2 * size);
    CHECK(dvs_address_allocator_allocate_all(space, requests, RANGES, ranges, NULL, NULL) ==
          DVS_OK);
    check_freed(size + 56);
    CHECK(dvs_id_allocator_new(0, RANGES, &ids, NULL) == DVS_OK);
    CHECK(dvs_ids_allocate(ids, several, RANGES) == DVS_OK);
    check_freed(sizeof several[0]);
    destroy(0, space);
    destroy(0, other);
    destroy(1, ids);
}

/* Values of which each allocates memory for its length, if values are made of a text. */
static const char *const deep[] = {"[[[[[[0]]]]]]", "{\"a\":{\"\":[{}]}}", "[[],[],[\"a\"]]"};

/* divsharun.h: "This is also true for an untrusted text, and nothing is allocated after its first
 * fault." */

/* Checks that a text that encodes no object is refused without an allocation. */
static void refuse_without_memory(void) {
    dvs_address_allocator *made;
    unsigned long number;
    size_t i;

    for (i = 0; i < sizeof deep / sizeof deep[0]; i++) {
        until_refused = 1;
        CHECK(dvs_address_allocator_read(deep[i], strlen(deep[i]), &made) == DVS_NOT_A_STATE);
        number = until_refused;
        until_refused = 0;
        CHECK(number == 1);
    }
}

int main(void) {
    long before = blocks;
    size_t i;

    for (i = 0; i < sizeof rows / sizeof rows[0]; i++)
        refuse_in_turn(&rows[i]);
    do_without_memory();
    measure_texts();
    measure_nesting();
    measure_arrays();
    refuse_without_memory();
    CHECK(blocks == before);
    puts("memory: each allocation of each call failed in turn");
    return 0;
}
