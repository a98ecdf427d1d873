/* SPDX-License-Identifier: Apache-2.0 OR BSD-3-Clause */
/*
 * Guards against a fault that only many calls reach, such as one of a tree with many leaves.
 * Random calls of every kind are compared with arrays, and large spaces are filled and
 * emptied in hard orders. The seed is new unless it is given. The printed command repeats a run.
 *
 *     long [SEED [STEPS [RANGES]]]
 */
#define _POSIX_C_SOURCE 200809L
#include "every_call.h"
#include "refuse.h"

#include <time.h>

/* The objects have the addresses starting at BASE, and the ids starting at FIRST_ID. */
enum { BASE = 0x1000, WIDTH = 600, FIRST_ID = 7, ALL_IDS = 1200 };
#define TOP_ID UINT32_MAX

/* The state of an object. */
struct model {
    /* The size of the range that starts at each address, or 0, and whether the address is taken. */
    uint64_t sizes[WIDTH];
    bool taken[WIDTH];
    /* Whether each id is allocated, the start of its device, and the ids that once were. */
    bool held[ALL_IDS];
    uint64_t starts[ALL_IDS];
    uint32_t next;
};

static uint64_t seed;

static int keep_object(void *context) {
    return (void)context, 0;
}

static uint64_t drawn(uint64_t below) {
    seed = seed * 6364136223846793005u + 1442695040888963407u;
    return (seed >> 33) % below;
}

/* Fails one allocation of the next call, in some cases. */
static void refuse_one(void) {
    until_refused = drawn(8) == 0 ? 1 + drawn(3) : 0;
}

/* Makes a call, and makes it again if memory ran out. */
static dvs_status last_status;
#define AGAIN(call)                                                                                \
    (refuse_one(), last_status = (call), until_refused = 0,                                        \
     last_status == DVS_OUT_OF_MEMORY ? (prepare(), (call)) : last_status)

/* Allocates or frees a range of the model. */
static void put(struct model *model, uint64_t start, uint64_t size, bool is_taken) {
    model->sizes[start - BASE] = is_taken ? size : 0;
    memset(model->taken + (start - BASE), is_taken, size);
}

/* Returns the outcome of a request that has no place, for the range that it names. */
static struct outcome blocked(const struct model *model, const dvs_request *request,
                              dvs_range window) {
    struct outcome found = NO_PLACE;
    uint64_t at = 0;

    found.range = range_of(request->start, request->start + request->size - 1);
    if (model->sizes[request->start - BASE] == request->size && window.start <= request->start &&
        request->start <= window.end)
        found.status = DVS_INVALID_STATE_TRANSITION;
    if (found.range.end > BASE + WIDTH - 1) {
        found.cause = DVS_CAUSE_OUTSIDE_SPACE;
        found.other = range_of(BASE, BASE + WIDTH - 1);
    } else if (found.range.start < window.start || window.end < found.range.end) {
        found.cause = DVS_CAUSE_OUTSIDE_WINDOW;
        found.other = window;
    } else {
        while (BASE + at + model->sizes[at] <= found.range.start || model->sizes[at] == 0)
            at++;
        found.cause = DVS_CAUSE_ALLOCATED;
        found.other = range_of(BASE + at, BASE + at + model->sizes[at] - 1);
    }
    return found;
}

/* Returns the outcome of a request, by a search of all addresses from the last one. */
static struct outcome searched(const struct model *model, const dvs_request *request) {
    const dvs_range window = range_of(request->low, request->high == 0 ? TOP : request->high);
    struct outcome found = NO_FIT(1, 0);
    uint64_t start, run = 0, longest = 1;

    for (start = BASE + WIDTH; start-- > BASE;) {
        const struct outcome place = GETS(start, start + request->size - 1);
        const bool is_free =
            !model->taken[start - BASE] && window.start <= start && start <= window.end;

        run = is_free ? run + 1 : 0;
        if (found.status != DVS_OK && run >= longest) {
            longest = run;
            found.other = range_of(start, start + run - 1);
        }
        if (run >= request->size && start % request->alignment == 0 &&
            (request->policy != DVS_EXACT || start == request->start) &&
            (request->policy != DVS_LAST || found.status != DVS_OK))
            found = place;
    }
    if (found.status != DVS_OK && request->policy == DVS_EXACT)
        return blocked(model, request, window);
    if (window.end < BASE || BASE + WIDTH <= window.start) {
        found.cause = DVS_CAUSE_OUTSIDE_SPACE;
        found.other = range_of(BASE, BASE + WIDTH - 1);
    }
    return found;
}

/* Returns the outcome of a call that does not look for the longest gap. */
static struct outcome without_gap(struct outcome outcome) {
    static const struct outcome no_place = NO_PLACE;

    return outcome.cause == DVS_CAUSE_NO_FIT ? no_place : outcome;
}

static dvs_range random_window(void) {
    const uint64_t start = BASE - 8 + drawn(WIDTH + 16);

    return range_of(start, start + drawn(WIDTH));
}

static dvs_request random_request(void) {
    const dvs_range window = random_window();
    dvs_request request = {0, 0, 0, 0, 0, 0};

    request.size = 1 + drawn(drawn(3) == 0 ? 40 : 4);
    request.alignment = (uint64_t)1 << drawn(3);
    request.start = BASE + (drawn(WIDTH) & ~(request.alignment - 1));
    request.policy = (uint32_t)drawn(3);
    if (drawn(3) == 0) {
        request.low = drawn(4) == 0 ? 0 : window.start;
        request.high = drawn(4) == 0 ? 0 : window.end;
    }
    return request;
}

/* Returns an allocated range at or above a random address, or a range of one address. */
static dvs_range random_range(const struct model *model) {
    uint64_t at = drawn(WIDTH);

    while (at < WIDTH - 1 && model->sizes[at] == 0)
        at++;
    return range_of(BASE + at, BASE + at + model->sizes[at] - (model->sizes[at] > 0));
}

static bool is_held(const struct model *model, dvs_range range) {
    return model->sizes[range.start - BASE] == range.end - range.start + 1;
}

/* Allocates or reserves by a request, or by its numbers if it has no window. `first` and `whole`
 * are calls of every_call.h. */
static dvs_status allocate(int first, int whole, void *object, const dvs_request *request) {
    const uint64_t numbers[] = {request->size, request->alignment, request->start, 0};
    const bool is_whole = request->low != 0 || request->high != 0 || drawn(2) == 0;

    given.request = request;
    return make_call(is_whole ? whole : first + (int)request->policy, object, numbers);
}

/* ---- Spaces ---- */

static void allocate_several(dvs_address_allocator *space, struct model *model) {
    struct model changed = *model;
    dvs_range ranges[16];
    dvs_request requests[16];
    dvs_status expected = DVS_OK;
    size_t count = drawn(17), failed = 99, i, j;

    for (i = 0; i < count; i++)
        requests[i] = random_request();
    for (i = 0; i < count && expected == DVS_OK; i++) {
        const struct outcome outcome = searched(&changed, &requests[i]);

        expected = outcome.status;
        if (expected != DVS_OK)
            break;
        put(&changed, outcome.range.start, requests[i].size, true);
    }
    CHECK(AGAIN(dvs_address_allocator_allocate_all(space, requests, count, ranges, &failed,
                                                   NULL)) == expected);
    CHECK(failed == i);
    for (j = 0; j < count && expected == DVS_OK; j++)
        CHECK(is_held(&changed, ranges[j]));
    if (expected == DVS_OK)
        *model = changed;
}

static void move(dvs_address_allocator *space, struct model *model, dvs_request *request) {
    const dvs_range from = random_range(model);
    const uint64_t size = from.end - from.start + 1;
    const bool is_plain = drawn(3) == 0;
    struct outcome outcome = NO_PLACE;

    if (is_plain) {
        const dvs_request plain = {size, 1, request->start, DVS_EXACT, 0, 0};

        *request = plain;
    }
    if (is_held(model, from)) {
        put(model, from.start, size, false);
        outcome = searched(model, request);
        if (outcome.status == DVS_OK)
            put(model, outcome.range.start, request->size, true);
        else
            put(model, from.start, size, true);
        outcome = without_gap(outcome);
    }
    prepare();
    CHECK(has_outcome(&outcome,
                      AGAIN(is_plain ? dvs_range_move(space, from, request->start,
                                                      &results.device.range, &refusal)
                                     : dvs_range_move_request(space, from, request,
                                                              &results.device.range, &refusal))));
}

/* The ranges that a visit meets, or the ids and devices, as ranges. */
static dvs_range met[ALL_IDS];
static size_t count_met;

static int meet(void *context, dvs_range range) {
    (void)context;
    met[count_met++] = range;
    return 0;
}

static int meet_id(void *context, uint32_t id) {
    return meet(context, range_of(id, id));
}

static int meet_device(void *context, dvs_device device) {
    return meet(context, range_of(device.id, device.range.start));
}

/* Checks that a visit met the ranges or gaps that have an address from `first` to `last`. Returns
 * their number. They are in `met` until the next visit. */
static uint64_t check_met(dvs_status visited, const struct model *model, bool are_gaps,
                          uint64_t first, uint64_t last, bool is_back) {
    size_t number = 0;
    uint64_t at, size;

    CHECK(visited == DVS_OK);
    for (at = 0; at < WIDTH; at += size) {
        size = model->sizes[at];
        if (!model->taken[at])
            for (size = 1; at + size < WIDTH && !model->taken[at + size];)
                size++;
        if (model->taken[at] != are_gaps && BASE + at <= last && first < BASE + at + size) {
            CHECK(number++ < count_met);
            CHECK(is_range(met[is_back ? count_met - number : number - 1], BASE + at,
                           BASE + at + size - 1));
        }
    }
    CHECK(number == count_met);
    count_met = 0;
    return number;
}

static void query_space(const dvs_address_allocator *space, const struct model *model) {
    const dvs_range range = random_range(model), window = random_window();
    const dvs_request request = random_request();
    dvs_range at;
    const struct outcome outcome = searched(model, &request);
    const dvs_refusal none = {{0, 0}, {0, 0}, 0, 0, 0};
    dvs_refusal conflict;
    bool is_allocated = false;

    CHECK(dvs_range_is_allocated(space, range, &is_allocated, NULL) == DVS_OK);
    CHECK(is_allocated == is_held(model, range));
    CHECK((dvs_range_at(space, range.end, &at) == DVS_OK) == model->taken[range.end - BASE]);
    CHECK((dvs_gap_at(space, range.end, &at) == DVS_OK) != model->taken[range.end - BASE]);
    CHECK(dvs_range_peek(space, &request, &at, NULL) == outcome.status);
    CHECK(outcome.status != DVS_OK || is_range(at, outcome.range.start, outcome.range.end));
    CHECK(dvs_range_conflict(space, &request, &conflict) == DVS_OK);
    if (outcome.status == DVS_OK)
        CHECK(memcmp(&conflict, &none, sizeof none) == 0);
    else
        CHECK(conflict.cause == without_gap(outcome).cause &&
              conflict.other.start == without_gap(outcome).other.start);
    check_met(dvs_range_visit_in(space, window, meet, NULL, NULL), model, false, window.start,
              window.end, false);
    check_met(dvs_gap_visit_in(space, window, meet, NULL, NULL), model, true, window.start,
              window.end, false);
}

static void change_space(void *object, struct model *model, bool is_freed) {
    dvs_address_allocator *space = (dvs_address_allocator *)object;
    const dvs_range range = random_range(model);
    dvs_request request = random_request();
    const uint64_t kind = drawn(8);
    struct outcome outcome;

    if (is_freed) {
        CHECK(dvs_range_free(space, range, NULL) ==
              (is_held(model, range) ? DVS_OK : DVS_RESOURCE_NOT_AVAILABLE));
        if (is_held(model, range))
            put(model, range.start, range.end - range.start + 1, false);
    } else if (kind == 0) {
        move(space, model, &request);
    } else if (kind == 1) {
        allocate_several(space, model);
    } else {
        outcome = searched(model, &request);
        prepare();
        CHECK(has_outcome(&outcome, AGAIN(allocate(FIRST, REQUEST, space, &request))));
        if (outcome.status == DVS_OK)
            put(model, outcome.range.start, request.size, true);
    }
    query_space(space, model);
}

static void compare_space(const void *object, const struct model *model) {
    const dvs_address_allocator *space = (const dvs_address_allocator *)object;
    const uint64_t address = BASE + drawn(WIDTH);
    dvs_address_allocator *built;
    uint64_t ranges, gaps;
    bool are_equal = false;

    check_met(dvs_range_visit_from(space, address, meet, NULL), model, false, address, TOP, false);
    check_met(dvs_range_visit_back(space, address, meet, NULL), model, false, 0, address, true);
    check_met(dvs_gap_visit_from(space, address, meet, NULL), model, true, address, TOP, false);
    check_met(dvs_gap_visit_back(space, address, meet, NULL), model, true, 0, address, true);
    CHECK(dvs_gap_count(space, &gaps) == DVS_OK && dvs_range_count(space, &ranges) == DVS_OK);
    CHECK(gaps == check_met(dvs_gap_visit(space, meet, NULL), model, true, 0, TOP, false));
    if (gaps > 0) {
        CHECK(dvs_address_allocator_with_free(met, gaps, &built, NULL, NULL) == DVS_OK);
        check_met(dvs_gap_visit(built, meet, NULL), model, true, 0, TOP, false);
        dvs_address_allocator_destroy(built);
    }
    CHECK(ranges == check_met(dvs_range_visit(space, meet, NULL), model, false, 0, TOP, false));
    CHECK(dvs_address_allocator_with_held(BASE, WIDTH, met, ranges, &built, NULL, NULL) == DVS_OK);
    CHECK(dvs_address_allocator_equal(space, built, &are_equal) == DVS_OK && are_equal);
    dvs_address_allocator_destroy(built);
}

/* ---- Ids ---- */

static uint32_t random_id(void) {
    return FIRST_ID - 1 + (uint32_t)drawn(ALL_IDS + 2);
}

static bool is_id(uint32_t id) {
    return FIRST_ID <= id && id < FIRST_ID + ALL_IDS;
}

static bool is_id_held(const struct model *model, uint32_t id) {
    return is_id(id) && model->held[id - FIRST_ID];
}

/* Returns the lowest free id from `first` to `last`, or 0. */
static uint32_t lowest_id(const struct model *model, uint32_t first, uint32_t last) {
    uint32_t id;

    for (id = first < FIRST_ID ? FIRST_ID : first; id <= last && is_id(id); id++)
        if (!model->held[id - FIRST_ID])
            return id;
    return 0;
}

static void take_id(struct model *model, uint32_t id) {
    model->held[id - FIRST_ID] = true;
    model->next = id < model->next ? model->next : id + 1;
}

static void allocate_ids(dvs_id_allocator *ids, struct model *model) {
    struct model changed = *model;
    const size_t count = drawn(9);
    uint32_t list[9], expected[9] = {0};
    size_t i;

    for (i = 0; i < count && (expected[i] = lowest_id(&changed, 0, TOP_ID)) > 0; i++)
        take_id(&changed, expected[i]);
    CHECK(AGAIN(dvs_ids_allocate(ids, list, count)) ==
          (i == count ? DVS_OK : DVS_RESOURCE_NOT_AVAILABLE));
    CHECK(i < count || memcmp(list, expected, count * sizeof *list) == 0);
    if (i == count)
        *model = changed;
}

static void change_ids(void *object, struct model *model, bool is_freed) {
    dvs_id_allocator *ids = (dvs_id_allocator *)object;
    const uint32_t id = random_id(), last = random_id();
    const uint64_t kind = drawn(8);
    const uint32_t lowest = kind == 0   ? lowest_id(model, id, id)
                            : kind == 1 ? lowest_id(model, id, last)
                                        : lowest_id(model, 0, TOP_ID);
    uint32_t to = id;
    dvs_status status;

    if (is_freed) {
        CHECK(AGAIN(dvs_id_free(ids, id, NULL)) == (is_id_held(model, id) ? DVS_OK
                                                    : !is_id(id)          ? DVS_OUT_OF_RANGE
                                                    : id < model->next    ? DVS_ALREADY_RELEASED
                                                                          : DVS_NEVER_ALLOCATED));
        if (is_id(id))
            model->held[id - FIRST_ID] = false;
    } else if (kind == 2) {
        allocate_ids(ids, model);
    } else {
        status = AGAIN(kind == 0   ? dvs_id_allocate_exact(ids, id, NULL)
                       : kind == 1 ? dvs_id_allocate_in(ids, id, last, &to, NULL)
                                   : dvs_id_allocate(ids, &to));
        CHECK(status == (lowest > 0                ? DVS_OK
                         : kind == 0 && !is_id(id) ? DVS_OUT_OF_RANGE
                         : kind == 1 && last < id  ? DVS_INVALID_RANGE
                                                   : DVS_RESOURCE_NOT_AVAILABLE));
        CHECK(lowest == 0 || to == lowest);
        if (lowest > 0)
            take_id(model, to);
    }
}

/* Checks that a visit met each allocated id, with the start of its device. Returns their number. */
static uint64_t check_ids(dvs_status visited, const struct model *model, bool are_devices) {
    size_t number = 0;
    uint32_t id;

    CHECK(visited == DVS_OK);
    for (id = FIRST_ID; id < FIRST_ID + ALL_IDS; id++)
        if (is_id_held(model, id)) {
            CHECK(is_range(met[number++], id, are_devices ? model->starts[id - FIRST_ID] : id));
        }
    CHECK(number == count_met);
    count_met = 0;
    return number;
}

static void compare_ids(const void *object, const struct model *model) {
    const dvs_id_allocator *ids = (const dvs_id_allocator *)object;
    const uint32_t lowest = lowest_id(model, 0, TOP_ID);
    uint64_t held, left;
    uint32_t id, next = 0;
    bool is_allocated = false;

    CHECK(dvs_id_count(ids, &held) == DVS_OK && dvs_id_free_count(ids, &left) == DVS_OK);
    CHECK(held == check_ids(dvs_id_visit(ids, meet_id, NULL), model, false));
    CHECK(left == ALL_IDS - held);
    CHECK((dvs_id_peek(ids, &next) == DVS_OK) == (lowest > 0) && next == lowest);
    for (id = FIRST_ID - 1; id <= FIRST_ID + ALL_IDS; id++) {
        CHECK(dvs_id_is_allocated(ids, id, &is_allocated) == DVS_OK);
        CHECK(is_allocated == is_id_held(model, id));
    }
}

/* ---- Devices ---- */

static void change_devices(void *object, struct model *model, bool is_freed) {
    dvs_device_manager *manager = (dvs_device_manager *)object;
    const uint32_t id = random_id(), lowest = lowest_id(model, 0, TOP_ID);
    const dvs_request request = random_request();
    struct outcome outcome = NO_PLACE;

    if (is_freed) {
        CHECK(AGAIN(dvs_device_release(manager, id, NULL)) ==
              (is_id_held(model, id) ? DVS_OK : DVS_NEVER_ALLOCATED));
        if (is_id_held(model, id)) {
            const uint64_t start = model->starts[id - FIRST_ID];

            put(model, start, model->sizes[start - BASE], false);
            model->held[id - FIRST_ID] = false;
        }
        return;
    }
    if (lowest > 0)
        outcome = searched(model, &request);
    if (outcome.status == DVS_OK)
        outcome.id = lowest;
    prepare();
    CHECK(has_outcome(&outcome, AGAIN(allocate(RESERVE_FIRST, RESERVE, manager, &request))));
    if (outcome.status == DVS_OK) {
        take_id(model, lowest);
        put(model, outcome.range.start, request.size, true);
        model->starts[lowest - FIRST_ID] = outcome.range.start;
    }
}

static void compare_devices(const void *object, const struct model *model) {
    const dvs_device_manager *manager = (const dvs_device_manager *)object;
    uint64_t held;
    uint32_t id;
    dvs_device device;
    dvs_range range;

    CHECK(dvs_device_count(manager, &held) == DVS_OK);
    CHECK(held == check_ids(dvs_device_visit(manager, meet_device, NULL), model, true));
    for (id = FIRST_ID - 1; id <= FIRST_ID + ALL_IDS; id++) {
        CHECK((dvs_device_slot(manager, id, &range, NULL) == DVS_OK) == is_id_held(model, id));
        if (is_id_held(model, id)) {
            CHECK(range.start == model->starts[id - FIRST_ID] && is_held(model, range));
            CHECK(dvs_device_at(manager, range.end, &device) == DVS_OK && device.id == id);
        }
    }
}

/* ---- Saved objects ---- */

/* Reads a text. Returns null if it is refused, which must not be a result of memory. */
static void *read_text(int call, int group, const char *text, size_t length) {
    dvs_status status;

    given = usual;
    given.text = text;
    given.length = length;
    prepare();
    status = noted(make_call(call, NULL, bad));
    CHECK(status == DVS_OK || status == DVS_NOT_JSON || status == DVS_NOT_A_STATE);
    return status == DVS_OK ? created(group) : NULL;
}

/* Saves an object, and checks that an equal one is read. Returns it, with the text. */
static void *read_again(int group, void *object, char **text, size_t *length) {
    static const int reads[] = {READ_SPACE, READ_IDS, READ_MANAGER};
    void *again;

    given = usual;
    prepare();
    CHECK(make_call(groups[group].copy + 1, object, bad) == DVS_OK);
    *text = results.text;
    *length = results.length;
    again = read_text(reads[group], group, *text, *length);
    CHECK(again != NULL);
    compare(group, object, again, true);
    return again;
}

/* Cuts, repeats or replaces a part of a text. The block that is returned ends with the text. */
static char *damaged(const char *text, size_t *length) {
    static const char *const pieces[] = {
        "", "0", "7", "null", "}", "\"", "18446744073709551615", "1e999"};
    static char digits[401];
    const size_t first = drawn(*length), most = *length - first;
    const size_t drawn_cut = drawn(4) == 0 ? drawn(60) : drawn(3),
                 cut = drawn_cut < most ? drawn_cut : most;
    const char *piece = drawn(9) == 0 ? digits : pieces[drawn(sizeof pieces / sizeof pieces[0])];
    const size_t size = drawn(3) == 0 ? cut : strlen(piece);
    char *made = (char *)malloc(*length + 400 + 60);

    memset(digits, '9', 400);
    CHECK(made != NULL);
    memcpy(made, text, first);
    memcpy(made + first, size == cut ? text + first : piece, size);
    memcpy(made + first + size, text + first + cut, most - cut);
    *length += size - cut;
    return made;
}

/* Replaces an object by the one that its text encodes. A damaged text is refused, or read as an
 * object whose text is read again. */
static void *restored(int group, void *object) {
    static const int reads[] = {SPACE_WITHIN, IDS_WITHIN, MANAGER_WITHIN};
    char *text, *other;
    size_t length, i;
    void *again = read_again(group, object, &text, &length);

    for (i = 0; i < 16; i++) {
        size_t left = length;
        char *wrong = damaged(text, &left);
        const int call = group == 0 && drawn(2) == 0 ? REPAIR_WITHIN : reads[group];
        void *one = read_text(call, group, wrong, left);

        if (one != NULL) {
            destroy(group, read_again(group, one, &other, &left));
            dvs_text_destroy(other);
            destroy(group, one);
        }
        free(wrong);
    }
    dvs_text_destroy(text);
    destroy(group, object);
    return again;
}

/* ---- Random calls ---- */

static const struct {
    void (*change)(void *object, struct model *model, bool is_freed);
    void (*compare)(const void *object, const struct model *model);
} kinds[] = {
    {change_space, compare_space}, {change_ids, compare_ids}, {change_devices, compare_devices}};

/* Makes random calls on an object. Their share that frees changes, so that it becomes full and
 * empty. */
static void run(int group, uint64_t steps) {
    static const uint64_t numbers[][4] = {{BASE, WIDTH},
                                          {FIRST_ID, FIRST_ID + ALL_IDS - 1},
                                          {FIRST_ID, FIRST_ID + ALL_IDS - 1, BASE, WIDTH}};
    static const uint64_t shares[] = {3, 8, 11, 6, 14};
    static struct model model;
    uint64_t step;
    void *object, *other;

    memset(&model, 0, sizeof model);
    given = usual;
    prepare();
    CHECK(make_call(NEW_SPACE + group, NULL, numbers[group]) == DVS_OK);
    object = created(group);
    for (step = 0; step < steps; step++) {
        kinds[group].change(object, &model, drawn(16) < shares[step / 2000 % 5]);
        if (step % 400 > 0)
            continue;
        kinds[group].compare(object, &model);
        other = drawn(2) == 0 ? copied(group, object) : NULL;
        if (other != NULL)
            destroy(group, object);
        object = other != NULL ? other : restored(group, object);
    }
    destroy(group, object);
}

/* ---- Large spaces ---- */

/* The state of each range of a large space, and the next one that a visit must meet. */
static bool *many;
static uint64_t count, next;

static int meet_next(void *context, dvs_range range) {
    (void)context;
    while (!many[next])
        next++;
    CHECK(is_range(range, BASE + 2 * next, BASE + 2 * next));
    next++;
    return 0;
}

/* Compares a large space with the states of its ranges, and restores it. */
static void *restore_many(void *object) {
    size_t length;
    char *text;
    void *again = read_again(0, object, &text, &length);

    next = 0;
    CHECK(dvs_range_visit((dvs_address_allocator *)again, meet_next, NULL) == DVS_OK);
    while (next < count)
        CHECK(!many[next++]);
    dvs_text_destroy(text);
    destroy(0, object);
    return again;
}

/* Allocates every second address upward, downward or at both ends in turn, and frees every 31st
 * range, every second one and the others. */
static void fill_and_empty(int order) {
    static const uint64_t every[] = {31, 2, 1};
    const uint64_t numbers[] = {BASE, 2 * count};
    uint64_t i, round;
    dvs_range range;
    void *object;

    given = usual;
    prepare();
    CHECK(make_call(NEW_SPACE, NULL, numbers) == DVS_OK);
    object = created(0);
    for (round = 0; round < 4; round++) {
        for (i = 0; i < count; i++) {
            const uint64_t at = order == 0                ? i
                                : order == 1 || i % 2 > 0 ? count - 1 - i / (2 - (order == 1))
                                                          : i / 2;
            const uint64_t start = BASE + 2 * at;

            if (round == 0)
                CHECK(dvs_range_allocate_exact((dvs_address_allocator *)object, 1, 1, start, &range,
                                               NULL) == DVS_OK);
            else if (many[at] && at % every[round - 1] == 0)
                CHECK(dvs_range_free((dvs_address_allocator *)object, range_of(start, start),
                                     NULL) == DVS_OK);
            many[at] = round == 0 || (many[at] && at % every[round - 1] > 0);
        }
        object = restore_many(object);
    }
    destroy(0, object);
}

int main(int argc, char **argv) {
    unsigned long steps = argc > 2 ? strtoul(argv[2], NULL, 10) : 3000;
    int i;

    seed = argc > 1 ? strtoul(argv[1], NULL, 10) : (unsigned long)time(NULL);
    count = argc > 3 ? strtoul(argv[3], NULL, 10) : 2000;
    many = (bool *)calloc(count, 1);
    CHECK(many != NULL);
    printf("long %lu %lu %lu\n", (unsigned long)seed, steps, (unsigned long)count);
    fflush(stdout);
    for (i = 0; i < 3; i++) {
        run(i, steps);
        fill_and_empty(i);
    }
    free(many);
    return 0;
}
