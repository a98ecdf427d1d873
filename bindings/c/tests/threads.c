/* SPDX-License-Identifier: Apache-2.0 OR BSD-3-Clause */
/*
 * Guards against state that calls share. Each thread uses its own object, an object is
 * passed from thread to thread, and all threads query and visit one at the same time.
 * The test also makes the deepest calls on a small stack.
 */
#define _POSIX_C_SOURCE 200809L
#include "check.h"

#include <pthread.h>

enum { OWNERS = 64, OWN_ROUNDS = 5, THREADS = 8, ROUNDS = 40, VISITS = 200000, HELD = 64 };
enum { SMALL_STACK = 64 * 1024, LEVELS = 50 };

SAVED(saved_space, dvs_address_allocator)

static void run(pthread_t *thread, const pthread_attr_t *how, void *(*work)(void *), void *on) {
    CHECK(pthread_create(thread, how, work, on) == 0);
}

static void join_all(pthread_t *threads, size_t count) {
    size_t i;

    for (i = 0; i < count; i++)
        CHECK(pthread_join(threads[i], NULL) == 0);
}

/* ---- A separate object for each thread ---- */

/* Allocates and frees, and checks that the results are those of a single thread. */
static void fill_and_empty(dvs_address_allocator *space, uint64_t base) {
    dvs_range range;
    uint64_t i;

    for (i = 0; i < HELD; i++) {
        CHECK(dvs_range_allocate_first(space, 16, 16, &range, NULL) == DVS_OK);
        CHECK(is_range(range, base + 16 * i, base + 16 * i + 15));
    }
    for (i = 0; i < HELD; i++) {
        uint64_t start = base + 16 * (i * 13 % HELD);

        CHECK(dvs_range_free(space, range_of(start, start + 15), NULL) == DVS_OK);
    }
}

static void fill_ids(dvs_id_allocator *ids) {
    uint32_t i, id;

    for (i = 0; i < HELD; i++)
        CHECK(dvs_id_allocate(ids, &id) == DVS_OK && id == i);
    for (i = 0; i < HELD; i++)
        CHECK(dvs_id_free(ids, i * 13 % HELD, NULL) == DVS_OK);
}

static void plug_devices(dvs_device_manager *manager) {
    dvs_device device;
    uint32_t i;

    for (i = 0; i < HELD; i++)
        CHECK(dvs_device_reserve_last(manager, 1, 1, &device, NULL) == DVS_OK && device.id == i);
    for (i = 0; i < HELD; i++)
        CHECK(dvs_device_release(manager, i, NULL) == DVS_OK);
}

static void *use_own(void *context) {
    uint64_t base = *(const uint64_t *)context;
    dvs_address_allocator *space;
    dvs_id_allocator *ids;
    dvs_device_manager *manager;
    int i;

    CHECK(dvs_address_allocator_new(base, 16 * HELD, &space) == DVS_OK);
    CHECK(dvs_id_allocator_new(0, HELD, &ids, NULL) == DVS_OK);
    CHECK(dvs_device_manager_new(0, HELD, base, HELD, &manager, NULL) == DVS_OK);
    for (i = 0; i < OWN_ROUNDS; i++) {
        fill_and_empty(space, base);
        fill_ids(ids);
        plug_devices(manager);
    }
    dvs_address_allocator_destroy(space);
    dvs_id_allocator_destroy(ids);
    dvs_device_manager_destroy(manager);
    return NULL;
}

static void use_own_objects(void) {
    pthread_t threads[OWNERS];
    uint64_t bases[OWNERS];
    size_t i;

    for (i = 0; i < OWNERS; i++) {
        bases[i] = 4096 * i;
        run(&threads[i], NULL, use_own, &bases[i]);
    }
    join_all(threads, OWNERS);
}

/* ---- An object passed from thread to thread ---- */

static void *make_one(void *context) {
    dvs_range range;
    dvs_address_allocator **space = (dvs_address_allocator **)context;

    CHECK(dvs_address_allocator_new(0, 100, space) == DVS_OK);
    CHECK(dvs_range_allocate_first(*space, 10, 1, &range, NULL) == DVS_OK);
    return NULL;
}

static void *destroy_one(void *context) {
    dvs_address_allocator **space = (dvs_address_allocator **)context;

    CHECK(dvs_range_free(*space, range_of(0, 9), NULL) == DVS_OK);
    dvs_address_allocator_destroy(*space);
    return NULL;
}

/* divsharun.h: "Any thread can use and destroy an object." */
static void hand_on(void) {
    pthread_t thread;
    dvs_address_allocator *space;

    run(&thread, NULL, make_one, &space);
    join_all(&thread, 1);
    run(&thread, NULL, destroy_one, &space);
    join_all(&thread, 1);
}

/* ---- Queries at the same time ---- */

static int count_range(void *context, dvs_range range) {
    *(uint64_t *)context += range.end - range.start + 1;
    return 0;
}

static void *look(void *context) {
    const dvs_address_allocator *space = (const dvs_address_allocator *)context;
    int i;

    for (i = 0; i < ROUNDS; i++) {
        uint64_t count, sum = 0;
        bool is_allocated = false;
        size_t length;

        CHECK(dvs_range_count(space, &count) == DVS_OK && count == HELD);
        CHECK(dvs_range_visit(space, count_range, &sum) == DVS_OK && sum == 3 * HELD);
        CHECK(dvs_range_is_allocated(space, range_of(0, 2), &is_allocated, NULL) == DVS_OK &&
              is_allocated);
        dvs_text_destroy(saved_space(space, &length));
    }
    return NULL;
}

/* divsharun.h: "Calls on different objects can run at the same time. On one object, calls that
 * take a pointer to const can run at the same time." */
static void look_together(void) {
    pthread_t threads[THREADS];
    dvs_address_allocator *space;
    dvs_range range;
    size_t i;

    CHECK(dvs_address_allocator_new(0, 4 * HELD, &space) == DVS_OK);
    for (i = 0; i < HELD; i++)
        CHECK(dvs_range_allocate_first(space, 3, 4, &range, NULL) == DVS_OK);
    for (i = 0; i < THREADS; i++)
        run(&threads[i], NULL, look, space);
    join_all(threads, THREADS);
    CHECK(dvs_range_free(space, range, NULL) == DVS_OK);
    dvs_address_allocator_destroy(space);
}

/* ---- Visits at the same time ---- */

static void *visit_often(void *context) {
    const dvs_address_allocator *space = (const dvs_address_allocator *)context;
    int i;

    for (i = 0; i < VISITS; i++) {
        uint64_t sum = 0;

        CHECK(dvs_range_visit(space, count_range, &sum) == DVS_OK && sum == 3);
    }
    return NULL;
}

/* If a visit were not counted, the space would be busy after them. */
static void visit_together(void) {
    pthread_t threads[THREADS];
    dvs_address_allocator *space;
    dvs_range range;
    size_t i;

    CHECK(dvs_address_allocator_new(0, 3, &space) == DVS_OK);
    CHECK(dvs_range_allocate_first(space, 3, 1, &range, NULL) == DVS_OK);
    for (i = 0; i < THREADS; i++)
        run(&threads[i], NULL, visit_often, space);
    join_all(threads, THREADS);
    CHECK(dvs_range_free(space, range, NULL) == DVS_OK);
    dvs_address_allocator_destroy(space);
}

/* ---- On a small stack ---- */

/* Appends to a text. */
static void add(char **end, const char *piece) {
    strcpy(*end, piece);
    *end += strlen(piece);
}

/* Writes the text of a chain of nodes, each the right child of the one before. */
static char *chain_of_nodes(int levels) {
    char *text = (char *)malloc(200 * (size_t)levels), *end = text;
    int i;

    CHECK(text != NULL);
    add(&end, "{\"address_space\":{\"start\":0,\"end\":99},\"interval_tree\":{\"root\":");
    for (i = 0; i < levels; i++)
        end += sprintf(end,
                       "{\"key\":{\"start\":%d,\"end\":%d},\"node_state\":\"Allocated\","
                       "\"left\":null,\"height\":1,\"right\":",
                       2 * i, 2 * i);
    add(&end, "null");
    for (i = 0; i < levels + 2; i++)
        add(&end, "}");
    return text;
}

static void *go_deep(void *context) {
    static char brackets[100000];
    dvs_address_allocator *space, *copied;
    bool are_equal = false;
    char *text = chain_of_nodes(LEVELS), *too_deep = chain_of_nodes(LEVELS + 1);
    uint64_t count;
    size_t length;
    int levels;

    (void)context;
    memset(brackets, '[', sizeof brackets);
    CHECK(dvs_address_allocator_read(brackets, sizeof brackets, &space) == DVS_NOT_JSON);
    for (levels = 128; levels <= 129; levels++) {
        memset(brackets + levels, ']', (size_t)levels);
        CHECK(dvs_address_allocator_read(brackets, 2 * (size_t)levels, &space) ==
              (levels == 128 ? DVS_NOT_A_STATE : DVS_NOT_JSON));
        memset(brackets, '[', sizeof brackets);
    }
    CHECK(dvs_address_allocator_read(text, strlen(text), &space) == DVS_NOT_A_STATE);
    CHECK(dvs_address_allocator_read_repaired(too_deep, strlen(too_deep), &space) ==
          DVS_NOT_A_STATE);
    CHECK(dvs_address_allocator_read_repaired(text, strlen(text), &space) == DVS_OK);
    free(too_deep);
    free(text);
    CHECK(dvs_range_count(space, &count) == DVS_OK && count == LEVELS);
    dvs_text_destroy(saved_space(space, &length));
    CHECK(dvs_address_allocator_copy(space, &copied) == DVS_OK);
    CHECK(dvs_address_allocator_equal(space, copied, &are_equal) == DVS_OK && are_equal);
    dvs_address_allocator_destroy(copied);
    dvs_address_allocator_destroy(space);
    return NULL;
}

static void run_on_small_stack(void) {
    pthread_t thread;
    pthread_attr_t small;

    CHECK(pthread_attr_init(&small) == 0);
    CHECK(pthread_attr_setstacksize(&small, SMALL_STACK) == 0);
    run(&thread, &small, go_deep, NULL);
    join_all(&thread, 1);
    CHECK(pthread_attr_destroy(&small) == 0);
}

int main(void) {
    use_own_objects();
    hand_on();
    look_together();
    visit_together();
    run_on_small_stack();
    puts("threads: separate, passed on, queried and visited objects checked");
    return 0;
}
