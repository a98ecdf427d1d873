/* SPDX-License-Identifier: Apache-2.0 OR BSD-3-Clause */
/*
 * Prints the time of a call through C and of the same call through Rust. Rounds
 * of both alternate in one process. The fastest round of each counts, because
 * other work on the machine only adds time.
 */
#define _POSIX_C_SOURCE 200809L
#include <divsharun.h>

#include <stdio.h>
#include <stdlib.h>
#include <time.h>

#define COUNT 1000
#define ROUNDS 2000

struct request {
    uint64_t size;
    uint64_t alignment;
    uint64_t start;
};

uint64_t rust_exact(const struct request *held, const uint64_t *freed, size_t count);
uint64_t rust_first(const struct request *held, size_t count);

static struct request held[COUNT];
static uint64_t freed[COUNT];

static void check(bool holds) {
    if (!holds) {
        fputs("speed: a call fails, or returns a wrong result\n", stderr);
        exit(1);
    }
}

static dvs_address_allocator *new_space(void) {
    dvs_address_allocator *space;

    check(dvs_address_allocator_new(0, (uint64_t)1 << 40, &space) == DVS_OK);
    return space;
}

static uint64_t c_exact(void) {
    dvs_address_allocator *space = new_space();
    dvs_range range;
    uint64_t sum = 0;
    size_t i;

    for (i = 0; i < COUNT; i++) {
        check(dvs_range_allocate_exact(space, held[i].size, held[i].alignment, held[i].start,
                                       &range, NULL) == DVS_OK);
        sum += range.end;
    }
    for (i = 0; i < COUNT; i++) {
        range.start = range.end = freed[i];
        check(dvs_range_free(space, range, NULL) == DVS_OK);
    }
    dvs_address_allocator_destroy(space);
    return sum;
}

static uint64_t through_rust_exact(void) {
    return rust_exact(held, freed, COUNT);
}

static uint64_t c_first(void) {
    dvs_address_allocator *space = new_space();
    dvs_range range;
    uint64_t sum = 0;
    size_t i;

    for (i = 0; i < COUNT; i++) {
        check(dvs_range_allocate_first(space, held[i].size, held[i].alignment, &range, NULL) ==
              DVS_OK);
        sum += range.end;
    }
    dvs_address_allocator_destroy(space);
    return sum;
}

static uint64_t through_rust_first(void) {
    return rust_first(held, COUNT);
}

static double nanoseconds(uint64_t (*round)(void), uint64_t sum) {
    struct timespec before, after;

    clock_gettime(CLOCK_MONOTONIC, &before);
    check(round() == sum);
    clock_gettime(CLOCK_MONOTONIC, &after);
    return (double)(after.tv_sec - before.tv_sec) * 1e9 + (double)(after.tv_nsec - before.tv_nsec);
}

static double lesser(double one, double other) {
    return one < other ? one : other;
}

static void compare(const char *name, uint64_t (*c)(void), uint64_t (*rust)(void), int calls) {
    uint64_t sum = rust();
    double through_rust = nanoseconds(rust, sum), through_c = nanoseconds(c, sum);
    int i;

    for (i = 0; i < ROUNDS; i++) {
        through_rust = lesser(through_rust, nanoseconds(rust, sum));
        through_c = lesser(through_c, nanoseconds(c, sum));
    }
    printf("%s: %.1f ns per call through C, %.1f through Rust, %.1f more\n", name,
           through_c / calls, through_rust / calls, (through_c - through_rust) / calls);
}

/* Shuffles starts that are not adjacent. */
static void draw(uint64_t *starts, uint64_t seed) {
    size_t i;

    for (i = 0; i < COUNT; i++)
        starts[i] = 2 * i;
    for (i = COUNT - 1; i > 0; i--) {
        size_t other;
        uint64_t start = starts[i];

        seed = seed * 6364136223846793005u + 1442695040888963407u;
        other = (size_t)((seed >> 33) % (i + 1));
        starts[i] = starts[other];
        starts[other] = start;
    }
}

int main(void) {
    static uint64_t starts[COUNT];
    size_t i;

    draw(starts, 1);
    draw(freed, 2);
    for (i = 0; i < COUNT; i++) {
        held[i].size = held[i].alignment = 1;
        held[i].start = starts[i];
    }
    compare("exact and free", c_exact, through_rust_exact, 2 * COUNT);
    compare("first", c_first, through_rust_first, COUNT);
    return 0;
}
