/* SPDX-License-Identifier: Apache-2.0 OR BSD-3-Clause */
/*
 * Guards against a wrong time of speed.c. It is linked with this library, whose calls take a known
 * time of this clock: one round of each call less than the others.
 */
#define _POSIX_C_SOURCE 200809L
#include <divsharun.h>

#include <time.h>

/* Nanoseconds. */
static long now;
/* How often each call was measured. */
static int rounds[4];

int clock_gettime(clockid_t clock, struct timespec *time) {
    (void)clock;
    time->tv_sec = now / 1000000000;
    time->tv_nsec = now % 1000000000;
    return 0;
}

/* Begins a round of a call, and returns by how much longer it takes than the fastest one. */
static long begun(int call) {
    return rounds[call]++ != 500;
}

/* The result of `begun` in this round, or -1 before its first call. */
static long slower;

dvs_status dvs_address_allocator_new(uint64_t base, uint64_t size, dvs_address_allocator **made) {
    (void)base, (void)size;
    *made = NULL;
    slower = -1;
    return DVS_OK;
}

dvs_status dvs_address_allocator_destroy(dvs_address_allocator *space) {
    return (void)space, DVS_OK;
}

static dvs_status take(int call, long time, dvs_range *range) {
    if (slower < 0)
        slower = begun(call);
    now += time + slower;
    range->end = 3;
    return DVS_OK;
}

dvs_status dvs_range_allocate_exact(dvs_address_allocator *space, uint64_t size, uint64_t alignment,
                                    uint64_t start, dvs_range *range, dvs_refusal *refusal) {
    (void)space, (void)size, (void)alignment, (void)start, (void)refusal;
    return take(0, 10, range);
}

dvs_status dvs_range_allocate_first(dvs_address_allocator *space, uint64_t size, uint64_t alignment,
                                    dvs_range *range, dvs_refusal *refusal) {
    (void)space, (void)size, (void)alignment, (void)refusal;
    return take(1, 9, range);
}

dvs_status dvs_range_free(dvs_address_allocator *space, dvs_range range, dvs_refusal *refusal) {
    (void)space, (void)refusal;
    return take(0, 20, &range);
}

uint64_t rust_exact(const void *held, const uint64_t *freed, size_t count) {
    (void)held, (void)freed;
    now += (long)count * (14 + begun(2));
    return 3 * count;
}

uint64_t rust_first(const void *held, size_t count) {
    (void)held;
    now += (long)count * (4 + begun(3));
    return 3 * count;
}
