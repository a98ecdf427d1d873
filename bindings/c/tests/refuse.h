/* SPDX-License-Identifier: Apache-2.0 OR BSD-3-Clause */
/*
 * Counts allocations and their bytes, and fails one of them. The linker option --wrap directs all
 * allocations to this file.
 */
#ifndef REFUSE_H
#define REFUSE_H

#include <errno.h>
#include <malloc.h>
#include <stdbool.h>
#include <stddef.h>

/* The number of allocations up to the one that fails, or 0 if none fails. */
static unsigned long until_refused;
/* The number of blocks that are allocated, their bytes, and the maximum of the bytes. */
#ifndef blocks
static long blocks;
#endif
static size_t bytes, most_bytes;

/* Returns the bytes of a block, with the word that glibc's malloc adds. */
static size_t size_of(void *block) {
    return block == NULL ? 0 : malloc_usable_size(block) + sizeof(size_t);
}

static void count_given(void *block) {
    blocks += block != NULL;
    bytes += size_of(block);
    if (bytes > most_bytes)
        most_bytes = bytes;
}

static bool is_refused(void) {
    return until_refused > 0 && --until_refused == 0;
}

void *__real_malloc(size_t size);
void *__real_calloc(size_t count, size_t size);
void *__real_realloc(void *old, size_t size);
int __real_posix_memalign(void **block, size_t alignment, size_t size);
void __real_free(void *old);

void *__wrap_malloc(size_t size) {
    void *block = is_refused() ? NULL : __real_malloc(size);

    count_given(block);
    return block;
}

void *__wrap_calloc(size_t count, size_t size) {
    void *block = is_refused() ? NULL : __real_calloc(count, size);

    count_given(block);
    return block;
}

void *__wrap_realloc(void *old, size_t size) {
    size_t before = size_of(old);
    void *block = is_refused() ? NULL : __real_realloc(old, size);

    /* Both blocks are allocated while the bytes are copied. */
    count_given(block);
    if (block != NULL) {
        blocks -= old != NULL;
        bytes -= before;
    }
    return block;
}

int __wrap_posix_memalign(void **block, size_t alignment, size_t size) {
    int failed = is_refused() ? ENOMEM : __real_posix_memalign(block, alignment, size);

    if (!failed)
        count_given(*block);
    return failed;
}

void __wrap_free(void *old) {
    blocks -= old != NULL;
    bytes -= size_of(old);
    __real_free(old);
}

#endif
