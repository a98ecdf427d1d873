/*
 * The space of replay.c and window.c: with Linux's drm_mm, with its maple tree, or with the C library of this
 * repository.
 */
#ifndef SPACE_H
#define SPACE_H

#include <stdbool.h>
#include <stdint.h>

void make_space(uint64_t base, uint64_t size);

/* Each of these returns whether it succeeded, and writes the start of the range. */
bool allocate_first(uint64_t size, uint64_t alignment, uint64_t *start);
bool allocate_last(uint64_t size, uint64_t alignment, uint64_t *start);
bool allocate_exact(uint64_t size, uint64_t alignment, uint64_t *start);

/* Allocates the highest or the lowest range in the window from `first` to `last`. */
bool allocate_within(uint64_t first, uint64_t last, uint64_t size, uint64_t alignment, bool is_highest,
		     uint64_t *start);

/* Returns `true` if exactly this range was allocated. */
bool free_range(uint64_t first, uint64_t last);

#endif
