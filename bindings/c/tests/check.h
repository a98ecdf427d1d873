/* SPDX-License-Identifier: Apache-2.0 OR BSD-3-Clause */
/* Functions and macros that the tests share. */
#ifndef CHECK_H
#define CHECK_H

#include <divsharun.h>

#include <stdio.h>
#include <stdlib.h>
#include <string.h>

/* Ends the program if a condition is false. */
#define CHECK(holds)                                                                               \
    do {                                                                                           \
        if (!(holds)) {                                                                            \
            fprintf(stderr, "%s:%d: %s\n", __FILE__, __LINE__, #holds);                            \
            exit(1);                                                                               \
        }                                                                                          \
    } while (0)

static inline dvs_range range_of(uint64_t start, uint64_t end) {
    dvs_range range;

    range.start = start;
    range.end = end;
    return range;
}

static inline bool is_range(dvs_range range, uint64_t start, uint64_t end) {
    return range.start == start && range.end == end;
}

/* Defines a function that returns the saved text of an object. The caller frees it. */
#define SAVED(name, type)                                                                          \
    static inline char *name(const type *object, size_t *length) {                                 \
        char *text;                                                                                \
                                                                                                   \
        CHECK(type##_save(object, &text, length) == DVS_OK);                                       \
        CHECK(strlen(text) == *length);                                                            \
        return text;                                                                               \
    }

#endif
