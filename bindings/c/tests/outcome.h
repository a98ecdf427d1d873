/* SPDX-License-Identifier: Apache-2.0 OR BSD-3-Clause */
/* The outcome of a call. Before each call all results and details have the same byte. */
#ifndef OUTCOME_H
#define OUTCOME_H

#include "check.h"

#define TOP UINT64_MAX
#define ROWS(rows) rows, sizeof rows / sizeof rows[0]

enum { STATUSES = DVS_LIMIT_EXCEEDED + 1 };

/* The byte of a result or detail that was not written, and the numbers of such bytes. */
enum { UNTOUCHED = 0xa5 };
#define NO_ID 0xa5a5a5a5
#define NO_NUMBER 0xa5a5a5a5a5a5a5a5

static bool seen[STATUSES];

/* The results and the details of a call. A result that is a number is the start of the range. */
static struct {
    dvs_device device;
    dvs_range ranges[2];
    dvs_refusal conflict;
    uint32_t several[2];
    dvs_address_allocator *space;
    dvs_id_allocator *ids;
    dvs_device_manager *manager;
    dvs_range_map *map;
    dvs_valued_range found;
    char *text;
    size_t length;
    uint32_t last;
    bool flag;
} results;
static dvs_refusal refusal;
static dvs_text_fault fault;

static bool is_untouched(const void *bytes, size_t length) {
    const unsigned char *byte = (const unsigned char *)bytes;

    while (length > 0 && byte[length - 1] == UNTOUCHED)
        length--;
    return length == 0;
}

static void prepare(void) {
    memset(&results, UNTOUCHED, sizeof results);
    memset(&refusal, UNTOUCHED, sizeof refusal);
    memset(&fault, UNTOUCHED, sizeof fault);
}

/* Records that a status was returned. */
static dvs_status noted(dvs_status status) {
    CHECK(status < STATUSES);
    seen[status] = true;
    return status;
}

struct outcome {
    dvs_status status;
    /* The result of a call that succeeds. Otherwise details of its error, as those below. */
    dvs_range range;
    uint32_t id;
    uint32_t cause;
    dvs_range other;
};

#define GETS_DEVICE(id, start, end)                                                                \
    {                                                                                              \
        DVS_OK, {start, end}, id, 0, {                                                             \
            0, 0                                                                                   \
        }                                                                                          \
    }
#define GETS(start, end) GETS_DEVICE(NO_ID, start, end)
#define GETS_NUMBER(number) GETS(number, NO_NUMBER)
#define GETS_ID(id) GETS_DEVICE(id, NO_NUMBER, NO_NUMBER)
#define SUCCEEDS GETS_NUMBER(NO_NUMBER)
/* An error of a call without details. */
#define ENDS(status)                                                                               \
    {                                                                                              \
        status, {NO_NUMBER, NO_NUMBER}, NO_ID, NO_ID, {                                            \
            NO_NUMBER, NO_NUMBER                                                                   \
        }                                                                                          \
    }
#define TELLS(status, start, end)                                                                  \
    {                                                                                              \
        status, {start, end}, 0, DVS_CAUSE_NONE, {                                                 \
            0, 0                                                                                   \
        }                                                                                          \
    }
#define TELLS_ID(status, id)                                                                       \
    {                                                                                              \
        status, {0, 0}, id, DVS_CAUSE_NONE, {                                                      \
            0, 0                                                                                   \
        }                                                                                          \
    }
#define FAILS(status) TELLS(status, 0, 0)
#define NO_PLACE FAILS(DVS_RESOURCE_NOT_AVAILABLE)
#define NO_FIT(start, end)                                                                         \
    {                                                                                              \
        DVS_RESOURCE_NOT_AVAILABLE, {0, 0}, 0, DVS_CAUSE_NO_FIT, {                                 \
            start, end                                                                             \
        }                                                                                          \
    }
#define IN_THE_WAY(start, end, cause, from, to)                                                    \
    {                                                                                              \
        DVS_RESOURCE_NOT_AVAILABLE, {start, end}, 0, DVS_CAUSE_##cause, {                          \
            from, to                                                                               \
        }                                                                                          \
    }
#define IS_TAKEN(start, end)                                                                       \
    {                                                                                              \
        DVS_INVALID_STATE_TRANSITION, {start, end}, 0, DVS_CAUSE_ALLOCATED, {                      \
            start, end                                                                             \
        }                                                                                          \
    }

/* divsharun.h: "An error leaves the results and the object unchanged."
 * divsharun.h: "An error writes all members, with 0 or NULL for those without a meaning. DVS_OK
 * writes none." */

/* Returns whether a call returned this status, wrote its result or all details, and nothing else.
 */
static inline bool has_outcome(const struct outcome *expected, dvs_status status) {
    dvs_refusal told = {expected->range, expected->other, 0, expected->id, expected->cause};

    if (noted(status) != expected->status)
        return false;
    if (status == DVS_OK)
        return is_untouched(&refusal, sizeof refusal) && results.device.id == expected->id &&
               is_range(results.device.range, expected->range.start, expected->range.end);
    if (expected->id == NO_ID)
        told.size = NO_NUMBER;
    return is_untouched(&results, sizeof results) && memcmp(&refusal, &told, sizeof told) == 0;
}

#endif
