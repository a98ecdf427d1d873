/* SPDX-License-Identifier: Apache-2.0 OR BSD-3-Clause */
/*
 * The replay program in C: tests compare its output with that of the proved program.
 *
 * It reads one call per line and prints one result per line. docs/REPLAY.md has the
 * language. The exit status is 0 at the end of the input, 1 if a read fails, and 2 if
 * a write fails.
 */
#include <divsharun.h>

#include <inttypes.h>
#include <stdio.h>
#include <string.h>

enum { MOST_BYTES = 120, MOST_NUMBERS = 4, MOST_DIGITS = 20 };

/* The objects that the lines so far have created, or null. */
struct session {
    dvs_address_allocator *space;
    dvs_id_allocator *ids;
    dvs_device_manager *manager;
};

/* Bytes without a terminating zero. */
struct text {
    const char *bytes;
    size_t length;
};

static void refuse(dvs_status status, const dvs_refusal *refusal) {
    switch (status) {
    case DVS_OVERFLOW:
        puts("error overflow");
        break;
    case DVS_OUT_OF_RANGE:
        printf("error out-of-range %" PRIu32 "\n", refusal->id);
        break;
    case DVS_ALREADY_RELEASED:
        printf("error already-released %" PRIu32 "\n", refusal->id);
        break;
    case DVS_NEVER_ALLOCATED:
        printf("error never-allocated %" PRIu32 "\n", refusal->id);
        break;
    case DVS_RESOURCE_NOT_AVAILABLE:
        puts("error not-available");
        break;
    case DVS_INVALID_RANGE:
        printf("error invalid-range %" PRIu64 " %" PRIu64 "\n", refusal->range.start,
               refusal->range.end);
        break;
    case DVS_INVALID_ALIGNMENT:
        puts("error invalid-alignment");
        break;
    case DVS_INVALID_STATE_TRANSITION:
        printf("error state %" PRIu64 " %" PRIu64 "\n", refusal->range.start, refusal->range.end);
        break;
    case DVS_UNALIGNED_ADDRESS:
        puts("error unaligned");
        break;
    case DVS_UNDERFLOW:
        puts("error underflow");
        break;
    case DVS_INVALID_SIZE:
        printf("error invalid-size %" PRIu64 "\n", refusal->size);
        break;
    case DVS_OUT_OF_MEMORY:
        puts("error memory");
        break;
    default:
        printf("error %s\n", dvs_status_text(status));
    }
}

static void tell_done(dvs_status status, const dvs_refusal *refusal) {
    if (status == DVS_OK)
        puts("done");
    else
        refuse(status, refusal);
}

static void tell_range(dvs_status status, dvs_range range, const dvs_refusal *refusal) {
    if (status == DVS_OK)
        printf("range %" PRIu64 " %" PRIu64 "\n", range.start, range.end);
    else
        refuse(status, refusal);
}

static void tell_id(dvs_status status, uint32_t id, const dvs_refusal *refusal) {
    if (status == DVS_OK)
        printf("id %" PRIu32 "\n", id);
    else
        refuse(status, refusal);
}

/* ---- The calls, one per kind of line ---- */

static void make_space(struct session *session, const uint64_t *number) {
    dvs_address_allocator *space;
    dvs_refusal none = {0};
    dvs_status status = dvs_address_allocator_new(number[0], number[1], &space);

    if (status == DVS_OK) {
        dvs_address_allocator_destroy(session->space);
        session->space = space;
    }
    tell_done(status, &none);
}

static void allocate_first(struct session *session, const uint64_t *number) {
    dvs_range range = {0};
    dvs_refusal refusal;
    dvs_status status =
        dvs_range_allocate_first(session->space, number[0], number[1], &range, &refusal);

    tell_range(status, range, &refusal);
}

static void allocate_last(struct session *session, const uint64_t *number) {
    dvs_range range = {0};
    dvs_refusal refusal;
    dvs_status status =
        dvs_range_allocate_last(session->space, number[0], number[1], &range, &refusal);

    tell_range(status, range, &refusal);
}

static void allocate_exact(struct session *session, const uint64_t *number) {
    dvs_range range = {0};
    dvs_refusal refusal;
    dvs_status status =
        dvs_range_allocate_exact(session->space, number[0], number[1], number[2], &range, &refusal);

    tell_range(status, range, &refusal);
}

static void free_range(struct session *session, const uint64_t *number) {
    dvs_range range;
    dvs_refusal refusal;

    range.start = number[0];
    range.end = number[1];
    tell_done(dvs_range_free(session->space, range, &refusal), &refusal);
}

static void make_ids(struct session *session, const uint64_t *number) {
    dvs_id_allocator *ids;
    dvs_refusal refusal;
    dvs_status status =
        dvs_id_allocator_new((uint32_t)number[0], (uint32_t)number[1], &ids, &refusal);

    if (status == DVS_OK) {
        dvs_id_allocator_destroy(session->ids);
        session->ids = ids;
    }
    tell_done(status, &refusal);
}

static void allocate_id(struct session *session, const uint64_t *number) {
    uint32_t id = 0;
    dvs_refusal none = {0};
    dvs_status status = dvs_id_allocate(session->ids, &id);

    (void)number;
    tell_id(status, id, &none);
}

static void free_id(struct session *session, const uint64_t *number) {
    uint32_t id = (uint32_t)number[0];
    dvs_refusal refusal;
    dvs_status status = dvs_id_free(session->ids, id, &refusal);

    tell_id(status, id, &refusal);
}

static void has_id(struct session *session, const uint64_t *number) {
    bool has;
    dvs_status status = dvs_id_is_allocated(session->ids, (uint32_t)number[0], &has);

    puts(status == DVS_OK && has ? "yes" : "no");
}

static void make_manager(struct session *session, const uint64_t *number) {
    dvs_device_manager *manager;
    dvs_refusal refusal;
    dvs_status status = dvs_device_manager_new((uint32_t)number[0], (uint32_t)number[1], number[2],
                                               number[3], &manager, &refusal);

    if (status == DVS_OK) {
        dvs_device_manager_destroy(session->manager);
        session->manager = manager;
    }
    tell_done(status, &refusal);
}

static void reserve_device(struct session *session, const uint64_t *number) {
    dvs_device device;
    dvs_refusal refusal;
    dvs_status status =
        dvs_device_reserve_first(session->manager, number[0], number[1], &device, &refusal);

    if (status == DVS_OK)
        printf("device %" PRIu32 " %" PRIu64 " %" PRIu64 "\n", device.id, device.range.start,
               device.range.end);
    else
        refuse(status, &refusal);
}

static void release_device(struct session *session, const uint64_t *number) {
    dvs_refusal refusal;

    tell_done(dvs_device_release(session->manager, (uint32_t)number[0], &refusal), &refusal);
}

/* ---- The lines ---- */

/* The object that a call needs. */
enum object { NOTHING, SPACE, IDS, MANAGER };

static const struct kind {
    const char *word;
    void (*call)(struct session *session, const uint64_t *number);
    enum object on;
    size_t numbers;
    /* The number of leading numbers that are 32-bit ids. */
    size_t ids;
} kinds[] = {
    {"space", make_space, NOTHING, 2, 0},
    {"first", allocate_first, SPACE, 2, 0},
    {"last", allocate_last, SPACE, 2, 0},
    {"exact", allocate_exact, SPACE, 3, 0},
    {"free", free_range, SPACE, 2, 0},
    {"ids", make_ids, NOTHING, 2, 2},
    {"id", allocate_id, IDS, 0, 0},
    {"unid", free_id, IDS, 1, 1},
    {"has", has_id, IDS, 1, 1},
    {"manager", make_manager, NOTHING, 4, 2},
    {"device", reserve_device, MANAGER, 2, 0},
    {"undevice", release_device, MANAGER, 1, 1},
};

/* Removes the first word of a line, with the space after it. */
static struct text take_word(struct text *line) {
    struct text word = *line;
    const char *space = memchr(line->bytes, ' ', line->length);

    if (space != NULL)
        word.length = (size_t)(space - line->bytes);
    line->bytes += word.length + (space != NULL);
    line->length -= word.length + (space != NULL);
    return word;
}

static const struct kind *kind_of(struct text word) {
    size_t i;

    for (i = 0; i < sizeof kinds / sizeof kinds[0]; i++)
        if (strlen(kinds[i].word) == word.length &&
            memcmp(kinds[i].word, word.bytes, word.length) == 0)
            return &kinds[i];
    return NULL;
}

/* Reads a number of at most `most`. Returns false for any other word. */
static bool read_number(struct text word, uint64_t most, uint64_t *number) {
    uint64_t value = 0;
    size_t i;

    if (word.length == 0 || word.length > MOST_DIGITS)
        return false;
    for (i = 0; i < word.length; i++) {
        uint64_t digit = (uint64_t)(unsigned char)word.bytes[i] - '0';

        if (digit > 9 || value > (most - digit) / 10)
            return false;
        value = value * 10 + digit;
    }
    *number = value;
    return true;
}

/* Reads the numbers after the word of a line. Returns false for anything else. */
static bool read_numbers(const struct kind *kind, struct text rest, bool is_last,
                         uint64_t *number) {
    size_t i;

    for (i = 0; i < kind->numbers; i++) {
        struct text word;

        if (is_last)
            return false;
        is_last = memchr(rest.bytes, ' ', rest.length) == NULL;
        word = take_word(&rest);
        if (!read_number(word, i < kind->ids ? UINT32_MAX : UINT64_MAX, &number[i]))
            return false;
    }
    return is_last;
}

/* Returns the name of the object that a call needs and that does not exist, or NULL. */
static const char *missing(const struct session *session, enum object on) {
    if (on == SPACE && session->space == NULL)
        return "space";
    if (on == IDS && session->ids == NULL)
        return "ids";
    if (on == MANAGER && session->manager == NULL)
        return "manager";
    return NULL;
}

static void answer(struct session *session, struct text line) {
    uint64_t number[MOST_NUMBERS];
    bool is_last = memchr(line.bytes, ' ', line.length) == NULL;
    const struct kind *kind = kind_of(take_word(&line));

    if (kind == NULL || !read_numbers(kind, line, is_last, number))
        puts("error line");
    else if (missing(session, kind->on) != NULL)
        printf("error no-%s\n", missing(session, kind->on));
    else
        kind->call(session, number);
}

/* Makes the call of a line of `length` bytes. `bytes` has at most the first MOST_BYTES of them. */
static void answer_line(struct session *session, const char *bytes, size_t length) {
    struct text line;

    line.bytes = bytes;
    line.length = length;
    if (length > MOST_BYTES)
        puts("error line");
    else
        answer(session, line);
}

static void answer_lines(struct session *session) {
    char bytes[MOST_BYTES];
    size_t length = 0;
    int byte;

    while ((byte = getchar()) != EOF) {
        if (byte == '\n') {
            answer_line(session, bytes, length);
            length = 0;
            continue;
        }
        if (length < MOST_BYTES)
            bytes[length] = (char)byte;
        length++;
    }
    if (length > 0)
        answer_line(session, bytes, length);
}

int main(void) {
    struct session session = {NULL, NULL, NULL};

    answer_lines(&session);
    dvs_address_allocator_destroy(session.space);
    dvs_id_allocator_destroy(session.ids);
    dvs_device_manager_destroy(session.manager);
    if (ferror(stdin))
        return 1;
    return fflush(stdout) == 0 && !ferror(stdout) ? 0 : 2;
}
