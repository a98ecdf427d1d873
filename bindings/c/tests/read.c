/* SPDX-License-Identifier: Apache-2.0 OR BSD-3-Clause */
/*
 * Reads texts for random_texts.py. The input is a line with the reader and the
 * number of bytes, and then these bytes. The output is a line with the status,
 * the offset and the field of the fault, and the saved text of an object.
 */
#include "check.h"

SAVED(saved_space, dvs_address_allocator)
SAVED(saved_ids, dvs_id_allocator)
SAVED(saved_devices, dvs_device_manager)

/* The fault of the last text. */
static dvs_text_fault fault;

static void tell(dvs_status status, char *saved) {
    const char *field = status == DVS_OK || fault.field == NULL ? "-" : fault.field;

    printf("%d %lu %s %s\n", (int)status, status == DVS_OK ? 0 : (unsigned long)fault.offset, field,
           saved == NULL ? "" : saved);
    if (saved != NULL)
        dvs_text_destroy(saved);
}

static void read_space(const char *text, size_t length, bool is_repaired) {
    dvs_address_allocator *space = NULL;
    dvs_status status =
        is_repaired ? dvs_address_allocator_read_repaired_within(text, length, NULL, &space, &fault)
                    : dvs_address_allocator_read_within(text, length, NULL, &space, &fault);

    tell(status, status == DVS_OK ? saved_space(space, &length) : NULL);
    dvs_address_allocator_destroy(space);
}

static void read_ids(const char *text, size_t length) {
    dvs_id_allocator *ids = NULL;
    dvs_status status = dvs_id_allocator_read_within(text, length, NULL, &ids, &fault);

    tell(status, status == DVS_OK ? saved_ids(ids, &length) : NULL);
    dvs_id_allocator_destroy(ids);
}

static void read_devices(const char *text, size_t length) {
    dvs_device_manager *manager = NULL;
    dvs_status status = dvs_device_manager_read_within(text, length, NULL, &manager, &fault);

    tell(status, status == DVS_OK ? saved_devices(manager, &length) : NULL);
    dvs_device_manager_destroy(manager);
}

static void read_text(char reader, const char *text, size_t length) {
    switch (reader) {
    case 's':
    case 'r':
        read_space(text, length, reader == 'r');
        break;
    case 'i':
        read_ids(text, length);
        break;
    default:
        read_devices(text, length);
    }
}

int main(void) {
    char reader;
    unsigned long length;

    while (scanf("%c%lu", &reader, &length) == 2 && getchar() == '\n') {
        /* Allocates exactly the bytes of the text, so that reading past them is noticed. */
        char *text = (char *)malloc(length == 0 ? 1 : length);

        CHECK(text != NULL && fread(text, 1, length, stdin) == length);
        read_text(reader, text, length);
        free(text);
    }
    CHECK(feof(stdin));
    return 0;
}
