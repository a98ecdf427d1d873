/* SPDX-License-Identifier: Apache-2.0 OR BSD-3-Clause */
/* Runs the examples of divsharun.h. */
#include "check.h"

static int allocate_bar(void) {
    /* clang-format off */
    // The I/O APIC, the local APICs with MSI, and the firmware of x86.
    const dvs_range taken[] = {
        {0xfec00000, 0xfec00fff}, {0xfee00000, 0xfeefffff}, {0xffc00000, 0xffffffff}};
    dvs_address_allocator *mmio;
    dvs_range bar;

    if (dvs_address_allocator_with_held(0xd0000000, 0x30000000, taken, 3, &mmio, NULL,
                                        NULL) != DVS_OK)
        return -1;
    if (dvs_range_allocate_first(mmio, 0x1000, 0x1000, &bar, NULL) == DVS_OK)
        dvs_range_free(mmio, bar, NULL);
    dvs_address_allocator_destroy(mmio);
    /* clang-format on */
    return is_range(bar, 0xd0000000, 0xd0000fff) ? 0 : -1;
}

static int keep_first(void *context, dvs_range range) {
    *(dvs_range *)context = range;
    return 1;
}

/* divsharun.h: "Here the hole is from 0x2000 to 0x2fff" */
static void free_lowest(void) {
    const dvs_range ranges[] = {{0x1000, 0x1fff}, {0x3000, 0x3fff}};
    dvs_address_allocator *mmio;
    uint64_t count;

    CHECK(dvs_address_allocator_with_free(ranges, 2, &mmio, NULL, NULL) == DVS_OK);
    dvs_range lowest = {1, 0};

    if (dvs_range_visit(mmio, keep_first, &lowest) == DVS_OK && lowest.start <= lowest.end)
        dvs_range_free(mmio, lowest, NULL);
    CHECK(is_range(lowest, 0x2000, 0x2fff));
    CHECK(dvs_range_count(mmio, &count) == DVS_OK && count == 0);
    dvs_address_allocator_destroy(mmio);
}

static dvs_address_allocator *read_within_limits(const char *text, size_t length) {
    dvs_address_allocator *mmio = NULL;
    const dvs_text_limits limits = {.length = 1 << 20, .depth = 64};
    dvs_text_fault fault;

    if (dvs_address_allocator_read_within(text, length, &limits, &mmio, &fault) != DVS_OK)
        fprintf(stderr, "byte %zu: %s\n", fault.offset, fault.reason ? fault.reason : "");
    return mmio;
}

static void read_saved(void) {
    dvs_address_allocator *space, *copied;
    char *text;
    size_t length;

    CHECK(dvs_address_allocator_new(0, 16, &space) == DVS_OK);
    CHECK(dvs_address_allocator_save(space, &text, &length) == DVS_OK);
    copied = read_within_limits(text, length);
    CHECK(copied != NULL);
    dvs_address_allocator_destroy(copied);
    dvs_address_allocator_destroy(space);
    dvs_text_destroy(text);
}

/* divsharun.h: "These ids skip a run, from 33 to 238" */
static void skip_run(void) {
    const uint32_t held[] = {32, 239};
    dvs_id_allocator *ids;
    uint32_t id;

    CHECK(dvs_id_allocator_with_held(32, 255, held, 2, &ids, NULL) == DVS_OK);
    for (uint32_t next = 33; next <= 238; next++)
        CHECK(dvs_id_allocate(ids, &id) == DVS_OK && id == next);
    CHECK(dvs_id_allocate(ids, &id) == DVS_OK && id == 240);
    dvs_id_allocator_destroy(ids);
}

static void copy_addresses(void) {
    dvs_device_manager *bus;
    dvs_address_allocator *copied;
    dvs_status status = DVS_NULL;
    uint64_t length;

    CHECK(dvs_device_manager_new(5, 9, 0, 64, &bus, NULL) == DVS_OK);
    if (dvs_device_manager_copy_addresses(bus, &copied) == DVS_OK) {
        status = dvs_longest_gap(copied, &length);
        dvs_address_allocator_destroy(copied);
    }
    CHECK(status == DVS_OK && length == 64);
    dvs_device_manager_destroy(bus);
}

static int free_value(void *context, dvs_valued_range found) {
    (void)context;
    free((void *)(uintptr_t)found.value);
    return 0;
}

static void keep_pointers(void) {
    const dvs_request request = {8, 8, 0, DVS_FIRST, 0, 0};
    dvs_range_map *map;
    dvs_range range;
    dvs_status status;
    char *disk = malloc(1);

    CHECK(dvs_range_map_new(0, 64, &map) == DVS_OK);
    status = dvs_range_map_allocate(map, (uintptr_t)disk, &request, &range, NULL);
    CHECK(status == DVS_OK);
    if (dvs_range_map_visit(map, free_value, NULL) == DVS_OK)
        dvs_range_map_destroy(map);
}

static void print_ranges(const dvs_address_allocator *mmio) {
    dvs_range ranges[64];
    uint64_t from = 0;
    size_t count, i;

    do {
        if (dvs_range_list(mmio, from, ranges, 64, &count) != DVS_OK)
            return;
        for (i = 0; i < count; i++) {
            printf("%#jx\n", (uintmax_t)ranges[i].start);
            from = ranges[i].end + 1;
        }
    } while (count == 64);
}

/* 130 ranges of one address. */
static void print_many(void) {
    dvs_address_allocator *mmio;
    dvs_range range;
    int i;

    CHECK(dvs_address_allocator_new(0, 256, &mmio) == DVS_OK);
    for (i = 0; i < 130; i++)
        CHECK(dvs_range_allocate_first(mmio, 1, 1, &range, NULL) == DVS_OK);
    print_ranges(mmio);
    dvs_address_allocator_destroy(mmio);
}

int main(void) {
    print_many();
    CHECK(allocate_bar() == 0);
    free_lowest();
    read_saved();
    skip_run();
    copy_addresses();
    keep_pointers();
    puts("header: the examples checked");
    return 0;
}
