/* SPDX-License-Identifier: Apache-2.0 OR BSD-3-Clause */
/* Plugs the cards and the devices of a small machine, and saves and restores its addresses. */
#include <divsharun.h>

#include <inttypes.h>
#include <stdio.h>
#include <stdlib.h>

/* One space has the addresses of all BARs. A 32-bit BAR lies below the interrupt controllers, which
 * start at 0xfec00000. A 64-bit BAR lies above 4 GiB. */
#define LAST_BELOW 0xfebfffff
#define FIRST_ABOVE 0x100000000

/* The registers, the memory and the ROM of a card. */
static const dvs_request graphics[] = {
    {.size = 0x4000, .alignment = 0x4000, .policy = DVS_FIRST, .high = LAST_BELOW},
    {.size = 0x10000000, .alignment = 0x10000000, .policy = DVS_FIRST, .low = FIRST_ABOVE},
    {.size = 0x10000, .alignment = 0x10000, .policy = DVS_LAST, .high = LAST_BELOW},
};

/* A card whose second BAR has 1 GiB, but must lie below 4 GiB. */
static const dvs_request storage[] = {
    {.size = 0x1000, .alignment = 0x1000, .policy = DVS_FIRST, .high = LAST_BELOW},
    {.size = 0x40000000, .alignment = 0x40000000, .policy = DVS_FIRST, .high = LAST_BELOW},
};

/* Ends the program if a call fails. */
static void check(dvs_status status, const char *what) {
    if (status != DVS_OK) {
        fprintf(stderr, "%s: %s\n", what, dvs_status_text(status));
        exit(1);
    }
}

static int print_range(void *context, dvs_range range) {
    printf("%s %#" PRIx64 " to %#" PRIx64 "\n", (const char *)context, range.start, range.end);
    return 0;
}

/* Allocates all BARs of a card, or none. */
static void plug_card(dvs_address_allocator *mmio, char *card, const dvs_request *bars,
                      size_t count, dvs_range *ranges) {
    size_t failed, i;

    if (dvs_address_allocator_allocate_all(mmio, bars, count, ranges, &failed, NULL) == DVS_OK)
        for (i = 0; i < count; i++)
            print_range(card, ranges[i]);
    else
        printf("%s: BAR %u does not fit, so no BAR is allocated\n", card, (unsigned)failed);
}

/* Moves a BAR to the start that the guest programs. The BAR stays unchanged if its new range is
 * misaligned, outside the window or not free. */
static void program_bar(dvs_address_allocator *mmio, dvs_request bar, uint64_t start,
                        dvs_range *range) {
    dvs_refusal refusal;
    dvs_status status;
    char why[200];

    bar.policy = DVS_EXACT;
    bar.start = start;
    status = dvs_range_move_request(mmio, *range, &bar, range, &refusal);
    if (status == DVS_OK) {
        print_range("moved", *range);
    } else {
        dvs_refusal_text(status, &refusal, why, sizeof why);
        printf("not moved to %#" PRIx64 ": %s\n", start, why);
    }
}

/* Makes a BAR twice as long, in place. It stays unchanged if another range is in the way. */
static void double_bar(dvs_address_allocator *mmio, dvs_range *range) {
    const uint64_t size = 2 * (range->end - range->start + 1);
    const dvs_request longer = {
        .size = size, .alignment = size, .start = range->start, .policy = DVS_EXACT};
    dvs_refusal refusal;

    if (dvs_range_move_request(mmio, *range, &longer, range, &refusal) == DVS_OK)
        print_range("longer", *range);
    else if (refusal.cause == DVS_CAUSE_ALLOCATED)
        print_range("in the way", refusal.other);
}

/* Returns a saved and restored copy of the allocator, as after a migration. */
static dvs_address_allocator *restored(const dvs_address_allocator *mmio) {
    dvs_address_allocator *copy;
    char *text;
    size_t length;

    check(dvs_address_allocator_save(mmio, &text, &length), "saving");
    check(dvs_address_allocator_read(text, length, &copy), "reading");
    dvs_text_destroy(text);
    return copy;
}

static void plug_devices(void) {
    dvs_device_manager *bus;
    dvs_device disk, network;

    check(dvs_device_manager_new(5, 23, 0xe0000000, 0x100000, &bus, NULL), "the bus");
    check(dvs_device_reserve_first(bus, 0x1000, 0x1000, &disk, NULL), "the disk");
    check(dvs_device_reserve_first(bus, 0x2000, 0x2000, &network, NULL), "the network");
    printf("network: interrupt %" PRIu32 ", range at %#" PRIx64 "\n", network.id,
           network.range.start);
    check(dvs_device_release(bus, disk.id, NULL), "unplugging the disk");
    dvs_device_manager_destroy(bus);
}

/* Allocates a fixed vector for a timer, and the lowest four for a card. */
static void take_vectors(void) {
    dvs_id_allocator *vectors;
    uint32_t ids[4];

    check(dvs_id_allocator_new(32, 255, &vectors, NULL), "the vectors");
    check(dvs_id_allocate_exact(vectors, 239, NULL), "the timer");
    check(dvs_ids_allocate(vectors, ids, 4), "the card");
    printf("card: vectors %" PRIu32 " to %" PRIu32 "\n", ids[0], ids[3]);
    dvs_id_allocator_destroy(vectors);
}

int main(void) {
    dvs_address_allocator *mmio, *copy;
    dvs_range ram, bars[3], none[2];
    dvs_refusal refusal;
    dvs_status status;
    int i;

    check(dvs_address_allocator_new(0xc0000000, 0xf40000000, &mmio), "3 GiB to 64 GiB");
    check(dvs_range_allocate_exact(mmio, 0x40000000, 1, 0x100000000, &ram, NULL), "the RAM");
    plug_card(mmio, "graphics", graphics, 3, bars);
    plug_card(mmio, "storage", storage, 2, none);

    status = dvs_range_allocate_exact(mmio, 0x40000000, 1, ram.start, &ram, &refusal);
    if (status == DVS_INVALID_STATE_TRANSITION)
        printf("already allocated, up to %#" PRIx64 "\n", refusal.range.end);

    /* The guest programs the first BAR of the graphics. Only the third start is valid. */
    program_bar(mmio, graphics[0], 0xd0000800, &bars[0]);
    program_bar(mmio, graphics[0], 0x200000000, &bars[0]);
    program_bar(mmio, graphics[0], 0xd0000000, &bars[0]);
    double_bar(mmio, &bars[0]);

    copy = restored(mmio);
    dvs_address_allocator_destroy(mmio);
    check(dvs_range_visit(copy, print_range, "restored"), "the ranges");
    for (i = 0; i < 3; i++)
        check(dvs_range_free(copy, bars[i], NULL), "unplugging the graphics");
    dvs_address_allocator_destroy(copy);

    plug_devices();
    take_vectors();
    return 0;
}
