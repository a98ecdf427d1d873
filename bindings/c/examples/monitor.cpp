/* SPDX-License-Identifier: Apache-2.0 OR BSD-3-Clause */
/* The resources of a small monitor: cards with BARs and an interrupt, a snapshot, and a device. */
#include <divsharun.hpp>

#include <iostream>

static void check(const dvs::error &error, const char *what) {
    if (error)
        throw std::system_error(error, what);
}

static bool print(const char *what, dvs_range range) {
    std::cout << what << " " << std::hex << range.start << " to " << range.end << std::dec << "\n";
    return true;
}

/* A card, which frees its BARs and its interrupt when it is destroyed. */
class card {
    std::vector<dvs::range_lease> bars;
    dvs::id_lease interrupt;

  public:
    /* Allocates an interrupt and all BARs, or nothing. */
    dvs::error plug(dvs::address_allocator &mmio, dvs::id_allocator &interrupts,
                    const std::vector<dvs::request> &requests) {
        std::vector<dvs_range> ranges;
        uint32_t id;
        if (dvs::error error = interrupts.allocate(id))
            return error;
        dvs::id_lease leased(interrupts, id);
        if (dvs::error error = mmio.allocate_all(requests, ranges))
            return error;
        for (dvs_range range : ranges)
            bars.emplace_back(mmio, range);
        interrupt = std::move(leased);
        return DVS_OK;
    }
};

/* Plugs a card that is too large, and three cards for two interrupts, and unplugs them. Returns
 * what was allocated. */
static std::string plug_cards(dvs::address_allocator &mmio) {
    using dvs::request;
    const std::vector<request> bars = {
        request::last(0x4000, 0x4000).within({0, 0xfebfffff}),
        request::first(0x10000000, 0x10000000).within({0x100000000, UINT64_MAX})};
    dvs::id_allocator interrupts;
    std::string saved;
    const std::vector<request> too_large = {bars[0], request::first(0x1000000000, 0x1000000000)};
    card cards[3], large;

    check(interrupts.make(5, 6), "the interrupts");
    if (large.plug(mmio, interrupts, too_large) == DVS_RESOURCE_NOT_AVAILABLE)
        std::cout << "a card is too large\n";
    for (card &one : cards)
        if (one.plug(mmio, interrupts, bars) == DVS_RESOURCE_NOT_AVAILABLE)
            std::cout << "a card does not fit, so it has no BAR\n";
    check(mmio.for_each([](dvs_range range) { return print("allocated", range); }), "the ranges");
    check(mmio.save(saved), "saving");
    return saved;
}

static void run() {
    dvs::address_allocator mmio, restored;
    dvs::device_manager bus;
    dvs_device disk;
    dvs_range bar;
    dvs_refusal refusal;

    /* The I/O APIC has its range first. */
    check(mmio.make_with_held(0xc0000000, 0xf40000000, {{0xfec00000, 0xfec00fff}}), "the space");
    check(restored.read(plug_cards(mmio)), "the snapshot");
    check(mmio.for_each([](dvs_range range) { return print("still allocated", range); }),
          "the ranges");
    if (restored.allocate(dvs::request::exact(16, 16, 0xfebfc010), bar, &refusal))
        print("in the way", refusal.other);

    check(bus.make(5, 23, 0xe0000000, 0x100000), "the bus");
    check(bus.reserve_first(0x1000, 0x1000, disk), "the disk");
    print("the disk", disk.range);
    check(bus.release(disk.id), "unplugging the disk");
}

int main() {
    try {
        run();
    } catch (const std::exception &failure) {
        std::cerr << failure.what() << "\n";
        return 1;
    }
}
