/* SPDX-License-Identifier: Apache-2.0 OR BSD-3-Clause */
/*
 * Guards against owners of divsharun.hpp that leak, or destroy an object twice or in a
 * visit. The lists and the codes of errors must be those of the calls.
 */
#include "category.hpp"
#include "check.h"

#include <divsharun.hpp>

#include <algorithm>
#include <stdexcept>
#include <type_traits>
#if __cplusplus >= 201703L
#include <string_view>
#endif

/* Returns the items that a list has. */
template <typename Owner, typename Item>
static std::vector<Item> list(const Owner &owner,
                              dvs::error (Owner::*listed)(std::vector<Item> &) const) {
    std::vector<Item> items;
    CHECK(!(owner.*listed)(items));
    return items;
}

template <typename Object> constexpr bool is_number() {
    return std::is_convertible<Object, bool>::value;
}
static_assert(!is_number<dvs::address_allocator>() && !is_number<dvs::id_allocator>() &&
                  !is_number<dvs::device_manager>() && !is_number<dvs::range_map>() &&
                  !is_number<dvs::range_lease>() && !is_number<dvs::id_lease>() &&
                  !is_number<dvs::device_lease>(),
              "two objects could be added");

static std::vector<dvs_range> ranges_of(const dvs::address_allocator &space) {
    return list(space, &dvs::address_allocator::ranges);
}

static std::vector<dvs_range> gaps_of(const dvs::address_allocator &space) {
    return list(space, &dvs::address_allocator::gaps);
}

static void allocate() {
    dvs::address_allocator space;
    dvs_range range;
    uint64_t length = 0;

    CHECK(!space && !space.make(0x1000, 0x1000) && space);
    CHECK(space.make(0, 0) == dvs::error(DVS_UNDERFLOW) && space);
    CHECK(!dvs::range_from(0x1000, 0x100, range) && is_range(range, 0x1000, 0x10ff));
    CHECK(!dvs::offset_of(range, 0x1010, length) && length == 0x10);
    CHECK(dvs::range_from(0x1000, 0, range) == dvs::error(DVS_INVALID_SIZE));
    CHECK(!space.allocate_first(0x100, 0x100, range) && is_range(range, 0x1000, 0x10ff));
    CHECK(!space.allocate_last(0x100, 0x100, range) && is_range(range, 0x1f00, 0x1fff));
    CHECK(!space.allocate_exact(0x10, 1, 0x1200, range));
    std::error_code again = space.allocate_exact(0x10, 1, 0x1200, range);
    CHECK(again == dvs::error(DVS_INVALID_STATE_TRANSITION));
    CHECK(again.message() == "Exactly the requested range is already allocated");
    CHECK(std::string(again.category().name()) == "divsharun");
    CHECK(again.category() == category_of_second_file());
    CHECK(ranges_of(space).size() == 3 && is_range(ranges_of(space)[1], 0x1200, 0x120f));
    CHECK(gaps_of(space).size() == 2 && !space.longest_gap(length) && length == 0x1f00 - 0x1210);
    std::vector<dvs_range> ranges;
    CHECK(!space.gap_at(0x1100, range) && is_range(range, 0x1100, 0x11ff));
    CHECK(space.gap_at(0x10ff, range) == dvs::error(DVS_RESOURCE_NOT_AVAILABLE));
    CHECK(!space.ranges_in({0x10ff, 0x1200}, ranges) && ranges.size() == 2);
    CHECK(is_range(ranges[1], 0x1200, 0x120f));
    CHECK(space.ranges_in({2, 1}, ranges) == dvs::error(DVS_INVALID_RANGE) && ranges.size() == 2);
    CHECK(!space.gaps_in({0, 0x10ff}, ranges) && ranges.empty());
    CHECK(!space.gaps_in({0x1205, 0x1fff}, ranges) && ranges.size() == 1);
    CHECK(is_range(ranges[0], 0x1210, 0x1eff));
    CHECK(!space.at(0x1205, range) && !space.free(range) && space.free(range));
    CHECK(!space.move_range({0x1000, 0x10ff}, 0x1400, range) && is_range(range, 0x1400, 0x14ff));
    CHECK(!space.move_range(range, 0x1401, range) && is_range(range, 0x1401, 0x1500));
    CHECK(!space.move_range(range, 0x1000, range) && is_range(range, 0x1000, 0x10ff));
    dvs::request place = dvs::request::last(0x80, 0x80).within({0, 0x1fff});
    CHECK(!space.move_range(range, place, range) && is_range(range, 0x1e80, 0x1eff));
    CHECK(space.move_range({0x1000, 0x10ff}, place, range) == DVS_RESOURCE_NOT_AVAILABLE);
    CHECK(!space.move_range(range, {{0x100, 0x100, 0x1000, DVS_EXACT, 0, 0}}, range));
    CHECK(is_range(range, 0x1000, 0x10ff));
    std::size_t failed = 9;
    using dvs::request;
    CHECK(!space.allocate_all({request::first(1, 1), request::last(2, 1)}, ranges, &failed));
    CHECK(failed == 2 && is_range(ranges[1], 0x1efe, 0x1eff));
    CHECK(space.allocate_all({request::first(1, 1), request::last(0, 1)}, ranges, &failed));
    CHECK(failed == 1 && ranges.size() == 2);
    CHECK(!space.allocate_all({}, ranges) && ranges.empty());
}

static void allocate_in_windows() {
    using dvs::request;
    dvs::address_allocator space;
    dvs_range range, low = {0x1000, 0x1fff};
    dvs_refusal refusal;

    CHECK(!space.make(0x1000, 0x3000));
    CHECK(!space.allocate(request::first(0x10, 1).within({0x2000, UINT64_MAX}), range));
    CHECK(is_range(range, 0x2000, 0x200f));
    CHECK(!space.allocate(request::last(0x10, 1).within(low), range));
    CHECK(is_range(range, 0x1ff0, 0x1fff));
    CHECK(!space.allocate(request::last(0x10, 1).within(low).within({0, UINT32_MAX}), range));
    CHECK(is_range(range, 0x3ff0, 0x3fff));
    CHECK(!space.allocate(request::first(0x10, 1), range) && is_range(range, 0x1000, 0x100f));
    CHECK(!space.allocate(request::first(0x10, 1).within({0x2800, 0x2fff}).within({0x1000, 0x17ff}),
                          range));
    CHECK(is_range(range, 0x1010, 0x101f));
    CHECK(!space.allocate({{0x20, 0x20, 0, DVS_LAST, low.start, low.end}}, range));
    CHECK(is_range(range, 0x1fc0, 0x1fdf));
    CHECK(space.allocate(request::exact(0x20, 1, 0x1fc0).within({0x1fc0, 0x1fc0}), range,
                         &refusal) == dvs::error(DVS_INVALID_STATE_TRANSITION));
    CHECK(is_range(refusal.range, 0x1fc0, 0x1fdf) && is_range(range, 0x1fc0, 0x1fdf));
    CHECK(dvs::cause_of(refusal) == dvs::cause::outside_window && refusal.other.end == 0x1fc0);
    CHECK(space.allocate(request::first(0x10, 1).within({9, 8}), range, &refusal) ==
          dvs::error(DVS_INVALID_RANGE));
    CHECK(is_range(refusal.range, 9, 8) && is_range(refusal.other, 0, 0) && refusal.size == 0 &&
          refusal.id == 0);
    CHECK(space.allocate({{1, 1, 0, 3, 0, 0}}, range) == dvs::error(DVS_INVALID_POLICY));
    CHECK(dvs::cause_of(refusal) == dvs::cause::none);
    CHECK(space.allocate(request::exact(2, 1, 0x1fdf), range, &refusal) ==
          DVS_RESOURCE_NOT_AVAILABLE);
    CHECK(dvs::cause_of(refusal) == dvs::cause::allocated);
    CHECK(is_range(refusal.range, 0x1fdf, 0x1fe0) && is_range(refusal.other, 0x1fc0, 0x1fdf));
    CHECK(space.allocate(request::exact(2, 1, 0x1100).within(low), range) == DVS_OK);
    CHECK(space.move_range(range, 0x3fff, range, &refusal) == DVS_RESOURCE_NOT_AVAILABLE);
    CHECK(dvs::cause_of(refusal) == dvs::cause::outside_space);
    dvs_refusal conflict;
    CHECK(space.allocate(request::exact(2, 1, 0x1fff).within(low), range, &refusal) ==
          DVS_RESOURCE_NOT_AVAILABLE);
    CHECK(dvs::cause_of(refusal) == dvs::cause::outside_window &&
          is_range(refusal.other, 0x1000, 0x1fff));
    CHECK(!space.conflict(request::exact(2, 1, 0x1fff).within(low), conflict));
    CHECK(memcmp(&conflict, &refusal, sizeof conflict) == 0);
    CHECK(!space.conflict({{2, 1, 0x1102, DVS_EXACT, low.start, low.end}}, conflict));
    CHECK(dvs::cause_of(conflict) == dvs::cause::none && is_range(conflict.range, 0, 0));
    CHECK(space.conflict({{2, 1, 0, 3, 0, 0}}, conflict) == DVS_INVALID_POLICY);
    CHECK(space.move_range(range, request::exact(2, 1, 0xfff).within(low), range, &refusal) ==
          DVS_RESOURCE_NOT_AVAILABLE);
    CHECK(dvs::cause_of(refusal) == dvs::cause::outside_space);
    std::vector<dvs_range> ranges;
    CHECK(space.allocate_all({request::exact(2, 1, 0x1200), request::exact(2, 1, 0x1201)}, ranges,
                             nullptr, &refusal) == DVS_RESOURCE_NOT_AVAILABLE);
    CHECK(dvs::cause_of(refusal) == dvs::cause::earlier_request);
}

static void allocate_all_in_windows() {
    using dvs::request;
    dvs::address_allocator space;
    std::vector<request> bars;
    std::vector<dvs_range> ranges;
    std::size_t failed = 9;
    dvs_refusal refusal;

    CHECK(!space.make(0, 64));
    CHECK(!space.allocate_all({request::first(4, 4).within({1, 15}), request::last(4, 4)}, ranges,
                              &failed));
    CHECK(failed == 2 && is_range(ranges[0], 4, 7) && is_range(ranges[1], 60, 63));
    for (uint64_t at = 16; at < 48; at += 16)
        bars.push_back(request::last(2, 2).within({at, at + 15}));
    CHECK(!space.allocate_all(bars, ranges) && ranges.size() == 2);
    CHECK(is_range(ranges[0], 30, 31) && is_range(ranges[1], 46, 47));
    bars.push_back(request::first(1, 1).within({2, 1}));
    CHECK(space.allocate_all(bars, ranges, &failed, &refusal) == dvs::error(DVS_INVALID_RANGE));
    CHECK(failed == 2 && is_range(refusal.range, 2, 1) && ranges_of(space).size() == 4);
    CHECK(is_range(ranges[0], 30, 31) && is_range(ranges[1], 46, 47));
}

static_assert(std::is_trivially_copyable<dvs::request>::value, "a request refers to nothing");

/* Checks that each request has its own window. */
static void copy_windows() {
    using dvs::request;
    dvs::address_allocator space;
    std::vector<request> bars;
    std::vector<dvs_range> ranges;
    dvs_range range;

    CHECK(!space.make(0, 0x100000));
    for (uint64_t i = 1; i < 4; i++)
        bars.push_back(request::first(0x1000, 0x1000).within({0x10000 * i, 0xfffff}));
    for (uint64_t i = 4; i < 6; i++)
        bars.push_back(dvs_request{0x1000, 0x1000, 0, DVS_FIRST, 0x10000 * i, 0});
    CHECK(!space.allocate_all(bars, ranges) && ranges.size() == 5);
    for (uint64_t i = 0; i < 5; i++)
        CHECK(is_range(ranges[i], 0x10000 * (i + 1), 0x10000 * (i + 1) + 0xfff));
    const request high = request::last(0x10, 1).within({0xf0000, 0xfffff});
    CHECK(!space.allocate(high.within({0xe0000, 0xeffff}), range) && range.end == 0xeffff);
    CHECK(!space.allocate(high.within({0, UINT64_MAX}), range) && range.end == 0xfffff);
    CHECK(!space.allocate(high, range) && range.end == 0xfffef);
}

static void reserve_in_windows() {
    using dvs::request;
    dvs::device_manager devices;
    dvs_device device;
    dvs_refusal refusal;

    CHECK(!devices.make(5, 6, 0, 64));
    CHECK(!devices.reserve(request::last(8, 8).within({0, 30}), device));
    CHECK(device.id == 5 && is_range(device.range, 16, 23));
    CHECK(devices.reserve(request::first(0, 8), device, &refusal) == dvs::error(DVS_INVALID_SIZE));
    CHECK(refusal.size == 0 && device.id == 5);
    CHECK(devices.reserve(request::exact(8, 8, 16).within({16, 16}), device, &refusal) ==
          dvs::error(DVS_INVALID_STATE_TRANSITION));
    CHECK(is_range(refusal.range, 16, 23) && is_range(refusal.other, 16, 16));
    CHECK(!devices.conflict(request::exact(8, 8, 16).within({0, 30}), refusal));
    CHECK(dvs::cause_of(refusal) == dvs::cause::allocated && is_range(refusal.other, 16, 23));
    CHECK(!devices.conflict(request::exact(8, 8, 16).within({0, 20}), refusal));
    CHECK(dvs::cause_of(refusal) == dvs::cause::outside_window && refusal.other.end == 20);
    CHECK(!devices.conflict({{8, 8, 64, DVS_EXACT, 0, 0}}, refusal));
    CHECK(dvs::cause_of(refusal) == dvs::cause::outside_space && is_range(refusal.other, 0, 63));
    CHECK(!devices.reserve({{8, 8, 0, DVS_FIRST, 0, 0}}, device) && device.id == 6);
    CHECK(list(devices, &dvs::device_manager::devices).size() == 2 && is_range(device.range, 0, 7));

    dvs::address_allocator space;
    dvs::id_allocator ids;
    CHECK(devices.reserve_with_id(6, 6, request::first(8, 8), device, &refusal) ==
          dvs::error(DVS_RESOURCE_NOT_AVAILABLE));
    CHECK(!devices.release(5));
    CHECK(!devices.reserve_with_id(5, 5, request::last(8, 8).within({0, 40}), device));
    CHECK(device.id == 5 && is_range(device.range, 32, 39));
    dvs_range moved;
    CHECK(devices.move(9, request::first(8, 8), moved) == dvs::error(DVS_NEVER_ALLOCATED));
    CHECK(!devices.move(5, request::exact(16, 8, 48), moved) && is_range(moved, 48, 63));
    CHECK(!devices.move(5, request::last(8, 8).within({0, 40}), moved) && moved.start == 32);
    CHECK(!devices.move(5, request::last(8, 8), moved));
    CHECK(!space.make_copy_of(devices.get()) && ranges_of(space).size() == 2);
    CHECK(is_range(ranges_of(space)[1], 56, 63));
    CHECK(!ids.make_copy_of(devices.get()) && list(ids, &dvs::id_allocator::ids).size() == 2);
}

static void save() {
    dvs::address_allocator space, copy;
    dvs::id_allocator ids;
    dvs::device_manager devices;
    std::string text;
    dvs_device device;
    uint32_t id = 0;

    std::size_t failed = 9;
    CHECK(space.make_with_held(0, 16, {range_of(1, 2), range_of(2, 4)}, &failed) ==
              dvs::error(DVS_RESOURCE_NOT_AVAILABLE) &&
          failed == 1);
    CHECK(space.make_with_free({range_of(0, 2), range_of(3, 4), range_of(4, 5)}, &failed) ==
              DVS_RESOURCE_NOT_AVAILABLE &&
          failed == 2);
    CHECK(!space.make_with_free({range_of(0, 2), range_of(4, 15)}) &&
          is_range(ranges_of(space)[0], 3, 3));
    CHECK(!space.make_with_held(0, 16, {range_of(1, 2), range_of(4, 4)}) && !space.save(text));
    CHECK(!copy.read(text) && ranges_of(copy).size() == 2);
    CHECK(copy.read("{}") == dvs::error(DVS_NOT_A_STATE) && ranges_of(copy).size() == 2);
    uint64_t count = 0;
    CHECK(!copy.range_count(count) && count == 2 && !copy.free_length(count) && count == 13);
    CHECK(!copy.gap_count(count) && count == 3);
    dvs_text_fault fault;
    dvs_text_limits limits = {text.size() - 1, 0};
    CHECK(copy.read("{}", &fault) && fault.offset == 2 &&
          fault.field == std::string("address_space"));
    CHECK(copy.read(text, &fault, &limits) == dvs::error(DVS_LIMIT_EXCEEDED));
    CHECK(!ids.make(5, 9) && !ids.allocate(id) && id == 5 && !ids.allocate(id) && !ids.free(5));
    CHECK(!ids.save(text) && !ids.read(text) &&
          list(ids, &dvs::id_allocator::ids) == std::vector<uint32_t>{6});
    std::vector<uint32_t> several(2);
    CHECK(!ids.make_with_held(5, 9, {6}) && !ids.allocate_exact(8) && !ids.allocate_in(7, 9, id));
    CHECK(!ids.free_count(count) && count == 2);
    CHECK(id == 7 && !ids.allocate_all(several) && several == std::vector<uint32_t>({5, 9}));
    CHECK(ids.allocate_all(several) == dvs::error(DVS_RESOURCE_NOT_AVAILABLE));
    CHECK(!devices.make(1, 9, 0, 64) && !devices.reserve_first(8, 8, device) && device.id == 1);
    CHECK(!devices.save(text) && !devices.read(text) &&
          list(devices, &dvs::device_manager::devices).size() == 1);
    CHECK(!devices.at(7, device) && !devices.release(device.id) && devices.at(7, device));
    dvs::address_allocator moved = std::move(space);
    CHECK(moved && !space);
}

static void copy() {
    dvs::address_allocator space, other;
    dvs::id_allocator ids, other_ids;
    dvs::device_manager devices, other_devices;
    std::vector<dvs_range> seen;
    auto see_first = [&seen](dvs_range range) { return seen.push_back(range), false; };

    CHECK(space == other && other.make_copy(space) == DVS_NULL);
    CHECK(!space.make_with_held(0, 16, {range_of(1, 2), range_of(4, 4)}) && space != other);
    CHECK(space != dvs::address_allocator() && dvs::address_allocator() != space);
    CHECK(!other.make_copy(space) && space == other && !other.free({4, 4}) && space != other);
    CHECK(!space.make_copy(space) && ranges_of(space).size() == 2);
    CHECK(space.make_copy(dvs::address_allocator()) == DVS_NULL && ranges_of(space).size() == 2);
    CHECK(!ids.make(5, 9) && !other_ids.make_copy(ids) && ids == other_ids);
    CHECK(!ids.allocate_exact(7) && ids != other_ids);
    CHECK(!devices.make(5, 9, 0, 16) && !other_devices.make_copy(devices));
    CHECK(devices == other_devices && !other_devices.make(5, 9, 0, 17) && devices != other_devices);
    CHECK(!space.for_each_from(3, see_first) && !space.for_each_back(3, see_first));
    CHECK(!space.for_each_gap_from(4, see_first) && !space.for_each_gap_back(2, see_first));
    CHECK(seen.size() == 4 && is_range(seen[0], 4, 4) && is_range(seen[1], 1, 2));
    CHECK(is_range(seen[2], 5, 15) && is_range(seen[3], 0, 0));
}

static void keep_values() {
    using dvs::request;
    dvs::range_map map, other;
    dvs_range range;
    dvs_valued_range found;
    uint64_t number = 0;
    std::vector<dvs_valued_range> all;

    CHECK(!map.make(0, 64) && !map.space(range) && is_range(range, 0, 63));
    CHECK(!map.allocate(7, request::last(8, 8).within({0, 31}), range) && is_range(range, 24, 31));
    CHECK(!map.at(31, found) && found.value == 7 && is_range(found.range, 24, 31));
    CHECK(map.at(32, found) == DVS_RESOURCE_NOT_AVAILABLE && found.value == 7);
    CHECK(!other.make_copy(map) && other == map && !other.set(24, 8, number) && number == 7);
    CHECK(!other.move(range, request::first(8, 8).within({9, 63}), range) && range.start == 16);
    CHECK(other != map && !map.move({24, 31}, request::first(8, 8), range) && range.start == 0);
    CHECK(!map.allocate(9, request::first(8, 8), range) && !map.range_count(number) && number == 2);
    CHECK(!map.ranges(all) && all.size() == 2 && all[0].value == 7 && all[1].value == 9);
    std::size_t listed = 0;
    CHECK(!map.list_ranges(8, &found, 1, listed) && listed == 1 && found.value == 9);
    CHECK(!map.for_each([&](dvs_valued_range one) {
        CHECK(one.value == 7 && map.free(one.range, number) == DVS_BUSY);
        return false;
    }));
    CHECK(!map.free(range, number) && number == 9 && map.free(range, number) && number == 9);
    CHECK(map.set(9, 8, number) == DVS_RESOURCE_NOT_AVAILABLE && number == 9);
    CHECK(map.move(range, request::first(8, 8), range) && is_range(range, 8, 15));
}

static void keep_several_values() {
    using dvs::request;
    dvs::range_map map;
    dvs_range gap;
    dvs_refusal refusal;
    std::vector<dvs_range> ranges;
    std::vector<dvs_valued_range> all;
    std::vector<uint64_t> values;
    std::size_t failed, count = 0;

    CHECK(map.make_with_held(0, 16, {{{1, 2}, 7}, {{2, 3}, 8}}, &failed, &refusal) && failed == 1);
    CHECK(refusal.cause == DVS_CAUSE_NOT_AFTER && is_range(refusal.range, 2, 3) && !map);
    CHECK(!map.make_with_held(0, 16, {{{1, 2}, 7}, {{4, 7}, 8}}) && !map.ranges(all));
    CHECK(all.size() == 2 && all[1].value == 8 && is_range(all[1].range, 4, 7));
    CHECK(!map.allocate_all({{request::first(1, 1), 9}, {request::last(2, 1), 10}}, ranges));
    CHECK(ranges.size() == 2 && ranges[0].start == 0 && ranges[1].start == 14);
    CHECK(map.allocate_all({{request::first(1, 1), 9}, {request::last(9, 1), 10}}, ranges, &failed,
                           &refusal) == DVS_RESOURCE_NOT_AVAILABLE);
    CHECK(failed == 1 && ranges.size() == 2);
    CHECK(!map.conflict(request::exact(2, 1, 2), refusal) && is_range(refusal.other, 1, 2));
    CHECK(!map.move_conflict({1, 2}, request::exact(3, 1, 2), refusal));
    CHECK(is_range(refusal.other, 4, 7));
    CHECK(!map.list_gaps(4, &gap, 1, count) && count == 1 && is_range(gap, 8, 13));
    CHECK(!map.gaps(ranges) && ranges.size() == 2 && is_range(ranges[0], 3, 3));
    CHECK(!map.for_each_gap([&](dvs_range one) { return gap = one, false; }) && gap.start == 3);
    CHECK(!map.ranges_in({2, 4}, all) && all.size() == 2 && all[0].value == 7);
    CHECK(map.ranges_in({2, 1}, all, &refusal) == DVS_INVALID_RANGE && all.size() == 2);
    const auto see = [&](dvs_valued_range one) { return values.push_back(one.value), true; };
    CHECK(!map.for_each_from(5, see) && !map.for_each_back(2, see));
    CHECK(values == std::vector<uint64_t>({8, 10, 7, 9}));
}

/* An action that cannot be copied, and counts its calls. */
struct take_two {
    std::vector<dvs_range> *seen;
    std::unique_ptr<int> owned;
    int left;

    explicit take_two(std::vector<dvs_range> &ranges) : seen(&ranges), owned(new int(0)), left(2) {}
    bool operator()(dvs_range range) {
        seen->push_back(range);
        return --left > 0;
    }
};

static bool are_same(const std::vector<dvs_range> &seen, const std::vector<dvs_range> &expected) {
    bool are = seen.size() == expected.size();

    for (std::size_t i = 0; are && i < seen.size(); i++)
        are = is_range(seen[i], expected[i].start, expected[i].end);
    return are;
}

/* Checks the walks and the visits from an address, and the lists of the part above it, against the
 * list of all ranges or gaps. A walk starts again at its end or at another item. */
template <typename Each, typename Start, typename Visit, typename List>
static void walk(const dvs::address_allocator &space, uint64_t address,
                 const std::vector<dvs_range> &all, Each &each, Start start, Visit up, Visit down,
                 List list_in) {
    std::vector<dvs_range> above, below, seen;

    for (dvs_range item : all) {
        if (item.end >= address)
            above.push_back(item);
        if (item.start <= address)
            below.insert(below.begin(), item);
    }
    CHECK(!(space.*start)(address, each));
    for (int i = 0; i < 2; i++, seen.clear()) {
        for (dvs_range item : each) {
            seen.push_back(item);
            CHECK(seen.size() <= above.size());
        }
        CHECK(are_same(seen, above));
    }
    CHECK(!(space.*list_in)({std::max<uint64_t>(address, 1), UINT64_MAX}, seen, nullptr));
    CHECK(are_same(seen, above));
    while (address % 2 == 1 && each != each.end())
        ++each;
    above.resize(std::min<std::size_t>(above.size(), 2));
    below.resize(std::min<std::size_t>(below.size(), 2));
    seen.clear();
    CHECK(!(space.*up)(address, take_two(seen)) && are_same(seen, above));
    seen.clear();
    CHECK(!(space.*down)(address, take_two(seen)) && are_same(seen, below));
}

/* Walks from each end of each range and gap, and from the addresses next to it. */
static void walk_from_addresses() {
    using owner = dvs::address_allocator;
    const uint64_t middle = (uint64_t)1 << 63, top = UINT64_MAX;
    dvs::address_allocator space;
    std::vector<dvs_range> seen;
    dvs::each_range ranges;
    dvs::each_gap gaps;

    CHECK(!space.make_with_held(1, top,
                                {range_of(1, 2), range_of(5, 5), range_of(6, 6),
                                 range_of(middle, middle + 8), range_of(top - 6, top - 4),
                                 range_of(top - 1, top - 1)}));
    for (uint64_t end : {uint64_t(2), uint64_t(6), middle, middle + 9, top - 6, top - 3, top - 1})
        for (uint64_t address = end - 2; address - end + 2 < 4; address++) {
            walk(space, address, ranges_of(space), ranges, &owner::ranges_from,
                 &owner::for_each_from<take_two>, &owner::for_each_back<take_two>,
                 &owner::ranges_in);
            walk(space, address, gaps_of(space), gaps, &owner::gaps_from,
                 &owner::for_each_gap_from<take_two>, &owner::for_each_gap_back<take_two>,
                 &owner::gaps_in);
        }
    CHECK(!space.for_each(take_two(seen)) && seen.size() == 2 && is_range(seen[1], 5, 5));
}

/* Visits like dvs_range_visit_from(), and counts its calls and the items that it passes on. */
static int visit_calls, visit_items;
static dvs_status visit_counted(const dvs_address_allocator *space, uint64_t address,
                                dvs_range_visitor *visitor, void *context) {
    auto pass_on = [&](dvs_range range) { return visit_items++, visitor(context, range); };
    auto one = [](void *pass, dvs_range range) {
        return (*static_cast<decltype(pass_on) *>(pass))(range);
    };
    visit_calls++;
    return dvs_range_visit_from(space, address, one, &pass_on);
}

/* Checks that a step of a loop makes one call, which ends at its first item. */
static void count_steps() {
    dvs::address_allocator space;
    dvs::each<visit_counted> ranges;
    dvs_range range;

    CHECK(!space.make(0, 100));
    while (!space.allocate_first(1, 2, range))
        continue;
    CHECK(!ranges.start(space, 0) && std::distance(ranges.begin(), ranges.end()) == 50);
    CHECK(visit_calls == 51 && visit_items == 50);
}

/* Checks the items of loops, also of a loop that changes the allocator. */
static void loop() {
    dvs::address_allocator space, top;
    dvs::each_range ranges;
    dvs::each_gap gaps;
    std::vector<dvs_range> seen;
    const dvs_range expected[] = {{0, 0}, {1, 2}, {5, 5},  {1, 2},
                                  {5, 5}, {3, 4}, {6, 15}, {UINT64_MAX - 1, UINT64_MAX}};

    CHECK(!space.make_with_held(0, 16, {range_of(0, 0), range_of(1, 2), range_of(5, 5)}));
    CHECK(!top.make(UINT64_MAX - 1, 2) && !top.ranges_from(0, ranges));
    CHECK(ranges.begin() == ranges.end() && gaps.begin() == gaps.end());
    for (uint64_t address : {0, 2}) {
        CHECK(!space.ranges_from(address, ranges));
        for (dvs_range range : ranges)
            seen.push_back(range);
    }
    CHECK(!space.gaps_from(4, gaps));
    for (dvs_range gap : gaps)
        seen.push_back(gap);
    CHECK(!top.gaps_from(0, gaps));
    for (dvs_range gap : gaps)
        seen.push_back(gap);
    CHECK(seen.size() == 8 && memcmp(seen.data(), expected, sizeof expected) == 0);
    CHECK(!space.gaps_from(0, gaps));
    auto gap = gaps.begin(), first = gap++;
    CHECK(first == gaps.begin() && first != gap && first->start == 3 && gap->start == 6);
    CHECK(++gap == gaps.end() && std::distance(gaps.begin(), gaps.end()) == 2);
    static_assert(noexcept(++gap), "a step cannot throw");
    CHECK(!space.ranges_from(1, ranges));
    for (dvs_range range : ranges)
        CHECK(!space.free(range));
    CHECK(ranges_of(space).size() == 1 && gaps_of(space).size() == 1);
}

/* divsharun.hpp: "the next item is the first one that has an address above the last item" */

/* Calls `replace` at the first item of a loop over 1, 3 and 5. The loop goes on in the new object.
 */
template <typename Replace> static void replace_in_a_loop(Replace replace) {
    dvs::address_allocator space, other;
    dvs::each_range ranges;
    std::vector<dvs_range> seen;
    const std::vector<dvs_range> expected = {range_of(1, 1), range_of(2, 2), range_of(7, 7)};

    CHECK(!space.make_with_held(0, 9, {range_of(1, 1), range_of(3, 3), range_of(5, 5)}));
    CHECK(!other.make_with_held(0, 9, {range_of(0, 0), range_of(2, 2), range_of(7, 7)}));
    CHECK(!space.ranges_from(0, ranges));
    for (dvs_range range : ranges) {
        if (range.start == 1)
            replace(space, other);
        seen.push_back(range);
    }
    CHECK(are_same(seen, expected));
}

static void replace_in_loops() {
    using owner = dvs::address_allocator;
    replace_in_a_loop([](owner &space, owner &other) { CHECK(!space.make_copy(other)); });
    replace_in_a_loop([](owner &space, owner &other) { space = std::move(other); });
    replace_in_a_loop([](owner &space, owner &other) { CHECK(!space.adopt(other.detach())); });
    replace_in_a_loop([](owner &space, owner &other) {
        std::string text;
        CHECK(!other.save(text) && !space.read(text));
    });
    replace_in_a_loop([](owner &space, owner &) {
        CHECK(!space.make_with_held(0, 9, {range_of(2, 2), range_of(7, 7)}));
    });
}

/* Checks that methods pass on numbers above 2^40, up to UINT64_MAX. */
static void pass_large_numbers() {
    using dvs::request;
    const uint64_t much = (uint64_t)1 << 41, half = (uint64_t)1 << 63, top = UINT64_MAX;
    dvs::address_allocator space;
    dvs::device_manager devices;
    dvs_range range, moved;
    dvs_device device;
    dvs_refusal refusal;
    uint64_t number = 0;
    bool is_allocated = false;

    CHECK(!dvs::range_from(half, half, range) && is_range(range, half, top));
    CHECK(!dvs::offset_of({much, top}, top, number) && number == top - much);
    CHECK(!space.make(much, top - much + 1) && !space.space(range) && is_range(range, much, top));
    CHECK(!space.longest_gap(number) && number == top - much + 1);
    CHECK(!space.allocate_first(much, half, range) && is_range(range, half, half + much - 1));
    CHECK(!space.allocate_last(much, 2 * much, range));
    CHECK(is_range(range, top - 2 * much + 1, top - much));
    CHECK(!space.allocate_exact(much - 1, much, top - much + 1, range) && range.end == top - 1);
    CHECK(!space.is_allocated(range, is_allocated) && is_allocated);
    CHECK(space.allocate_exact(1, 1, top, moved) == DVS_OVERFLOW);
    CHECK(space.allocate(request::last(1, 1), moved) == DVS_OVERFLOW);
    CHECK(!space.conflict(request::exact(much, much, half), refusal));
    CHECK(refusal.other.start == half);
    CHECK(!space.allocate(request::first(much, half / 2), range) && range.start == half / 2);
    CHECK(!space.move_range(range, half + 2 * much, moved) && moved.end == half + 3 * much - 1);
    CHECK(
        !space.move_range(moved, request::last(much, much).within({half, half + 8 * much}), range));
    CHECK(is_range(range, half + 7 * much, half + 8 * much - 1));
    CHECK(!space.at(range.end, moved) && moved.start == range.start && !space.gap_at(top, moved));
    CHECK(is_range(moved, top, top) && !space.free(range) && !space.range_count(number));
    CHECK(number == 3 && !space.free_length(number) && number == top - 4 * much + 2);
    CHECK(!devices.make(1, 9, much, top - much + 1) && !devices.space(range));
    CHECK(is_range(range, much, top) && !devices.reserve_first(much, half, device));
    CHECK(device.range.start == half && !devices.reserve_last(much, 2 * much, device));
    CHECK(!devices.at(top - much, device) && device.id == 2 && !devices.slot(2, range));
    CHECK(is_range(range, top - 2 * much + 1, top - much));
    CHECK(!devices.reserve_exact(much - 1, much, top - much + 1, device));
    CHECK(device.range.end == top - 1 && devices.at(top, device) == DVS_RESOURCE_NOT_AVAILABLE);
    CHECK(!devices.conflict(request::exact(1, 1, half), refusal) && refusal.other.start == half);
    CHECK(!devices.reserve(request::first(much, half / 2), device));
    CHECK(device.range.start == half / 2);
}

/* Checks that methods pass on ids up to UINT32_MAX. */
static void pass_large_ids() {
    const uint32_t last = UINT32_MAX, first = last - 7;
    dvs::id_allocator ids;
    dvs::device_manager devices;
    dvs_device device;
    dvs_range range;
    uint32_t low = 0, high = 0, id = 0;
    uint64_t count = 0;
    bool is_allocated = false;
    std::vector<uint32_t> several(2);

    CHECK(!ids.make_with_held(first, last, {first + 1}) && !ids.free(first + 1));
    CHECK(!ids.make(first, last) && !ids.range(low, high) && low == first && high == last);
    CHECK(!ids.allocate(id) && id == first && !ids.peek(id) && id == first + 1);
    CHECK(!ids.allocate_exact(last) && !ids.is_allocated(last, is_allocated) && is_allocated);
    CHECK(!ids.allocate_in(last - 2, last, id) && id == last - 2 && !ids.allocate_all(several));
    CHECK(several[1] == first + 2 && !ids.free(last) && !ids.allocate_in(last, last, id));
    CHECK(id == last && !devices.make(last, last, 0, 64) && !devices.ids(low, high));
    CHECK(low == last && high == last && !devices.reserve_first(8, 8, device));
    CHECK(device.id == last && !devices.slot(last, range) && range.end == 7);
    CHECK(!devices.at(7, device) && device.id == last && !devices.release(last));
    CHECK(!ids.make(0, last) && !ids.free_count(count) && count == (uint64_t)1 << 32);
    CHECK(
        !ids.read("{\"range_base\":0,\"next_id\":null,\"range_end\":4294967295,\"freed_ids\":[]}"));
    CHECK(!ids.id_count(count) && count == (uint64_t)1 << 32);
}

/* Checks that methods pass on lists and texts of more members than 16 bits can count. */
static void pass_long_lists() {
    const uint32_t count = 70000;
    dvs::address_allocator space;
    dvs::id_allocator ids;
    std::vector<dvs_range> ranges;
    std::vector<uint32_t> held, several(count);
    std::vector<dvs::request> requests(count, dvs::request::first(1, 1));
    std::size_t failed = 0;
    std::string text;

    for (uint32_t i = 0; i < count; i++) {
        ranges.push_back(range_of(2 * i, 2 * i));
        held.push_back(2 * i);
    }
    CHECK(!space.make_with_held(0, 2 * count, ranges) && are_same(ranges_of(space), ranges));
    CHECK(!space.save(text) && !space.read(text) && are_same(ranges_of(space), ranges));
    dvs_text_limits limits = {text.size() - 1, 0};
    CHECK(space.read(text, nullptr, &limits) == DVS_LIMIT_EXCEEDED);
    CHECK(!space.make_with_free(ranges) && are_same(gaps_of(space), ranges));
    CHECK(!space.allocate_all(requests, ranges, &failed) && failed == count);
    CHECK(gaps_of(space).empty() && ranges.back().start == 2 * count - 2);
    for (uint64_t end : {9, 8}) {
        ranges.resize(count);
        ranges.push_back({9, end});
        CHECK(space.make_with_held(0, 2 * count, ranges, &failed) && failed == count);
    }
    CHECK(!ids.make_with_held(0, 2 * count, held) && list(ids, &dvs::id_allocator::ids) == held);
    CHECK(!ids.allocate_all(several) && several.back() == 2 * count - 1);
}

static void compare_errors() {
    dvs::address_allocator space;
    dvs::error failure = space.make(UINT64_MAX, 2);

    CHECK(failure == DVS_OVERFLOW && failure != DVS_UNDERFLOW && !(failure != DVS_OVERFLOW) &&
          failure == dvs::error(DVS_OVERFLOW));
    CHECK(failure && failure != std::errc::not_enough_memory);
    CHECK(dvs::error(DVS_OUT_OF_MEMORY) == std::errc::not_enough_memory);
    for (dvs_status status = 0; status < 100; status++) {
        CHECK(dvs::error(status).message() == dvs_status_text(status));
        CHECK(!dvs::error(status) == (status == DVS_OK) && dvs::error(status) == status);
        CHECK((dvs::error(status) == std::errc::not_enough_memory) ==
              (status == DVS_OUT_OF_MEMORY));
        CHECK(dvs::error(status) != status + 1 && dvs::error(status) != dvs::error(status + 1));
    }
    CHECK(dvs::error() == dvs::error(DVS_OK) && !dvs::error());
    CHECK(failure.name() == std::string("DVS_OVERFLOW"));
    CHECK(dvs::text_of(dvs::cause::allocated) == std::string("An address is allocated"));
    const dvs_refusal refusal = {range_of(0xfeb00000, 0xfeb0ffff), range_of(1, 2), 0, 0,
                                 DVS_CAUSE_ALLOCATED};
    CHECK(dvs::text_of(dvs::error(DVS_RESOURCE_NOT_AVAILABLE), refusal) ==
          "0xfeb00000-0xfeb0ffff overlaps 0x1-0x2");
    CHECK(dvs::text_of(failure, refusal) == std::string("0xfeb00000-0xfeb0ffff overlaps 0x1-0x2"));
    const dvs_refusal none = {range_of(0, 0), range_of(0, 0), 0, 0, DVS_CAUSE_NONE};
    CHECK(dvs::text_of(dvs::error(DVS_OVERFLOW), none) == dvs_status_text(DVS_OVERFLOW));
    CHECK(space.make(UINT64_MAX, 1) == DVS_OK);
    std::error_code plain = failure;
    CHECK(plain == failure && plain.message() == dvs_status_text(DVS_OVERFLOW));
}

/* Checks the queries that no other function here uses. */
static void ask() {
    dvs::address_allocator space;
    dvs::id_allocator ids;
    dvs::device_manager devices;
    dvs_device device;
    dvs_range range;
    std::string text;
    uint64_t count = 0;
    uint32_t first = 0, last = 0, id = 0;
    bool is_allocated = false;

    CHECK(!space.make_with_held(0, 16, {range_of(1, 2)}) && !space.save(text));
    CHECK(!space.read_repaired(text) && !space.space(range) && is_range(range, 0, 15));
    text = "{\"address_space\":{\"start\":0,\"end\":15},\"interval_tree\":{\"root\":null}}";
    CHECK(space.read(text) == DVS_NOT_A_STATE && ranges_of(space).size() == 1);
    CHECK(!space.read_repaired(text) && ranges_of(space).empty());
    CHECK(!space.make_with_held(0, 16, {range_of(1, 2)}));
    CHECK(!space.peek(dvs::request::last(2, 2), range) && is_range(range, 14, 15));
    CHECK(space.peek(dvs::request::first(14, 1), range) && is_range(range, 14, 15));
    dvs_range listed[3];
    std::size_t length = 0;
    CHECK(!space.list_ranges(2, listed, 3, length) && length == 1 && is_range(listed[0], 1, 2));
    CHECK(!space.list_gaps(1, listed, 3, length) && length == 1 && is_range(listed[0], 3, 15));
    CHECK(!space.is_allocated({1, 2}, is_allocated) && is_allocated &&
          !space.is_allocated({1, 1}, is_allocated) && !is_allocated);
    CHECK(space.is_allocated({2, 1}, is_allocated) == DVS_INVALID_RANGE);
    CHECK(!ids.make_with_held(5, 9, {5}) && !ids.range(first, last) && first == 5 && last == 9);
    CHECK(!ids.peek(id) && id == 6 && !ids.id_count(count) && count == 1);
    CHECK(!ids.list_ids(0, &id, 1, length) && length == 1 && id == 5);
    CHECK(!ids.is_allocated(5, is_allocated) && is_allocated &&
          !ids.is_allocated(6, is_allocated) && !is_allocated);
    CHECK(!devices.make(5, 9, 16, 16) && !devices.reserve_last(4, 4, device));
    CHECK(device.id == 5 && is_range(device.range, 28, 31));
    CHECK(!devices.reserve_exact(4, 4, 16, device) && device.id == 6);
    CHECK(devices.reserve_exact(4, 4, 16, device) == DVS_INVALID_STATE_TRANSITION);
    CHECK(!devices.slot(6, range) && is_range(range, 16, 19));
    CHECK(devices.slot(7, range) == DVS_NEVER_ALLOCATED);
    CHECK(!devices.ids(first, last) && first == 5 && last == 9);
    CHECK(!devices.list_devices(6, &device, 1, length) && length == 1 && device.id == 6);
    CHECK(!devices.space(range) && is_range(range, 16, 31));
    CHECK(!devices.device_count(count) && count == 2);
}

/* Checks that a method passes on the whole text, the limits and the fault. */
template <typename Owner>
static void check_reader(dvs::error (Owner::*read)(dvs::saved_text, dvs_text_fault *,
                                                   const dvs_text_limits *)) {
    const dvs_text_limits limits[] = {{2, 0}, {0, 1}};
    dvs_text_fault fault = {9, "", ""};
    Owner owner;

    CHECK((owner.*read)(std::string("{}\0", 3), &fault, nullptr) == DVS_NOT_JSON);
    CHECK(fault.offset == 2 && fault.field == nullptr);
    CHECK((owner.*read)({"{}[", 2}, &fault, nullptr) == DVS_NOT_A_STATE);
    CHECK((owner.*read)(std::vector<char>(3, '{'), &fault, nullptr) == DVS_NOT_JSON);
#if __cplusplus >= 201703L
    CHECK((owner.*read)(std::string_view("{}[").substr(1, 1), &fault, nullptr) == DVS_NOT_JSON);
    CHECK(fault.offset == 0);
#endif
    CHECK((owner.*read)("{} ", &fault, &limits[0]) == DVS_LIMIT_EXCEEDED && fault.offset == 2);
    CHECK((owner.*read)("[[]]", &fault, &limits[1]) == DVS_LIMIT_EXCEEDED && fault.offset == 1);
}

static bool tells(const dvs_refusal &refusal, uint64_t start, uint64_t end, uint32_t id = 0) {
    return is_range(refusal.range, start, end) && refusal.id == id;
}

/* Checks the details of calls that have no other error with a detail. */
static void tell_more_details() {
    dvs::address_allocator space;
    dvs::id_allocator ids;
    dvs::device_manager devices;
    dvs_range range;
    dvs_device device;
    dvs_refusal refusal = {{9, 9}, {9, 9}, 9, 9, 9};
    std::vector<dvs_range> ranges;
    uint32_t id = 0;
    bool is_allocated = false;
    const dvs_range wrong = {7, 6};

    CHECK(!space.make(0, 64) && !ids.make(5, 9) && !devices.make(5, 9, 0, 64));
    CHECK(space.allocate_first(0, 1, range, &refusal) == DVS_INVALID_SIZE && refusal.size == 0);
    CHECK(space.free(wrong, &refusal) == DVS_INVALID_RANGE && tells(refusal, 7, 6));
    CHECK(space.allocate_last(1, 3, range, &refusal) && tells(refusal, 0, 0));
    CHECK(space.is_allocated(wrong, is_allocated, &refusal) && tells(refusal, 7, 6));
    CHECK(devices.reserve_first(0, 1, device, &refusal) && tells(refusal, 0, 0));
    CHECK(space.ranges_in(wrong, ranges, &refusal) && tells(refusal, 7, 6));
    CHECK(ids.make(9, 5, &refusal) == DVS_INVALID_RANGE && tells(refusal, 9, 5));
    CHECK(ids.allocate_exact(4, &refusal) == DVS_OUT_OF_RANGE && tells(refusal, 0, 0, 4));
    CHECK(ids.allocate_in(8, 7, id, &refusal) && tells(refusal, 8, 7));
    CHECK(space.gaps_in({9, 8}, ranges, &refusal) && tells(refusal, 9, 8));
    CHECK(ids.free(6, &refusal) == DVS_NEVER_ALLOCATED && tells(refusal, 0, 0, 6));
    CHECK(devices.make(3, 2, 0, 1, &refusal) == DVS_INVALID_RANGE && tells(refusal, 3, 2));
    CHECK(devices.reserve_last(0, 1, device, &refusal) && tells(refusal, 0, 0));
    CHECK(devices.release(7, &refusal) == DVS_NEVER_ALLOCATED && tells(refusal, 0, 0, 7));
    CHECK(devices.slot(8, range, &refusal) == DVS_NEVER_ALLOCATED && tells(refusal, 0, 0, 8));
    dvs::range_map map;
    CHECK(!map.make(0, 64) && map.free(wrong, refusal.size, &refusal) && tells(refusal, 7, 6));
    CHECK(map.move({9, 8}, dvs::request::first(1, 1), range, &refusal) && tells(refusal, 9, 8));
    CHECK(map.allocate(1, dvs::request::exact(8, 1, 60), range, &refusal) &&
          tells(refusal, 60, 67));
    for (id = 5; id < 8; id++)
        CHECK(!devices.reserve_with_id(5, 7, dvs::request::first(8, 8), device) && device.id == id);
    static_assert(
        noexcept(space.make(0, 1)) &&noexcept(space.free(wrong)) &&noexcept(space.read(""))
            &&noexcept(space.make_copy(space)) &&noexcept(ids.allocate(id)) &&noexcept(ids.id_count(
                refusal.size)) &&noexcept(devices.release(1)) &&noexcept(devices.slot(1, range)),
        "calls without a vector, a string and a function cannot throw");
}

/* Checks that methods pass on the alignment, and the details of an error. */
static void tell_details() {
    using dvs::request;
    dvs::address_allocator space;
    dvs::id_allocator ids;
    dvs::device_manager devices;
    dvs_range range;
    dvs_device device;
    dvs_refusal refusal;
    std::vector<dvs_range> ranges;
    const std::vector<request> twice(2, request::exact(1, 1, 99));

    CHECK(space.make_with_held(0, 9, {{2, 1}}, nullptr, &refusal) && tells(refusal, 2, 1));
    CHECK(space.make_with_free({{4, 3}}, nullptr, &refusal) && tells(refusal, 4, 3));
    CHECK(ids.make_with_held(5, 9, {4}, &refusal) == DVS_OUT_OF_RANGE && tells(refusal, 0, 0, 4));
    CHECK(!space.make(1, 0x1000) && !devices.make(5, 9, 1, 0x1000));
    CHECK(!space.allocate_first(16, 64, range) && is_range(range, 64, 79));
    CHECK(!space.allocate_last(16, 64, range) && is_range(range, 0xfc0, 0xfcf));
    CHECK(space.allocate_exact(16, 64, 65, range) == DVS_UNALIGNED_ADDRESS);
    CHECK(space.allocate_exact(16, 64, 64, range, &refusal) && tells(refusal, 64, 79));
    CHECK(!space.allocate(request::first(16, 64), range) && is_range(range, 128, 143));
    CHECK(!space.allocate(request::last(16, 64), range) && is_range(range, 0xf80, 0xf8f));
    CHECK(space.allocate(request::exact(16, 64, 65), range) == DVS_UNALIGNED_ADDRESS);
    CHECK(space.allocate({{8, 1, 130, DVS_EXACT, 0, 0}}, range, &refusal) &&
          tells(refusal, 130, 137));
    CHECK(space.allocate_all(twice, ranges, nullptr, &refusal) && ranges.empty());
    CHECK(tells(refusal, 99, 99));
    CHECK(!devices.reserve_first(16, 64, device) && is_range(device.range, 64, 79));
    CHECK(!devices.reserve_last(16, 64, device) && is_range(device.range, 0xfc0, 0xfcf));
    CHECK(devices.reserve_exact(16, 64, 65, device) == DVS_UNALIGNED_ADDRESS);
    CHECK(devices.reserve_exact(16, 64, 64, device, &refusal) && tells(refusal, 64, 79));
    CHECK(devices.reserve({{8, 1, 70, DVS_EXACT, 0, 0}}, device, &refusal) &&
          tells(refusal, 70, 77));
    tell_more_details();
    check_reader(&dvs::address_allocator::read);
    check_reader(&dvs::address_allocator::read_repaired);
    check_reader(&dvs::id_allocator::read);
    check_reader(&dvs::device_manager::read);
}

/* Makes each query on empty owners. */
static void ask_empty(const dvs::address_allocator &space, const dvs::id_allocator &ids,
                      const dvs::device_manager &devices) {
    std::string text = "kept";
    std::vector<dvs_range> ranges = {range_of(1, 2)};
    std::vector<uint32_t> numbers = {3};
    std::vector<dvs_device> slots = {{range_of(0, 0), 4}};
    dvs::address_allocator kept;
    dvs::each_range each_range;
    dvs::each_gap each_gap;
    dvs_range range = {8, 9};
    dvs_refusal refusal = {{1, 2}, {3, 4}, 5, 6, 7};
    dvs_device device = {{1, 2}, 3};
    uint64_t count = 4;
    uint32_t id = 5;
    bool is_allocated = true;
    auto see = [](dvs_range) { return true; };
    CHECK(!kept.make_with_held(5, 3, {range_of(5, 6)}));
    CHECK(!kept.ranges_from(0, each_range) && !kept.gaps_from(0, each_gap));
    const dvs::error all[] = {space.save(text),
                              space.space(range),
                              space.is_allocated(range, is_allocated),
                              space.at(0, range),
                              space.gap_at(0, range),
                              space.longest_gap(count),
                              space.range_count(count),
                              space.free_length(count),
                              space.ranges(ranges),
                              space.gaps(ranges),
                              space.ranges_from(0, each_range),
                              space.gaps_from(0, each_gap),
                              space.ranges_in(range, ranges),
                              space.for_each(see),
                              space.for_each_gap(see),
                              space.gaps_in(range, ranges),
                              space.for_each_from(0, see),
                              space.for_each_back(0, see),
                              space.for_each_gap_from(0, see),
                              space.for_each_gap_back(0, see),
                              space.conflict(dvs::request::first(1, 1), refusal),
                              ids.save(text),
                              ids.range(id, id),
                              ids.peek(id),
                              ids.is_allocated(0, is_allocated),
                              ids.id_count(count),
                              ids.free_count(count),
                              ids.ids(numbers),
                              ids.for_each([](uint32_t) { return true; }),
                              devices.save(text),
                              devices.ids(id, id),
                              devices.space(range),
                              devices.slot(0, range),
                              devices.device_count(count),
                              devices.devices(slots),
                              devices.for_each([](dvs_device) { return true; }),
                              devices.conflict(dvs::request::first(1, 1), refusal),
                              devices.at(0, device)};

    for (const dvs::error &one : all)
        CHECK(one == DVS_NULL);
    CHECK(is_range(ranges[0], 1, 2) && numbers[0] == 3 && slots[0].id == 4);
    CHECK(is_range(*each_range.begin(), 5, 6) && is_range(*each_gap.begin(), 7, 7));
    CHECK(space == space && !(ids != ids) && text == "kept");
    CHECK(is_range(range, 8, 9) && is_range(device.range, 1, 2) && device.id == 3);
    CHECK(count == 4 && id == 5 && is_allocated && refusal.size == 5 && refusal.cause == 7);
}

/* An owner whose calls run out of memory. */
static dvs_status copy_none(const dvs_address_allocator *, dvs_address_allocator **) {
    return DVS_OUT_OF_MEMORY;
}
static dvs_status save_none(const dvs_address_allocator *, char **, std::size_t *) {
    return DVS_OUT_OF_MEMORY;
}
static dvs_status read_none(const char *, std::size_t, const dvs_text_limits *,
                            dvs_address_allocator **, dvs_text_fault *) {
    return DVS_OUT_OF_MEMORY;
}

static void run_out_of_memory() {
    dvs::owner<dvs_address_allocator, dvs_address_allocator_destroy, copy_none,
               dvs_address_allocator_equal, save_none, read_none, dvs_range, dvs_range_visit>
        owner;
    dvs_address_allocator *made = nullptr;
    std::string text = "kept";

    CHECK(dvs_address_allocator_new(0, 16, &made) == DVS_OK && !owner.adopt(made));
    CHECK(owner.save(text) == DVS_OUT_OF_MEMORY && text == "kept");
    CHECK(owner.make_copy(owner) == DVS_OUT_OF_MEMORY && owner.read(text) == DVS_OUT_OF_MEMORY);
    CHECK(owner.get() == made);
}

/* Calls `action` in a visit of an owner's object, which has an item. */
template <typename Action> static void visit(const dvs::address_allocator &space, Action action) {
    auto one = [](void *context, dvs_range) { return (*static_cast<Action *>(context))(), 1; };
    CHECK(dvs_range_visit(space.get(), one, &action) == DVS_OK);
}
template <typename Action> static void visit(const dvs::id_allocator &ids, Action action) {
    auto one = [](void *context, uint32_t) { return (*static_cast<Action *>(context))(), 1; };
    CHECK(dvs_id_visit(ids.get(), one, &action) == DVS_OK);
}
template <typename Action> static void visit(const dvs::device_manager &devices, Action action) {
    auto one = [](void *context, dvs_device) { return (*static_cast<Action *>(context))(), 1; };
    CHECK(dvs_device_visit(devices.get(), one, &action) == DVS_OK);
}

/* Visits ids, devices and gaps until the second item. */
static void visit_each() {
    dvs::address_allocator space;
    dvs::id_allocator ids;
    dvs::device_manager devices;
    dvs_device device;
    std::vector<uint32_t> seen;
    std::vector<dvs_range> gaps;

    CHECK(!space.make_with_held(0, 9, {range_of(1, 1), range_of(3, 3)}));
    CHECK(!space.for_each_gap(take_two(gaps)) && gaps.size() == 2);
    CHECK(is_range(gaps[0], 0, 0) && is_range(gaps[1], 2, 2));
    CHECK(!ids.make_with_held(1, 9, {2, 4, 6}) && !devices.make(1, 9, 0, 64));
    auto see = [&seen](uint32_t id) { return seen.push_back(id), seen.size() % 2 == 1; };
    CHECK(!ids.for_each(see));
    for (int i = 0; i < 3; i++)
        CHECK(!devices.reserve_last(8, 8, device));
    CHECK(!devices.for_each([see](dvs_device one) { return see(one.range.start); }));
    CHECK(seen == std::vector<uint32_t>({2, 4, 56, 48}));
}

/* Checks that a lease frees its item once, and only if it still has it. */
template <typename Lease, typename Owner, typename Item>
static void lend(Owner &owner, Item item, const Owner &without) {
    Owner with;

    CHECK(!with.make_copy(owner));
    { Lease empty, lent(owner, item); }
    CHECK(owner == without && !owner.make_copy(with));
    {
        std::vector<Lease> all;
        Lease other, lent(owner, item);
        all.push_back(std::move(lent));
        CHECK(!lent && all[0] && memcmp(&all[0].get(), &item, sizeof item) == 0);
        other = std::move(all[0]);
        all.clear();
        CHECK(other && owner == with);
        lent = std::move(other);
        Item kept = lent.keep();
        CHECK(!lent && memcmp(&kept, &item, sizeof item) == 0);
    }
    CHECK(owner == with);
    visit(owner, [&] { Lease(owner, item); });
    CHECK(owner == with);
    static_assert(std::is_nothrow_move_constructible<Lease>::value &&
                      !std::is_copy_constructible<Lease>::value,
                  "two leases would free one item");
}

/* Runs the examples of divsharun.hpp. */
static void show() {
    dvs::address_allocator space;
    std::vector<dvs::range_lease> cards;
    std::vector<dvs_range> all;

    CHECK(!space.make(0x800, 0x4000));
    {
        dvs_range bar;
        if (!space.allocate_first(0x1000, 0x1000, bar))
            cards.emplace_back(dvs::range_lease(space, bar));
        dvs::error failed =
            space.allocate(dvs::request::first(0x1000, 0x1000).within({0, UINT32_MAX}), bar);
        CHECK(!failed && is_range(bar, 0x2000, 0x2fff));
    }
    dvs::each_range ranges;
    if (!space.ranges_from(0, ranges))
        for (dvs_range range : ranges)
            all.push_back(range);
    CHECK(all.size() == 2 && is_range(all[0], 0x1000, 0x1fff) && cards.size() == 1);
    cards.clear();
    CHECK(ranges_of(space).size() == 1);
}

static void lend_each() {
    dvs::address_allocator space, no_range;
    dvs::id_allocator ids, no_id;
    dvs::device_manager devices, no_device;
    dvs_device device;
    dvs_range range, next;
    uint32_t id = 0;

    CHECK(!space.make(0, 64) && !no_range.make(0, 64) && !space.allocate_first(8, 8, range));
    lend<dvs::range_lease>(space, range, no_range);
    CHECK(!space.allocate_first(8, 8, next));
    {
        dvs::range_lease one(space, range), other(space, next);
        one = std::move(other);
        CHECK(is_range(one.get(), next.start, next.end));
    }
    CHECK(space == no_range);
    /* Equal id allocators have the same freed ids. */
    CHECK(!ids.make(5, 9) && !ids.allocate(id) && !ids.free(id) && !no_id.make_copy(ids));
    CHECK(!ids.allocate(id));
    lend<dvs::id_lease>(ids, id, no_id);
    CHECK(!devices.make(5, 9, 0, 64) && !devices.reserve_first(8, 8, device));
    CHECK(!devices.release(5) && !no_device.make_copy(devices));
    CHECK(!devices.reserve_first(8, 8, device));
    lend<dvs::device_lease>(devices, device.id, no_device);
}

static void throw_in_a_visit() {
#ifdef __cpp_exceptions
    dvs::address_allocator space;
    int calls = 0;

    CHECK(!space.make_with_held(0, 16, {range_of(1, 1), range_of(3, 3), range_of(5, 5)}));
    try {
        CHECK(!space.for_each([&calls](dvs_range) -> bool {
            if (++calls == 2)
                throw std::runtime_error("two");
            return true;
        }));
        CHECK(!"the exception passes through");
    } catch (const std::runtime_error &two) {
        CHECK(calls == 2 && std::string(two.what()) == "two");
    }
    /* The allocator is not busy any more. */
    CHECK(!space.free(range_of(1, 1)));
    CHECK(!space.for_each([&calls](dvs_range) { return ++calls < 3; }) && calls == 3);
#endif
}

/* The counts of an object in which nothing is free, and of one in which all is. */
static void count_all_and_none() {
    dvs::id_allocator ids;
    dvs::address_allocator space;
    std::vector<uint32_t> list(2);
    dvs_range range;
    uint64_t held = 9, free = 9, gaps = 9;

    CHECK(!ids.make(5, 6) && !ids.id_count(held) && !ids.free_count(free) && held == 0 &&
          free == 2);
    CHECK(!ids.allocate_all(list));
    CHECK(!ids.id_count(held) && !ids.free_count(free) && held == 2 && free == 0);
    CHECK(!space.make(5, 2) && !space.range_count(held) && !space.gap_count(gaps) &&
          !space.free_length(free));
    CHECK(held == 0 && gaps == 1 && free == 2);
    CHECK(!space.allocate_first(2, 1, range) && !space.range_count(held) && !space.gap_count(gaps));
    CHECK(!space.free_length(free) && held == 1 && gaps == 0 && free == 0);
}

/* A visitor replaces an owner, and then calls `change`. A refused call destroys no object. */
template <typename Owner, typename Change>
static void keep_in_a_visit(Owner &owner, Change change) {
    Owner second, before;
    std::string text;
    auto *const kept = owner.get();

    CHECK(!second.make_copy(owner) && !before.make_copy(owner) && !owner.save(text));
    visit(owner, [&] {
        auto *const made = second.detach();
        CHECK(owner.adopt(made) == DVS_BUSY && owner.adopt(nullptr) == DVS_BUSY);
        CHECK(owner.adopt(kept) == DVS_OK && owner.get() == kept);
        CHECK(!second && !second.adopt(made) && second.get() == made && second == before);
        CHECK(owner.make_copy(second) == DVS_BUSY && owner.make_copy(owner) == DVS_BUSY);
        CHECK(owner.make_copy(Owner()) == DVS_NULL && owner.read("{}") == DVS_NOT_A_STATE);
        CHECK(owner.read(text) == DVS_BUSY && owner.get() == kept);
        std::swap(owner, second);
        CHECK(owner.get() == made && second.get() == kept && !owner.make_copy(second));
        owner = std::move(second);
        CHECK(owner.get() == kept && second == before);
        Owner moved(std::move(owner));
        CHECK(!owner && moved.get() == kept && owner.adopt(moved.detach()) == DVS_OK);
        CHECK(!moved && owner.get() == kept && !second.make_copy(owner));
        change();
        CHECK(owner.get() == kept && owner == before);
    });
    CHECK(!owner.adopt(second.detach()) && owner == before && !owner.make_copy(before));
}

/* divsharun.hpp: "A method that replaces the object returns DVS_BUSY, after every other error,
 * during a visit of the object." */

/* Calls each other method that changes an object, also with nothing to do. */
static void change_in_a_visit() {
    using dvs::request;
    dvs::address_allocator space;
    dvs::id_allocator ids;
    dvs::device_manager devices;
    dvs_device device = {{0, 0}, 0};
    dvs_range range = {1, 1};
    uint32_t id = 0;
    std::vector<dvs_range> ranges = {{3, 4}};
    std::vector<uint32_t> several = {7, 8}, none;
    std::string text;

    CHECK(!space.make_with_held(0, 16, {range}) && !ids.make_with_held(5, 9, {5}));
    CHECK(!devices.make(5, 9, 0, 16) && !devices.reserve_first(1, 1, device) && !space.save(text));
    keep_in_a_visit(space, [&] {
        const dvs::error all[] = {space.make(0, 16),
                                  space.make_with_held(0, 16, {range}),
                                  space.make_with_free({range}),
                                  space.read_repaired(text),
                                  space.allocate_first(1, 1, range),
                                  space.allocate_last(1, 1, range),
                                  space.allocate_exact(1, 1, 2, range),
                                  space.allocate(request::first(1, 1), range),
                                  space.allocate_all({}, ranges),
                                  space.allocate_all({request::first(1, 1)}, ranges),
                                  space.move_range(range, 1, range),
                                  space.move_range(range, request::exact(1, 1, 1), range),
                                  space.free(range)};
        for (const dvs::error &one : all)
            CHECK(one == DVS_BUSY);
        CHECK(space.make(0, 0) == DVS_UNDERFLOW && is_range(range, 1, 1));
        CHECK(are_same(ranges, {{3, 4}}));
    });
    keep_in_a_visit(ids, [&] {
        const dvs::error all[] = {ids.make(5, 9),
                                  ids.make_with_held(5, 9, {5}),
                                  ids.allocate(id),
                                  ids.allocate_exact(6),
                                  ids.allocate_in(6, 9, id),
                                  ids.allocate_all(none),
                                  ids.allocate_all(several),
                                  ids.free(5)};
        for (const dvs::error &one : all)
            CHECK(one == DVS_BUSY);
        CHECK(ids.make(9, 5) == DVS_INVALID_RANGE && id == 0);
        CHECK(several == std::vector<uint32_t>({7, 8}));
    });
    keep_in_a_visit(devices, [&] {
        const dvs::error all[] = {devices.make(5, 9, 0, 16),
                                  devices.reserve_first(1, 1, device),
                                  devices.reserve_last(1, 1, device),
                                  devices.reserve_exact(1, 1, 1, device),
                                  devices.reserve(request::first(1, 1), device),
                                  devices.release(5)};
        for (const dvs::error &one : all)
            CHECK(one == DVS_BUSY);
        CHECK(devices.make(5, 9, 0, 0) == DVS_UNDERFLOW && device.id == 5);
    });
}

/* divsharun.hpp: "A move assignment exchanges two objects, so that none is lost." */

/* A visitor replaces the owner of the object that it visits. */
static void replace_in_a_visit() {
    dvs::address_allocator space, other;
    int calls = 0;

    CHECK(!space.make_with_held(0, 16, {range_of(1, 1)}) && !other.make(16, 16));
    CHECK(!space.for_each([&](dvs_range) {
        space = std::move(other);
        CHECK(ranges_of(space).empty() && ranges_of(other).size() == 1);
        CHECK(other.free(range_of(1, 1)) == DVS_BUSY && !space.make(16, 16));
        return ++calls < 9;
    }));
    CHECK(calls == 1 && !other.free(range_of(1, 1)) && !other.make(0, 16));
    dvs::address_allocator &itself = space;
    space = std::move(itself);
    CHECK(space && gaps_of(space).size() == 1);
    dvs_address_allocator *object = space.detach();
    CHECK(!space && !other.adopt(object) && other.get() == object);
    CHECK(!other.adopt(object) && gaps_of(other).size() == 1);
}

/* divsharun.hpp: "The destructor of an owner destroys nothing during a visit of the object." */

/* Destroys an owner in a visit. The object exists after it. */
static void destroy_in_a_visit() {
    dvs::address_allocator *owner = new dvs::address_allocator, kept;

    CHECK(!owner->make_with_held(0, 9, {range_of(1, 1), range_of(3, 3)}));
    dvs_address_allocator *const object = owner->get();
    CHECK(!owner->for_each([&owner](dvs_range) { return delete owner, owner = nullptr, true; }));
    CHECK(!kept.adopt(object) && ranges_of(kept).size() == 2);
}

int main() {
    allocate();
    allocate_in_windows();
    allocate_all_in_windows();
    copy_windows();
    copy();
    /* A walk without end fails here, and loop() would take all memory. */
    walk_from_addresses();
    loop();
    replace_in_loops();
    count_steps();
    pass_large_numbers();
    pass_large_ids();
    pass_long_lists();
    compare_errors();
    ask();
    reserve_in_windows();
    save();
    keep_values();
    keep_several_values();
    tell_details();
    ask_empty({}, {}, {});
    run_out_of_memory();
    visit_each();
    lend_each();
    show();
    throw_in_a_visit();
    count_all_and_none();
    change_in_a_visit();
    replace_in_a_visit();
    destroy_in_a_visit();
    puts("owners: the header for C++ checked");
    return 0;
}
