/* SPDX-License-Identifier: Apache-2.0 OR BSD-3-Clause */
/* Ignores an error in each function. Every compiler must warn. */
#include <divsharun.hpp>

void ignore(dvs_range);

void make(dvs::id_allocator &ids) {
    ids.make(1, 2);
}

dvs::error visit(dvs::address_allocator &space) {
    return space.for_each([](dvs_range) { return true; });
}

void loop(dvs::each_gap gaps) {
    for (auto gap : gaps)
        ignore(gap);
}
