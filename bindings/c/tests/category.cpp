/* SPDX-License-Identifier: Apache-2.0 OR BSD-3-Clause */
/* A second file of the program of owners.cpp. */
#include "category.hpp"

const std::error_category &category_of_second_file() noexcept {
    return dvs::category();
}
