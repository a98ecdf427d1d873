/* SPDX-License-Identifier: Apache-2.0 OR BSD-3-Clause */
#ifndef CATEGORY_HPP
#define CATEGORY_HPP

#include <divsharun.hpp>

/* Returns the category of errors in another file, which must be the same object. */
const std::error_category &category_of_second_file() noexcept;

#endif
