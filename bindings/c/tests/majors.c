/* SPDX-License-Identifier: Apache-2.0 OR BSD-3-Clause */
/*
 * A program with this library, and with a plugin that uses another major version of it.
 * OTHER makes that library of this file, and PLUGIN the plugin.
 */
#include "check.h"

uint32_t version_of_plugin(void);

#ifdef OTHER
uint32_t dvs_version_number(void) {
    return DVS_VERSION_NUMBER + 10000;
}
#elif defined PLUGIN
uint32_t version_of_plugin(void) {
    return dvs_version_number();
}
#else
int main(void) {
    CHECK(dvs_version_number() == DVS_VERSION_NUMBER);
    CHECK(version_of_plugin() == DVS_VERSION_NUMBER + 10000);
    return 0;
}
#endif
