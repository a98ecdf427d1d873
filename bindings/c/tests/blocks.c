/* SPDX-License-Identifier: Apache-2.0 OR BSD-3-Clause */
/*
 * Is linked into a library whose examples are in other languages. The number of allocated blocks is
 * in the file that BLOCKS names, also after a program that ends without the C library, as in Go.
 */
#include <fcntl.h>
#include <stdlib.h>
#include <sys/mman.h>
#include <unistd.h>

static long *in_file;
#define blocks (*in_file)
#include "refuse.h"

__attribute__((constructor)) static void map_file(void) {
    int file = open(getenv("BLOCKS"), O_RDWR | O_CREAT, 0600);

    if (file < 0 || ftruncate(file, sizeof *in_file) != 0)
        abort();
    in_file = (long *)mmap(NULL, sizeof *in_file, PROT_READ | PROT_WRITE, MAP_SHARED, file, 0);
    if (in_file == MAP_FAILED)
        abort();
}
