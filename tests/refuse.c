/*
 * Makes allocations of a program fail. LD_PRELOAD loads it before the C
 * library.
 * - REFUSE_AFTER=SIZE fails each allocation after the first one of SIZE bytes.
 * - REFUSE_ONLY=NUMBER fails only one of these, and each if it is 0. Numbers start
 *   at 1.
 * - REFUSED=FILE: each failed allocation adds one byte to FILE.
 */
#define _GNU_SOURCE
#include <dlfcn.h>
#include <fcntl.h>
#include <stddef.h>
#include <stdlib.h>
#include <unistd.h>

static int last_was_met;
static unsigned long after;

static unsigned long number_of(const char *name) {
    const char *text = getenv(name);
    return text ? strtoul(text, NULL, 10) : 0;
}

static int is_after_the_last(size_t size) {
    if (last_was_met) {
        unsigned long only = number_of("REFUSE_ONLY");
        after++;
        return only == 0 || only == after;
    }
    last_was_met = size != 0 && number_of("REFUSE_AFTER") == size;
    return 0;
}

static int is_refused(size_t size) {
    if (!is_after_the_last(size)) return 0;
    const char *told = getenv("REFUSED");
    if (told) {
        int file = open(told, O_WRONLY | O_CREAT | O_APPEND, 0644);
        if (file < 0 || write(file, "r", 1) != 1 || close(file) != 0) abort();
    }
    return 1;
}

void *malloc(size_t size) {
    static void *(*next)(size_t);
    if (!next) next = (void *(*)(size_t))dlsym(RTLD_NEXT, "malloc");
    return is_refused(size) ? NULL : next(size);
}

void *realloc(void *old, size_t size) {
    static void *(*next)(void *, size_t);
    if (!next) next = (void *(*)(void *, size_t))dlsym(RTLD_NEXT, "realloc");
    return is_refused(size) ? NULL : next(old, size);
}
