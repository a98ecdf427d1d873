/* SPDX-License-Identifier: Apache-2.0 OR BSD-3-Clause */
/*
 * Guards against a visitor that does not return without notice: the process must end
 * with abort(), after a line that gives the reason. A visitor can call exit().
 */
#include "check.h"

#include <divsharun.hpp>

#include <csignal>
#include <pthread.h>
#include <sys/wait.h>
#include <unistd.h>

static int throw_one(void *, dvs_range) {
    throw 1;
}

static int exit_thread(void *, dvs_range) {
    pthread_exit(nullptr);
}

static int cancel_thread(void *, dvs_range) {
    pthread_cancel(pthread_self());
    pthread_testcancel();
    return 0;
}

/* divsharun.hpp: "So a visitor can call exit(), and the object lives on then." */

/* exit() destroys this owner in a visit of its object. */
static dvs::address_allocator kept;

static int exit_process(void *, dvs_range range) {
    CHECK(!kept.make_with_held(0, 10, {range}));
    CHECK(!kept.for_each([](dvs_range) -> bool { exit(0); }));
    return 0;
}

static void *visit(void *context) {
    dvs_range_visitor *visitor = *static_cast<dvs_range_visitor **>(context);
    dvs_address_allocator *space;
    dvs_range range;

    CHECK(dvs_address_allocator_new(0, 10, &space) == DVS_OK);
    CHECK(dvs_range_allocate_first(space, 1, 1, &range, nullptr) == DVS_OK);
    try {
        dvs_range_visit(space, visitor, nullptr);
    } catch (int) {
        _exit(1);
    }
    return nullptr;
}

/* Visits in a thread, and exits if the visit returns. */
static void visit_in_child(dvs_range_visitor *visitor, FILE *said) {
    pthread_t thread;

    CHECK(dup2(fileno(said), STDERR_FILENO) == STDERR_FILENO);
    CHECK(pthread_create(&thread, nullptr, visit, &visitor) == 0);
    pthread_join(thread, nullptr);
    _exit(2);
}

/* Checks how a process ends, and what it writes to the standard error stream. */
/* divsharun.h: "The process ends with abort() if a C++ exception leaves it, if it calls
 * pthread_exit(), or if its thread is cancelled in it." */
static void check_ends(dvs_range_visitor *visitor, int signal, const std::string &text) {
    FILE *said = tmpfile();
    char line[100] = "";
    pid_t child = fork();
    int ended;

    CHECK(said != nullptr && child >= 0);
    if (child == 0)
        visit_in_child(visitor, said);
    CHECK(waitpid(child, &ended, 0) == child);
    CHECK(signal == 0 ? ended == 0 : WIFSIGNALED(ended) && WTERMSIG(ended) == signal);
    rewind(said);
    CHECK((fgets(line, sizeof line, said) != nullptr) == !text.empty() && line == text);
    CHECK(fclose(said) == 0);
}

int main() {
    const char *reason = "divsharun: the process ends because a visitor did not return\n";

    check_ends(throw_one, SIGABRT, reason);
    check_ends(exit_thread, SIGABRT, reason);
    check_ends(cancel_thread, SIGABRT, reason);
    check_ends(exit_process, 0, "");
    return 0;
}
