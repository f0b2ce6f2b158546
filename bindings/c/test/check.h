/* A small frame for the tests. Each check counts. One that fails prints its line and what it compared. */
#ifndef MORTARPINK_TEST_CHECK_H
#define MORTARPINK_TEST_CHECK_H

#include "mortarpink.h"

#include <inttypes.h>
#include <stdio.h>

static unsigned long checks, failures;

static inline void check_line(int line, const char *text, int holds) {
    checks++;
    if (holds) return;
    failures++;
    printf("line %d: %s does not hold\n", line, text);
}

static inline void check_equal_line(int line, const char *text, uint64_t got, uint64_t wanted) {
    checks++;
    if (got == wanted) return;
    failures++;
    printf("line %d: %s is %" PRIu64 ", and not %" PRIu64 "\n", line, text, got, wanted);
}

static inline void check_status_line(int line, const char *text, mortarpink_status got, mortarpink_status wanted) {
    checks++;
    if (got == wanted) return;
    failures++;
    printf("line %d: %s: %s (%u), and not: %s (%u)\n", line, text, mortarpink_status_text(got), (unsigned)got,
           mortarpink_status_text(wanted), (unsigned)wanted);
}

#define check(condition) check_line(__LINE__, #condition, (condition) != 0)
#define check_equal(got, wanted) check_equal_line(__LINE__, #got, (uint64_t)(got), (uint64_t)(wanted))
#define check_status(call, wanted) check_status_line(__LINE__, #call, call, wanted)
#define check_done(call) check_status(call, MORTARPINK_DONE)

/* Prints the last line of a program, and returns its exit status. */
static inline int finish(const char *what, unsigned long count, unsigned long failed) {
    printf("%lu %s, %lu failed\n", count, what, failed);
    return failed != 0 || count == 0;
}

#endif
