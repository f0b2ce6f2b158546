/* A log of events with a window: old events and old commits are dropped, while a thread counts the events of an old version.
 *
 * With the package in ~/mortarpink, in this folder:
 *
 *     cc -pthread window.c -I ~/mortarpink/include ~/mortarpink/lib/libmortarpink.a -o window && ./window */
#include "must.h"

#include <inttypes.h>
#include <pthread.h>

/* The window: how many bits stay, and how many commits. */
enum { BITS = 512, COMMITS = 4, WIDTH = 8 };

/* Appends 128 events, prunes the chunks before the window, and drops the commits before it. */
static void append(mortarpink_bitmap *log, uint64_t number) {
    uint8_t events[16];
    uint64_t length = 0, previous = 0, dropped = 0;
    size_t count = 0;
    for (size_t k = 0; k < sizeof events; k++) events[k] = k % 2 == 0 ? (uint8_t)number : 255;
    must(mortarpink_begin(log));
    must(mortarpink_push_bytes(log, events, sizeof events, &count));
    must(mortarpink_len(log, &length));
    must(mortarpink_prune(log, length > BITS ? length - BITS : 0));
    must(mortarpink_commit(log, number, &previous));
    must(mortarpink_drop_before(log, number >= COMMITS ? number - COMMITS + 1 : 0, &dropped));
}

/* A version that a thread counts, and what it has counted. */
struct reader {
    mortarpink_bitmap version;
    uint64_t events, set;
};

static void *count(void *argument) {
    struct reader *reader = argument;
    must(mortarpink_len(&reader->version, &reader->events));
    must(mortarpink_count_ones(&reader->version, 0, reader->events, &reader->set));
    return NULL;
}

static void print_window(const mortarpink_bitmap *log) {
    uint64_t length = 0, pruned = 0, set = 0, numbers[COMMITS] = {0};
    size_t kept = 0;
    must(mortarpink_len(log, &length));
    must(mortarpink_pruned_chunks(log, &pruned));
    must(mortarpink_count_ones(log, 0, length, &set));
    must(mortarpink_commits(log, 0, numbers, COMMITS, &kept));
    printf("now %" PRIu64 " events, those from %" PRIu64 " on are kept, and %" PRIu64 " of these are set\n", length, 8 * WIDTH * pruned, set);
    printf("%zu commits are kept, from %" PRIu64 " to %" PRIu64 "\n", kept, numbers[0], numbers[kept - 1]);
}

int main(void) {
    mortarpink_bitmap log = MORTARPINK_EMPTY;
    struct reader reader = {MORTARPINK_EMPTY, 0, 0};
    pthread_t thread;
    must(mortarpink_new(&log, WIDTH));
    for (uint64_t number = 1; number < 6; number++) append(&log, number);

    /* The thread has a bitmap of its own, so the log is written meanwhile. */
    must(mortarpink_checkout(&log, 3, &reader.version));
    if (pthread_create(&thread, NULL, count, &reader)) return 1;
    for (uint64_t number = 6; number < 21; number++) append(&log, number);
    if (pthread_join(thread, NULL)) return 1;

    printf("version 3, counted while the log went on: %" PRIu64 " events, %" PRIu64 " of them set\n", reader.events, reader.set);
    print_window(&log);
    must(mortarpink_free(&reader.version));
    must(mortarpink_free(&log));
    return 0;
}
