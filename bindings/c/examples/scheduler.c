/* A scheduler gives slots to jobs, and commits once per minute: which slots were taken at an earlier minute?
 *
 * With the package in ~/mortarpink, in this folder:
 *
 *     cc scheduler.c -I ~/mortarpink/include ~/mortarpink/lib/libmortarpink.a -o scheduler && ./scheduler */
#include "must.h"

#include <inttypes.h>

enum { SLOTS = 24, MINUTES = 5, MOST = 12 };

/* Per minute: how many jobs start, and which slots become free. */
static const struct {
    size_t starting, freed;
    uint64_t slots[3];
} PLAN[MINUTES] = {{5, 0, {0}}, {4, 2, {1, 3}}, {6, 1, {0}}, {0, 3, {2, 4, 5}}, {12, 0, {0}}};

/* Writes the lowest free slots, at most so many, and returns how many. */
static size_t free_slots(const mortarpink_bitmap *slots, uint64_t *found, size_t most) {
    size_t count = 0;
    uint64_t from = 0, slot = 0;
    while (count < most && mortarpink_next_zero(slots, from, &slot) == MORTARPINK_DONE) {
        found[count++] = slot;
        from = slot + 1;
    }
    return count;
}

/* Gives slots to the jobs of a minute, and takes those back whose jobs have ended. */
static void run_minute(mortarpink_bitmap *slots, uint64_t minute) {
    uint64_t taken[MOST] = {0}, previous = 0;
    size_t done = 0;
    const size_t count = free_slots(slots, taken, PLAN[minute - 1].starting);
    must(mortarpink_begin(slots));
    must(mortarpink_set_many(slots, PLAN[minute - 1].slots, PLAN[minute - 1].freed, 0, &done));
    must(mortarpink_set_many(slots, taken, count, 1, &done));
    must(mortarpink_commit(slots, minute, &previous));
    printf("minute %" PRIu64 ": jobs that start: %zu of %zu, slots that become free: %zu\n", minute, count,
           PLAN[minute - 1].starting, PLAN[minute - 1].freed);
}

int main(void) {
    mortarpink_bitmap slots = MORTARPINK_EMPTY;
    uint64_t previous = 0, count = 0, first = 0;
    must(mortarpink_new(&slots, 8));
    must(mortarpink_begin(&slots));
    must(mortarpink_extend_to(&slots, SLOTS));
    must(mortarpink_commit(&slots, 0, &previous));
    for (uint64_t minute = 1; minute <= MINUTES; minute++) run_minute(&slots, minute);

    for (uint64_t minute = 0; minute <= MINUTES; minute++) {
        must(mortarpink_count_ones_at(&slots, minute, 0, SLOTS, &count));
        printf("at minute %" PRIu64 ": %" PRIu64 " taken", minute, count);
        if (mortarpink_next_zero_at(&slots, minute, 0, &first) == MORTARPINK_DONE) printf(", slot %" PRIu64 " was the first free one", first);
        printf("\n");
    }
    must(mortarpink_free(&slots));
    return 0;
}
