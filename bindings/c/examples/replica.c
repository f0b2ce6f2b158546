/* A writer sends deltas to a replica. A replica that was away begins anew with the writer's history.
 *
 * With the package in ~/mortarpink, in this folder:
 *
 *     cc replica.c -I ~/mortarpink/include ~/mortarpink/lib/libmortarpink.a -o replica && ./replica */
#include "must.h"

#include <inttypes.h>
#include <string.h>

enum { WIDTH = 8, LAST = 5 };

/* Bytes in memory of the program. */
struct bytes {
    uint8_t *at;
    size_t size;
};

/* Commits some edits that depend on the number. */
static void commit(mortarpink_bitmap *writer, uint64_t number) {
    uint8_t events[100], bit = 0;
    uint64_t previous = 0;
    size_t count = 0;
    memset(events, (int)number, sizeof events);
    must(mortarpink_begin(writer));
    must(mortarpink_push_bytes(writer, events, sizeof events, &count));
    must(mortarpink_get(writer, number, &bit));
    must(mortarpink_set(writer, number, !bit));
    must(mortarpink_commit(writer, number, &previous));
}

/* Returns memory for so many bytes. */
static struct bytes space(size_t size) {
    struct bytes bytes = {calloc(size, 1), size};
    if (!bytes.at) must(MORTARPINK_NO_MEMORY);
    return bytes;
}

/* Returns the history of a bitmap. */
static struct bytes history_of(const mortarpink_bitmap *bitmap) {
    uint8_t none = 0;
    size_t size = 0;
    if (mortarpink_save(bitmap, &none, 0, &size) != MORTARPINK_WRONG_SIZE) exit(1);
    struct bytes bytes = space(size);
    must(mortarpink_save(bitmap, bytes.at, bytes.size, &size));
    return bytes;
}

/* Returns the delta between two commits. */
static struct bytes delta_of(const mortarpink_bitmap *bitmap, uint64_t from, uint64_t to) {
    uint8_t none = 0;
    size_t size = 0;
    if (mortarpink_delta(bitmap, from, to, &none, 0, &size) != MORTARPINK_WRONG_SIZE) exit(1);
    struct bytes bytes = space(size);
    must(mortarpink_delta(bitmap, from, to, bytes.at, bytes.size, &size));
    return bytes;
}

/* Makes a bitmap of the writer's history, in an empty handle. */
static void begin(mortarpink_bitmap *replica, const mortarpink_bitmap *writer) {
    struct bytes history = history_of(writer);
    size_t used = 0;
    must(mortarpink_load(replica, WIDTH, 0, UINT64_MAX, 0, UINT64_MAX, history.at, history.size, &used));
    free(history.at);
}

/* Sends the delta between two commits to a replica, and prints what comes of it. */
static void send(const mortarpink_bitmap *writer, uint64_t from, uint64_t to, mortarpink_bitmap *replica) {
    struct bytes delta = delta_of(writer, from, to);
    const mortarpink_status status = mortarpink_apply_delta(replica, delta.at, delta.size);
    printf("delta from %" PRIu64 " to %" PRIu64 ", %zu bytes: %s\n", from, to, delta.size, mortarpink_status_text(status));
    free(delta.at);
}

/* Whether two bitmaps have equal histories: these have equal bytes. */
static int are_equal(const mortarpink_bitmap *one, const mortarpink_bitmap *other) {
    struct bytes first = history_of(one), second = history_of(other);
    const int equal = first.size == second.size && !memcmp(first.at, second.at, first.size);
    free(first.at);
    free(second.at);
    return equal;
}

int main(void) {
    mortarpink_bitmap writer = MORTARPINK_EMPTY, near = MORTARPINK_EMPTY, away = MORTARPINK_EMPTY;
    must(mortarpink_new(&writer, WIDTH));
    commit(&writer, 1);
    begin(&near, &writer);
    begin(&away, &writer);

    for (uint64_t number = 2; number <= LAST; number++) {
        commit(&writer, number);
        send(&writer, number - 1, number, &near);
    }
    printf("near is equal: %s\n", are_equal(&near, &writer) ? "yes" : "no");

    /* A delta for another version is refused. One delta spans the commits that a replica missed. */
    send(&writer, LAST - 1, LAST, &away);
    send(&writer, 1, LAST, &away);
    printf("away is equal: %s\n", are_equal(&away, &writer) ? "yes" : "no");
    must(mortarpink_free(&away));
    begin(&away, &writer);
    printf("away is equal: %s\n", are_equal(&away, &writer) ? "yes" : "no");

    must(mortarpink_free(&away));
    must(mortarpink_free(&near));
    must(mortarpink_free(&writer));
    return 0;
}
