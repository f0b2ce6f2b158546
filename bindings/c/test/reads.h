/* The calls that take a handle as `const`, which the tests of reads make in turn. */
#ifndef MORTARPINK_TEST_READS_H
#define MORTARPINK_TEST_READS_H

#include "check.h"

#include <string.h>

enum { COMMITS = 4, READ_BYTES = 2048, READ_NUMBERS = 64, BATCH_BITS = 700 };

/* Where the reads write. */
struct outputs {
    uint64_t number, numbers[READ_NUMBERS];
    size_t size;
    uint8_t bit, bytes[READ_BYTES];
};

/* What some reads have returned: how many they were, and a digest of their statuses and outputs. */
struct reads {
    uint64_t count, digest;
};

static inline void add_to_digest(struct reads *reads, const void *bytes, size_t size) {
    for (size_t k = 0; k < size; k++) reads->digest = (reads->digest ^ ((const uint8_t *)bytes)[k]) * 1099511628211u;
}

/* Adds the status and the outputs of a call. */
static inline void add_read(struct reads *reads, mortarpink_status status, struct outputs *out) {
    reads->count++;
    add_to_digest(reads, &status, sizeof status);
    add_to_digest(reads, &out->number, sizeof out->number);
    add_to_digest(reads, out->numbers, sizeof out->numbers);
    add_to_digest(reads, &out->size, sizeof out->size);
    add_to_digest(reads, &out->bit, sizeof out->bit);
    add_to_digest(reads, out->bytes, sizeof out->bytes);
}

/* The statement `READ(call)` makes one call, which writes to `out`, and adds it to `reads`. A test may have another one. */
#ifndef READ
#define READ(call) add_read(reads, call, out)
#endif

/* Reads the visible bitmap at a position. */
static inline void read_visible(const mortarpink_bitmap *bitmap, uint32_t width, uint64_t position,
                                struct reads *reads, struct outputs *out) {
    READ(mortarpink_len(bitmap, &out->number));
    READ(mortarpink_pruned_chunks(bitmap, &out->number));
    READ(mortarpink_get(bitmap, position, &out->bit));
    READ(mortarpink_chunk(bitmap, position, out->bytes, width));
    READ(mortarpink_read_bytes(bitmap, position, position + 500, out->bytes, 63));
}

/* Reads the current bitmap from a position on. */
static inline void read_current(const mortarpink_bitmap *bitmap, uint64_t position, struct reads *reads,
                                struct outputs *out) {
    READ(mortarpink_ones(bitmap, position, UINT64_MAX, out->numbers, READ_NUMBERS, &out->size));
    READ(mortarpink_next_one(bitmap, position, &out->number));
    READ(mortarpink_next_zero(bitmap, position, &out->number));
    READ(mortarpink_prev_one(bitmap, position, &out->number));
    READ(mortarpink_prev_zero(bitmap, position, &out->number));
    READ(mortarpink_count_ones(bitmap, 0, position, &out->number));
    READ(mortarpink_select_one(bitmap, position / 3, &out->number));
    READ(mortarpink_encode(bitmap, out->bytes, 0, &out->size));
    READ(mortarpink_encode(bitmap, out->bytes, out->size <= READ_BYTES ? out->size : 0, &out->size));
}

/* Reads the bitmap at a commit from a position on. */
static inline void read_past(const mortarpink_bitmap *bitmap, uint32_t width, uint64_t number, uint64_t position,
                             struct reads *reads, struct outputs *out) {
    READ(mortarpink_len_at(bitmap, number, &out->number));
    READ(mortarpink_pruned_chunks_at(bitmap, number, &out->number));
    READ(mortarpink_get_at(bitmap, number, position, &out->bit));
    READ(mortarpink_chunk_at(bitmap, number, position, out->bytes, width));
    READ(mortarpink_read_bytes_at(bitmap, number, position, position + 100, out->bytes, 13));
    READ(mortarpink_ones_at(bitmap, number, position, UINT64_MAX, out->numbers, READ_NUMBERS, &out->size));
    READ(mortarpink_next_one_at(bitmap, number, position, &out->number));
    READ(mortarpink_next_zero_at(bitmap, number, position, &out->number));
    READ(mortarpink_prev_one_at(bitmap, number, position, &out->number));
    READ(mortarpink_prev_zero_at(bitmap, number, position, &out->number));
    READ(mortarpink_count_ones_at(bitmap, number, 0, position, &out->number));
    READ(mortarpink_select_one_at(bitmap, number, position / 3, &out->number));
    READ(mortarpink_encode_at(bitmap, number, out->bytes, 0, &out->size));
    READ(mortarpink_encode_at(bitmap, number, out->bytes, out->size <= READ_BYTES ? out->size : 0, &out->size));
}

/* Reads the commits around a number. */
static inline void read_commits(const mortarpink_bitmap *bitmap, uint64_t number, struct reads *reads,
                                struct outputs *out) {
    READ(mortarpink_commits(bitmap, number, out->numbers, READ_NUMBERS, &out->size));
    READ(mortarpink_exists(bitmap, number, &out->bit));
    READ(mortarpink_latest(bitmap, &out->number));
    READ(mortarpink_earliest(bitmap, &out->number));
    READ(mortarpink_changed_chunks(bitmap, number, COMMITS, 0, out->numbers, READ_NUMBERS, &out->size));
    READ(mortarpink_entries(bitmap, &out->number));
    READ(mortarpink_delta(bitmap, number, COMMITS, out->bytes, 0, &out->size));
    READ(mortarpink_delta(bitmap, number, COMMITS, out->bytes, out->size <= READ_BYTES ? out->size : 0, &out->size));
    READ(mortarpink_log_bytes(bitmap, out->bytes, 0, &out->size));
    READ(mortarpink_log_bytes(bitmap, out->bytes, out->size <= READ_BYTES ? out->size : 0, &out->size));
    READ(mortarpink_log_position(bitmap, &out->number));
    READ(mortarpink_log_digest(bitmap, &out->number));
    READ(mortarpink_save(bitmap, out->bytes, 0, &out->size));
    READ(mortarpink_save(bitmap, out->bytes, out->size <= READ_BYTES ? out->size : 0, &out->size));
}

/* Copies the bitmap, and the one at a commit, and reads the copies. */
static inline void read_copies(const mortarpink_bitmap *bitmap, uint64_t number, struct reads *reads,
                               struct outputs *out) {
    mortarpink_bitmap copy = MORTARPINK_EMPTY;
    READ(mortarpink_clone(bitmap, &copy));
    READ(mortarpink_len(&copy, &out->number));
    mortarpink_free(&copy);
    READ(mortarpink_checkout(bitmap, number, &copy));
    READ(mortarpink_len(&copy, &out->number));
    mortarpink_free(&copy);
}

/* Makes every call that takes a handle as `const`, also with arguments that it refuses. */
static inline struct reads read_all(const mortarpink_bitmap *bitmap, uint32_t width) {
    struct reads sum = {0, 14695981039346656037u}, *reads = &sum;
    struct outputs outputs, *out = &outputs;
    memset(out, 0, sizeof *out);
    for (uint64_t position = 0; position < 5 * BATCH_BITS; position += 311) {
        read_visible(bitmap, width, position, reads, out);
        read_current(bitmap, position, reads, out);
    }
    for (uint64_t number = 0; number <= COMMITS + 1; number++) {
        read_past(bitmap, width, number, 500 * number, reads, out);
        read_commits(bitmap, number, reads, out);
        read_copies(bitmap, number, reads, out);
    }
    READ(mortarpink_chunk(bitmap, 0, out->bytes, width + 1));
    READ(mortarpink_chunk_at(bitmap, 1, 0, out->bytes, width - 1));
    return sum;
}

/* Makes a bitmap with commits 1 to COMMITS in an empty handle. Each appends bits and replaces some, and the last but one
 * prunes. */
static inline void make_commits(mortarpink_bitmap *bitmap, uint32_t width) {
    uint64_t previous = 0;
    check_done(mortarpink_new(bitmap, width));
    for (uint64_t number = 1; number <= COMMITS; number++) {
        check_done(mortarpink_begin(bitmap));
        for (uint64_t k = 0; k < BATCH_BITS; k++) check_done(mortarpink_push(bitmap, (k * number) % 3 == 0));
        if (number == COMMITS - 1) check_done(mortarpink_prune(bitmap, BATCH_BITS));
        for (uint64_t k = BATCH_BITS; k < BATCH_BITS * number; k += 173) check_done(mortarpink_set(bitmap, k, number % 2));
        check_done(mortarpink_commit(bitmap, number, &previous));
    }
}

#endif
