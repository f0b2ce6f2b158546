/* Tests of threads that read one bitmap at the same time, while none edits it. */
#define _DEFAULT_SOURCE

#include <pthread.h>

#include "reads.h"

enum { THREADS = 4, ROUNDS = 6 };

/* What one thread reads, and what it has read. */
struct reader {
    const mortarpink_bitmap *bitmap;
    uint32_t width;
    struct reads rounds[ROUNDS];
};

static void *read_in_rounds(void *argument) {
    struct reader *reader = argument;
    for (int round = 0; round < ROUNDS; round++) reader->rounds[round] = read_all(reader->bitmap, reader->width);
    return NULL;
}

/* Compares what each round of each thread read with what this thread reads alone. */
static void test_readers(const mortarpink_bitmap *bitmap, uint32_t width) {
    const struct reads alone = read_all(bitmap, width);
    struct reader readers[THREADS];
    pthread_t threads[THREADS];
    for (int k = 0; k < THREADS; k++) {
        readers[k].bitmap = bitmap;
        readers[k].width = width;
        check_equal(pthread_create(&threads[k], NULL, read_in_rounds, &readers[k]), 0);
    }
    for (int k = 0; k < THREADS; k++) check_equal(pthread_join(threads[k], NULL), 0);
    for (int k = 0; k < THREADS; k++) {
        for (int round = 0; round < ROUNDS; round++) {
            check_equal(readers[k].rounds[round].count, alone.count);
            check_equal(readers[k].rounds[round].digest, alone.digest);
        }
    }
}

/* The threads read outside a batch, without and with an index and a log, and in a batch. */
static void test_width(uint32_t width) {
    mortarpink_bitmap bitmap = MORTARPINK_EMPTY;
    make_commits(&bitmap, width);
    test_readers(&bitmap, width);
    check_done(mortarpink_index(&bitmap, 1));
    check_done(mortarpink_log_begin(&bitmap));
    test_readers(&bitmap, width);
    check_done(mortarpink_begin(&bitmap));
    check_done(mortarpink_push(&bitmap, 1));
    check_done(mortarpink_set(&bitmap, 2 * BATCH_BITS, 1));
    test_readers(&bitmap, width);
    check_done(mortarpink_free(&bitmap));
}

int main(void) {
    test_width(1);
    test_width(8);
    test_width(32);
    test_width(64);
    return finish("checks", checks, failures);
}
