/* Prints what calls cost on 2^20 bits, each figure the least of several rounds: the nanoseconds per call at widths 8 and 32, and the
 * microseconds per read of an old version at width 8, by the number of kept commits. Each commit sets one bit.
 *
 * With the package in ~/mortarpink, in this folder:
 *
 *     cc -O2 speed.c -I ~/mortarpink/include ~/mortarpink/lib/libmortarpink.a -o speed && ./speed */
#define _POSIX_C_SOURCE 199309L
#include <mortarpink.h>

#include <inttypes.h>
#include <stdio.h>
#include <stdlib.h>
#include <time.h>

enum { BITS = 1 << 20, COMMITS = 1000, READS = 1000, PAGE = 4096, ROUNDS = 9, WIDTHS = 2, COUNTS = 3 };

static const uint32_t widths[WIDTHS] = { 8, 32 };

/* The numbers of kept commits. */
static const uint64_t counts[COUNTS] = { 1000, 10000, 100000 };

/* What the reads return is added up, so that no loop is left out. */
static uint64_t total;

static void check(mortarpink_status status) {
    if (status == MORTARPINK_DONE) return;
    fprintf(stderr, "speed: %s\n", mortarpink_status_text(status));
    exit(1);
}

/* Returns a position that differs much from one call to the next. */
static uint64_t scattered(uint64_t call) {
    return call * 7919 % BITS;
}

static uint64_t pushes(mortarpink_bitmap *bitmap) {
    check(mortarpink_begin(bitmap));
    for (uint64_t k = 0; k < BITS; k++) check(mortarpink_push(bitmap, k % 3 == 0));
    check(mortarpink_abort(bitmap));
    return BITS;
}

static uint64_t byte_pushes(mortarpink_bitmap *bitmap) {
    check(mortarpink_begin(bitmap));
    for (uint64_t k = 0; k < BITS; k++) check(mortarpink_push_byte(bitmap, (uint8_t)k));
    check(mortarpink_abort(bitmap));
    return BITS;
}

static uint64_t scattered_sets(mortarpink_bitmap *bitmap) {
    check(mortarpink_begin(bitmap));
    for (uint64_t k = 0; k < COMMITS; k++) check(mortarpink_set(bitmap, scattered(k), k & 1));
    check(mortarpink_abort(bitmap));
    return COMMITS;
}

static uint64_t near_sets(mortarpink_bitmap *bitmap) {
    check(mortarpink_begin(bitmap));
    for (uint64_t k = 0; k < BITS; k++) check(mortarpink_set(bitmap, 512 + k % 64, k & 1));
    check(mortarpink_abort(bitmap));
    return BITS;
}

static uint64_t current_gets(mortarpink_bitmap *bitmap) {
    uint8_t bit = 0;
    for (uint64_t k = 0; k < BITS; k++) {
        check(mortarpink_get(bitmap, scattered(k), &bit));
        total += bit;
    }
    return BITS;
}

/* Reads a past state, after which there are ten commits. */
static uint64_t past_gets(mortarpink_bitmap *bitmap) {
    uint64_t latest = 0;
    uint8_t bit = 0;
    check(mortarpink_latest(bitmap, &latest));
    for (uint64_t k = 0; k < BITS; k++) {
        check(mortarpink_get_at(bitmap, latest - 10, scattered(k), &bit));
        total += bit;
    }
    return BITS;
}

/* Commits batches of one set. */
static void commit_sets(mortarpink_bitmap *bitmap, uint64_t count) {
    uint64_t latest = 0, previous = 0;
    check(mortarpink_latest(bitmap, &latest));
    for (uint64_t k = 1; k <= count; k++) {
        check(mortarpink_begin(bitmap));
        check(mortarpink_set(bitmap, scattered(k), k & 1));
        check(mortarpink_commit(bitmap, latest + k, &previous));
    }
}

static uint64_t commits(mortarpink_bitmap *bitmap) {
    commit_sets(bitmap, COMMITS);
    return COMMITS;
}

/* Makes a bitmap with commit 0, which has all bits, and `count` commits after it. */
static void make(mortarpink_bitmap *bitmap, uint32_t width, uint64_t count) {
    uint64_t previous = 0;
    check(mortarpink_new(bitmap, width));
    check(mortarpink_begin(bitmap));
    for (uint64_t k = 0; k < BITS; k++) check(mortarpink_push(bitmap, k % 3 == 0));
    check(mortarpink_commit(bitmap, 0, &previous));
    commit_sets(bitmap, count);
}

/* Reads single bits at commit 0, in another order than that in which the commits have set bits. */
static uint64_t oldest_bits(mortarpink_bitmap *bitmap) {
    uint8_t bit = 0;
    for (uint64_t k = 0; k < READS; k++) {
        check(mortarpink_get_at(bitmap, 0, k * 104729 % BITS, &bit));
        total += bit;
    }
    return READS;
}

/* Lists all set positions of the current bitmap. */
static uint64_t current_ones(mortarpink_bitmap *bitmap) {
    static uint64_t page[PAGE];
    size_t count = PAGE;
    for (uint64_t from = 0; count == PAGE; from = page[PAGE - 1] + 1) {
        check(mortarpink_ones(bitmap, from, UINT64_MAX, page, PAGE, &count));
        total += count;
    }
    return 1;
}

/* Lists all set positions at commit 0, in place, in pages of at most `size` positions. */
static uint64_t list_oldest(mortarpink_bitmap *bitmap, size_t size) {
    static uint64_t page[BITS];
    size_t count = size;
    for (uint64_t from = 0; count == size; from = page[size - 1] + 1) {
        check(mortarpink_ones_at(bitmap, 0, from, UINT64_MAX, page, size, &count));
        total += count;
    }
    return 1;
}

static uint64_t oldest_ones(mortarpink_bitmap *bitmap) {
    return list_oldest(bitmap, BITS);
}

static uint64_t oldest_pages(mortarpink_bitmap *bitmap) {
    return list_oldest(bitmap, PAGE);
}

/* Makes a bitmap of commit 0, and lists all its set positions. */
static uint64_t oldest_copied_ones(mortarpink_bitmap *bitmap) {
    mortarpink_bitmap copy = MORTARPINK_EMPTY;
    check(mortarpink_checkout(bitmap, 0, &copy));
    current_ones(&copy);
    check(mortarpink_free(&copy));
    return 1;
}

/* Counts the ones of commit 0, in place. */
static uint64_t oldest_count(mortarpink_bitmap *bitmap) {
    uint64_t count = 0;
    check(mortarpink_count_ones_at(bitmap, 0, 0, UINT64_MAX, &count));
    total += count;
    return 1;
}

/* Makes a bitmap of commit 0, and counts its ones. */
static uint64_t oldest_copied_count(mortarpink_bitmap *bitmap) {
    mortarpink_bitmap copy = MORTARPINK_EMPTY;
    uint64_t count = 0;
    check(mortarpink_checkout(bitmap, 0, &copy));
    check(mortarpink_count_ones(&copy, 0, UINT64_MAX, &count));
    check(mortarpink_free(&copy));
    total += count;
    return 1;
}

/* Encodes commit 0. The encoding has two numbers before the bits. */
static uint64_t oldest_encoding(mortarpink_bitmap *bitmap) {
    static uint8_t bytes[16 + BITS / 8];
    size_t size = 0;
    check(mortarpink_encode_at(bitmap, 0, bytes, sizeof bytes, &size));
    total += bytes[16];
    return 1;
}

static double seconds(void) {
    struct timespec now;
    clock_gettime(CLOCK_PROCESS_CPUTIME_ID, &now);
    return (double)now.tv_sec + 1e-9 * (double)now.tv_nsec;
}

/* Returns the nanoseconds per call of the fastest round. */
static double least(uint64_t (*calls)(mortarpink_bitmap *), mortarpink_bitmap *bitmap) {
    double best = 1e9;
    for (int round = 0; round < ROUNDS; round++) {
        double start = seconds();
        uint64_t count = calls(bitmap);
        double each = 1e9 * (seconds() - start) / (double)count;
        if (each < best) best = each;
    }
    return best;
}

static void print_calls(void) {
    static const struct {
        const char *name;
        uint64_t (*calls)(mortarpink_bitmap *);
    } rows[] = {
        { "push", pushes },
        { "push_byte", byte_pushes },
        { "set, scattered", scattered_sets },
        { "set, within 64 bits", near_sets },
        { "get", current_gets },
        { "get_at, ten commits back", past_gets },
        { "begin, set and commit", commits },
    };
    mortarpink_bitmap bitmaps[WIDTHS] = { MORTARPINK_EMPTY, MORTARPINK_EMPTY };
    for (int k = 0; k < WIDTHS; k++) make(&bitmaps[k], widths[k], COMMITS);
    printf("| ns per call | width 8 | 32 |\n|---|---|---|\n");
    for (size_t row = 0; row < sizeof rows / sizeof *rows; row++) {
        printf("| %s |", rows[row].name);
        for (int k = 0; k < WIDTHS; k++) printf(" %.1f |", least(rows[row].calls, &bitmaps[k]));
        printf("\n");
    }
    for (int k = 0; k < WIDTHS; k++) check(mortarpink_free(&bitmaps[k]));
}

static void print_reads(void) {
    static const struct {
        const char *name;
        uint64_t (*calls)(mortarpink_bitmap *);
        uint8_t indexed;
    } rows[] = {
        { "a bit of the oldest version, in place", oldest_bits, 0 },
        { "the same, with an index", oldest_bits, 1 },
        { "all set positions of the current bitmap", current_ones, 0 },
        { "all set positions of the oldest version, in place, in one call", oldest_ones, 0 },
        { "the same, in pages of 4,096 positions", oldest_pages, 0 },
        { "in one call, with an index", oldest_ones, 1 },
        { "the same, by checkout, which is made and freed", oldest_copied_ones, 0 },
        { "the ones of the oldest version counted, in place", oldest_count, 0 },
        { "the same, with an index", oldest_count, 1 },
        { "the same, by checkout, which is made and freed", oldest_copied_count, 0 },
        { "the encoding of the oldest version", oldest_encoding, 0 },
    };
    mortarpink_bitmap bitmaps[COUNTS] = { MORTARPINK_EMPTY, MORTARPINK_EMPTY, MORTARPINK_EMPTY };
    for (int k = 0; k < COUNTS; k++) make(&bitmaps[k], 8, counts[k]);
    printf("\n| us per read | 1,000 commits | 10,000 | 100,000 |\n|---|---|---|---|\n");
    for (size_t row = 0; row < sizeof rows / sizeof *rows; row++) {
        printf("| %s |", rows[row].name);
        for (int k = 0; k < COUNTS; k++) {
            check(mortarpink_index(&bitmaps[k], rows[row].indexed));
            printf(" %.3g |", 1e-3 * least(rows[row].calls, &bitmaps[k]));
        }
        printf("\n");
        fflush(stdout);
    }
    for (int k = 0; k < COUNTS; k++) check(mortarpink_free(&bitmaps[k]));
}

int main(void) {
    print_calls();
    print_reads();
    fprintf(stderr, "speed: what was read adds up to %" PRIu64 "\n", total);
    return 0;
}
