/* Tests of each call, with values worked out by hand.
 *
 * B is the number of bits per chunk. Texts such as "..10" have one sign per position, and a dot for a pruned one. */
#include "check.h"

#include <string.h>

/* Where calls write. */
struct outputs {
    uint64_t number, numbers[8];
    size_t size;
    uint8_t bit, bytes[256];
};

static struct outputs out;

static void fill_outputs(void) {
    memset(&out, 0xA5, sizeof out);
}

static int outputs_are_filled(void) {
    const uint8_t *bytes = (const uint8_t *)&out;
    size_t same = 0;
    while (same < sizeof out && bytes[same] == 0xA5) same++;
    return same == sizeof out;
}

/* Checks that a call returns a status and writes no output. */
#define check_unwritten(call, status)  \
    do {                               \
        fill_outputs();                \
        check_status(call, status);    \
        check(outputs_are_filled());   \
    } while (0)

/* Checks that a call returns DONE and writes a value. */
#define check_value(call, output, value) \
    do {                                 \
        fill_outputs();                  \
        check_done(call);                \
        check_equal(output, value);      \
    } while (0)

#define check_number(call, value) check_value(call, out.number, value)
#define check_bit(call, value) check_value(call, out.bit, value)
#define check_none(call) check_unwritten(call, MORTARPINK_NONE)

/* Whether `out` has a page of these numbers, and nothing after it. */
static int has_page(const uint64_t *numbers, size_t count) {
    struct outputs untouched;
    memset(&untouched, 0xA5, sizeof untouched);
    return out.size == count && memcmp(out.numbers, numbers, count * sizeof *numbers) == 0
        && memcmp(out.numbers + count, untouched.numbers + count, (8 - count) * sizeof *numbers) == 0;
}

/* Checks that a call writes a page of these numbers, and nothing after it. */
#define check_page(call, numbers, count)      \
    do {                                      \
        fill_outputs();                       \
        check_done(call);                     \
        check(has_page((numbers), (count)));  \
    } while (0)

/* The bitmap that a test reads: the visible one, or the one at a commit. */
struct view {
    mortarpink_bitmap *bitmap;
    int is_past;
    uint64_t number;
};

static struct view visible(mortarpink_bitmap *bitmap) {
    struct view view = {bitmap, 0, 0};
    return view;
}

static struct view at_commit(mortarpink_bitmap *bitmap, uint64_t number) {
    struct view view = {bitmap, 1, number};
    return view;
}

/* Calls the function of a name, or for a past state that with `_at`. */
#define read_of(view, name, ...)                                                             \
    ((view).is_past ? mortarpink_##name##_at((view).bitmap, (view).number, __VA_ARGS__)     \
                    : mortarpink_##name((view).bitmap, __VA_ARGS__))

/* Whether a bitmap has exactly these bits. */
static int has_bits(struct view view, const char *bits) {
    uint64_t len = 0;
    size_t same = 0;
    if (read_of(view, len, &len) != MORTARPINK_DONE || len != strlen(bits)) return 0;
    while (same < len) {
        uint8_t bit = 2;
        mortarpink_status status = read_of(view, get, same, &bit);
        int is_pruned = status == MORTARPINK_PRUNED && bit == 2;
        if (bits[same] == '.' ? !is_pruned : status != MORTARPINK_DONE || bit != bits[same] - '0') return 0;
        same++;
    }
    return 1;
}

static void push_text(mortarpink_bitmap *bitmap, const char *bits) {
    for (; *bits; bits++) check_done(mortarpink_push(bitmap, *bits == '1'));
}

/* Makes a bitmap in a batch, with these bits. */
static void make(mortarpink_bitmap *bitmap, uint32_t width, const char *bits) {
    check_done(mortarpink_new(bitmap, width));
    check_done(mortarpink_begin(bitmap));
    push_text(bitmap, bits);
}

static void commit(mortarpink_bitmap *bitmap, uint64_t number) {
    check_unwritten(mortarpink_commit(bitmap, number, &out.number), MORTARPINK_DONE);
}

/* Loads a history with any numbers of bits and commits. */
static mortarpink_status load_any(mortarpink_bitmap *bitmap, uint32_t width, const uint8_t *bytes, size_t len,
                                  size_t *used) {
    return mortarpink_load(bitmap, width, 0, UINT64_MAX, 0, UINT64_MAX, bytes, len, used);
}

/* Whether an encoding, which begins with two numbers of eight bytes, has these two and these chunks. */
static int is_encoding(const uint8_t *bytes, uint64_t pruned, uint64_t bits, const uint8_t *chunks, size_t size) {
    uint64_t head[2] = {0, 0};
    for (size_t k = 0; k < 16; k++) head[k / 8] = head[k / 8] << 8 | bytes[k];
    return head[0] == pruned && head[1] == bits && memcmp(bytes + 16, chunks, size) == 0;
}


/* ---- The version and the texts ---- */

static void test_texts(void) {
    check_equal(mortarpink_version(), MORTARPINK_VERSION);
    check_equal(mortarpink_version(), 2);
    check(strcmp(mortarpink_status_text(MORTARPINK_DONE), "done") == 0);
    check(strcmp(mortarpink_status_text(MORTARPINK_NO_MEMORY), "out of memory") == 0);
    check(strcmp(mortarpink_status_text(MORTARPINK_WRONG_SIZE), "the buffer has the wrong size") == 0);
    check(strcmp(mortarpink_status_text(MORTARPINK_NOT_AT_BASE), "the delta does not start at the current bitmap") == 0);
    check(strcmp(mortarpink_status_text(29), "the number is not a status") == 0);
    check(strcmp(mortarpink_status_text(UINT32_MAX), "the number is not a status") == 0);
    for (uint32_t pair = 0; pair < 30 * 30; pair++) {
        const char *one = mortarpink_status_text(pair / 30), *other = mortarpink_status_text(pair % 30);
        check((strcmp(one, other) == 0) == (pair / 30 == pair % 30));
    }
}


/* ---- Calls that return one status, whatever their arguments are ---- */

static void check_edits(mortarpink_bitmap *bitmap, uint32_t width, mortarpink_status status) {
    const uint8_t chunk[64] = {0};
    check_unwritten(mortarpink_push(bitmap, 1), status);
    check_unwritten(mortarpink_push_byte(bitmap, 1), status);
    check_unwritten(mortarpink_push_chunk(bitmap, chunk, width), status);
    check_unwritten(mortarpink_pop(bitmap, &out.bit), status);
    check_unwritten(mortarpink_set(bitmap, 0, 1), status);
    check_unwritten(mortarpink_push_bits(bitmap, chunk, 2), status);
    check_unwritten(mortarpink_push_bits(bitmap, chunk, 0), status);
    check_unwritten(mortarpink_set_chunk(bitmap, 0, chunk, width), status);
    check_unwritten(mortarpink_set_range(bitmap, 0, 1, 1), status);
    check_unwritten(mortarpink_set_range(bitmap, 1, 0, 1), status);
    check_unwritten(mortarpink_truncate(bitmap, 0), status);
    check_unwritten(mortarpink_extend_to(bitmap, 9), status);
    check_unwritten(mortarpink_extend_to(bitmap, 0), status);
    check_unwritten(mortarpink_prune(bitmap, 0), status);
    check_unwritten(mortarpink_commit(bitmap, 9, &out.number), status);
    check_unwritten(mortarpink_abort(bitmap), status);
}

static void check_searches(mortarpink_bitmap *bitmap, mortarpink_status status) {
    check_unwritten(mortarpink_read_bytes(bitmap, 0, 9, out.bytes, 2), status);
    check_unwritten(mortarpink_ones(bitmap, 0, 9, out.numbers, 8, &out.size), status);
    check_unwritten(mortarpink_next_one(bitmap, 0, &out.number), status);
    check_unwritten(mortarpink_next_zero(bitmap, 0, &out.number), status);
    check_unwritten(mortarpink_prev_one(bitmap, 9, &out.number), status);
    check_unwritten(mortarpink_prev_zero(bitmap, 9, &out.number), status);
    check_unwritten(mortarpink_count_ones(bitmap, 0, 9, &out.number), status);
    check_unwritten(mortarpink_select_one(bitmap, 0, &out.number), status);
}

static void check_past_reads(mortarpink_bitmap *bitmap, uint64_t number, mortarpink_status status) {
    check_unwritten(mortarpink_len_at(bitmap, number, &out.number), status);
    check_unwritten(mortarpink_pruned_chunks_at(bitmap, number, &out.number), status);
    check_unwritten(mortarpink_get_at(bitmap, number, 0, &out.bit), status);
    check_unwritten(mortarpink_chunk_at(bitmap, number, 0, out.bytes, 8), status);
    check_unwritten(mortarpink_read_bytes_at(bitmap, number, 0, 9, out.bytes, 2), status);
    check_unwritten(mortarpink_read_bytes_at(bitmap, number, 9, 0, out.bytes, 3), status);
    check_unwritten(mortarpink_ones_at(bitmap, number, 0, 9, out.numbers, 8, &out.size), status);
    check_unwritten(mortarpink_next_one_at(bitmap, number, 0, &out.number), status);
    check_unwritten(mortarpink_next_zero_at(bitmap, number, 0, &out.number), status);
    check_unwritten(mortarpink_prev_one_at(bitmap, number, 9, &out.number), status);
    check_unwritten(mortarpink_prev_zero_at(bitmap, number, 9, &out.number), status);
    check_unwritten(mortarpink_count_ones_at(bitmap, number, 0, 9, &out.number), status);
    check_unwritten(mortarpink_select_one_at(bitmap, number, 0, &out.number), status);
    check_unwritten(mortarpink_encode_at(bitmap, number, out.bytes, sizeof out.bytes, &out.size), status);
}

static void check_commit_calls(mortarpink_bitmap *bitmap, mortarpink_status status) {
    mortarpink_bitmap copy = MORTARPINK_EMPTY;
    check_unwritten(mortarpink_checkout(bitmap, 1, &copy), status);
    check_unwritten(mortarpink_free(&copy), MORTARPINK_EMPTY_HANDLE);
    check_unwritten(mortarpink_start(bitmap, 1), status);
    check_unwritten(mortarpink_begin(bitmap), status);
    check_unwritten(mortarpink_rewind(bitmap, 1), status);
    check_unwritten(mortarpink_commits(bitmap, 0, out.numbers, 8, &out.size), status);
    check_unwritten(mortarpink_exists(bitmap, 1, &out.bit), status);
    check_unwritten(mortarpink_latest(bitmap, &out.number), status);
    check_unwritten(mortarpink_earliest(bitmap, &out.number), status);
    check_unwritten(mortarpink_changed_chunks(bitmap, 1, 1, 0, out.numbers, 8, &out.size), status);
    check_unwritten(mortarpink_drop_before(bitmap, 1, &out.number), status);
    check_unwritten(mortarpink_clear(bitmap), status);
    check_unwritten(mortarpink_index(bitmap, 1), status);
    check_unwritten(mortarpink_index(bitmap, 0), status);
    check_unwritten(mortarpink_entries(bitmap, &out.number), status);
    check_unwritten(mortarpink_save(bitmap, out.bytes, sizeof out.bytes, &out.size), status);
    check_unwritten(mortarpink_delta(bitmap, 1, 1, out.bytes, sizeof out.bytes, &out.size), status);
    check_unwritten(mortarpink_apply_delta(bitmap, (const uint8_t *)"MPBDELTA", 8), status);
}

/* The calls on a log, but mortarpink_log_begin. */
static void check_log_calls(mortarpink_bitmap *bitmap, mortarpink_status status) {
    check_unwritten(mortarpink_log_bytes(bitmap, out.bytes, sizeof out.bytes, &out.size), status);
    check_unwritten(mortarpink_log_position(bitmap, &out.number), status);
    check_unwritten(mortarpink_log_digest(bitmap, &out.number), status);
    check_unwritten(mortarpink_log_forget(bitmap), status);
    check_unwritten(mortarpink_log_end(bitmap), status);
}

static void test_empty_handle(void) {
    mortarpink_bitmap none = MORTARPINK_EMPTY, copy = MORTARPINK_EMPTY;
    const mortarpink_status status = MORTARPINK_EMPTY_HANDLE;
    check_edits(&none, 8, status);
    check_searches(&none, status);
    check_unwritten(mortarpink_encode(&none, out.bytes, sizeof out.bytes, &out.size), status);
    check_past_reads(&none, 1, status);
    check_commit_calls(&none, status);
    check_unwritten(mortarpink_push_bytes(&none, (const uint8_t *)"a", 1, &out.size), status);
    check_unwritten(mortarpink_set_many(&none, (const uint64_t[]){0}, 1, 1, &out.size), status);
    check_unwritten(mortarpink_set_many(&none, (const uint64_t[]){0}, 0, 1, &out.size), status);
    check_unwritten(mortarpink_len(&none, &out.number), status);
    check_unwritten(mortarpink_pruned_chunks(&none, &out.number), status);
    check_unwritten(mortarpink_get(&none, 0, &out.bit), status);
    check_unwritten(mortarpink_chunk(&none, 0, out.bytes, 8), status);
    check_unwritten(mortarpink_log_begin(&none), status);
    check_log_calls(&none, status);
    check_unwritten(mortarpink_clone(&none, &copy), status);
    check_unwritten(mortarpink_free(&copy), status);
    check_unwritten(mortarpink_free(&none), status);
}

/* Calls that need a batch return NOT_IN_BATCH outside one, and those that need none IN_BATCH in one. They change nothing. */
static void test_modes(uint32_t width) {
    mortarpink_bitmap bitmap = MORTARPINK_EMPTY;
    make(&bitmap, width, "101");
    commit(&bitmap, 1);
    check_edits(&bitmap, width, MORTARPINK_NOT_IN_BATCH);
    fill_outputs();
    check_status(mortarpink_push_bytes(&bitmap, (const uint8_t *)"ab", 2, &out.size), MORTARPINK_NOT_IN_BATCH);
    check_equal(out.size, 0);
    fill_outputs();
    check_status(mortarpink_set_many(&bitmap, (const uint64_t[]){1, 2}, 2, 1, &out.size), MORTARPINK_NOT_IN_BATCH);
    check_equal(out.size, 0);
    check_value(mortarpink_set_many(&bitmap, (const uint64_t[]){1}, 0, 1, &out.size), out.size, 0);
    check(has_bits(visible(&bitmap), "101"));

    check_done(mortarpink_begin(&bitmap));
    push_text(&bitmap, "1");
    check_unwritten(mortarpink_encode(&bitmap, out.bytes, sizeof out.bytes, &out.size), MORTARPINK_IN_BATCH);
    check_past_reads(&bitmap, 1, MORTARPINK_IN_BATCH);
    check_commit_calls(&bitmap, MORTARPINK_IN_BATCH);
    check(has_bits(visible(&bitmap), "1011"));
    check_done(mortarpink_abort(&bitmap));
    check(has_bits(visible(&bitmap), "101"));
    check(has_bits(at_commit(&bitmap, 1), "101"));
    check_done(mortarpink_free(&bitmap));
}

/* Searches, counts and set positions are of the pending bitmap in a batch. */
static void test_pending_searches(uint32_t width) {
    mortarpink_bitmap bitmap = MORTARPINK_EMPTY;
    make(&bitmap, width, "1010");
    commit(&bitmap, 1);
    check_done(mortarpink_begin(&bitmap));
    check_done(mortarpink_set(&bitmap, 0, 0));
    push_text(&bitmap, "11");
    check_done(mortarpink_ones(&bitmap, 0, 9, out.numbers, 8, &out.size));
    check_equal(out.size, 3);
    check_equal(out.numbers[0], 2);
    check_equal(out.numbers[1], 4);
    check_equal(out.numbers[2], 5);
    check_done(mortarpink_next_one(&bitmap, 0, &out.number));
    check_equal(out.number, 2);
    check_done(mortarpink_next_zero(&bitmap, 2, &out.number));
    check_equal(out.number, 3);
    check_done(mortarpink_prev_one(&bitmap, 9, &out.number));
    check_equal(out.number, 5);
    check_done(mortarpink_prev_zero(&bitmap, 3, &out.number));
    check_equal(out.number, 1);
    check_done(mortarpink_count_ones(&bitmap, 0, 5, &out.number));
    check_equal(out.number, 2);
    check_done(mortarpink_select_one(&bitmap, 2, &out.number));
    check_equal(out.number, 5);
    check_unwritten(mortarpink_select_one(&bitmap, 3, &out.number), MORTARPINK_NONE);
    check_value(mortarpink_read_bytes(&bitmap, 1, 6, out.bytes, 1), out.bytes[0], 0x1A);
    check_unwritten(mortarpink_read_bytes(&bitmap, 1, 7, out.bytes, 1), MORTARPINK_OUT_OF_BOUNDS);
    check_done(mortarpink_abort(&bitmap));
    check_done(mortarpink_next_one(&bitmap, 0, &out.number));
    check_equal(out.number, 0);
    check_done(mortarpink_free(&bitmap));
}

static void test_unknown_commits(uint32_t width) {
    mortarpink_bitmap bitmap = MORTARPINK_EMPTY, copy = MORTARPINK_EMPTY;
    make(&bitmap, width, "1");
    commit(&bitmap, 1);
    check_past_reads(&bitmap, 0, MORTARPINK_NO_SUCH_COMMIT);
    check_past_reads(&bitmap, 2, MORTARPINK_NO_SUCH_COMMIT);
    check_past_reads(&bitmap, UINT64_MAX, MORTARPINK_NO_SUCH_COMMIT);
    check_unwritten(mortarpink_rewind(&bitmap, 2), MORTARPINK_NO_SUCH_COMMIT);
    check_unwritten(mortarpink_checkout(&bitmap, 2, &copy), MORTARPINK_NO_SUCH_COMMIT);
    check_unwritten(mortarpink_free(&copy), MORTARPINK_EMPTY_HANDLE);
    check_done(mortarpink_free(&bitmap));
}


/* ---- Making, copying and freeing ---- */

static void test_widths(void) {
    static const uint32_t others[] = {0, 2, 3, 4, 7, 9, 16, 31, 33, 63, 65, 128, 256, UINT32_MAX};
    const uint8_t bytes[16] = {0};
    for (size_t k = 0; k < sizeof others / sizeof *others; k++) {
        mortarpink_bitmap bitmap = MORTARPINK_EMPTY;
        check_unwritten(mortarpink_new(&bitmap, others[k]), MORTARPINK_NO_SUCH_WIDTH);
        check_unwritten(mortarpink_read(&bitmap, others[k], 0, UINT64_MAX, bytes, 16, &out.size, &out.number),
                        MORTARPINK_NO_SUCH_WIDTH);
        check_unwritten(load_any(&bitmap, others[k], bytes, 16, &out.size), MORTARPINK_NO_SUCH_WIDTH);
        check_unwritten(mortarpink_recover(&bitmap, others[k], bytes, 16, &out.size), MORTARPINK_NO_SUCH_WIDTH);
        check_unwritten(mortarpink_free(&bitmap), MORTARPINK_EMPTY_HANDLE);
    }
}

static void test_full_handle(uint32_t width) {
    mortarpink_bitmap bitmap = MORTARPINK_EMPTY, other = MORTARPINK_EMPTY;
    const uint8_t bytes[16] = {0};
    make(&bitmap, width, "01");
    make(&other, width, "1");
    check_unwritten(mortarpink_new(&bitmap, width), MORTARPINK_FULL_HANDLE);
    check_unwritten(mortarpink_read(&bitmap, width, 0, 9, bytes, 16, &out.size, &out.number), MORTARPINK_FULL_HANDLE);
    check_unwritten(load_any(&bitmap, width, bytes, 16, &out.size), MORTARPINK_FULL_HANDLE);
    check_unwritten(load_any(&bitmap, 2, bytes, 16, &out.size), MORTARPINK_FULL_HANDLE);
    check_unwritten(mortarpink_recover(&bitmap, width, bytes, 16, &out.size), MORTARPINK_FULL_HANDLE);
    check_unwritten(mortarpink_recover(&bitmap, 2, bytes, 16, &out.size), MORTARPINK_FULL_HANDLE);
    check_unwritten(mortarpink_clone(&other, &bitmap), MORTARPINK_FULL_HANDLE);
    check_unwritten(mortarpink_checkout(&other, 1, &bitmap), MORTARPINK_FULL_HANDLE);
    check(has_bits(visible(&bitmap), "01"));
    check(has_bits(visible(&other), "1"));
    check_done(mortarpink_free(&bitmap));
    check_done(mortarpink_free(&other));
}

/* A freed handle is empty, and takes a new bitmap. */
static void test_free(uint32_t width) {
    mortarpink_bitmap bitmap = MORTARPINK_EMPTY;
    make(&bitmap, width, "110");
    check_done(mortarpink_free(&bitmap));
    check_unwritten(mortarpink_free(&bitmap), MORTARPINK_EMPTY_HANDLE);
    check_unwritten(mortarpink_len(&bitmap, &out.number), MORTARPINK_EMPTY_HANDLE);
    check_done(mortarpink_new(&bitmap, 32));
    check(has_bits(visible(&bitmap), ""));
    check_number(mortarpink_pruned_chunks(&bitmap, &out.number), 0);
    check_none(mortarpink_latest(&bitmap, &out.number));
    check_done(mortarpink_free(&bitmap));
}

/* A handle that is initialized with an empty one, or is assigned one, is empty. A moved bitmap is in the new place alone. */
static void test_empty_values(uint32_t width) {
    static mortarpink_bitmap kept = MORTARPINK_INITIALIZER;
    struct {
        mortarpink_bitmap bitmap;
        int order;
    } member = {MORTARPINK_EMPTY, 1};
    mortarpink_bitmap handles[2] = {MORTARPINK_INITIALIZER, MORTARPINK_EMPTY};
    check_unwritten(mortarpink_free(&kept), MORTARPINK_EMPTY_HANDLE);
    check_unwritten(mortarpink_free(&member.bitmap), MORTARPINK_EMPTY_HANDLE);
    check_unwritten(mortarpink_free(&handles[0]), MORTARPINK_EMPTY_HANDLE);
    check_unwritten(mortarpink_free(&handles[1]), MORTARPINK_EMPTY_HANDLE);
    check_equal(member.order, 1);

    make(&handles[0], width, "101");
    kept = handles[0];
    handles[0] = MORTARPINK_EMPTY;
    check_unwritten(mortarpink_len(&handles[0], &out.number), MORTARPINK_EMPTY_HANDLE);
    check(has_bits(visible(&kept), "101"));
    check_done(mortarpink_new(&handles[0], width));
    check_done(mortarpink_free(&handles[0]));
    check_done(mortarpink_free(&kept));
}

/* A copy has the bitmap, the commits, the last number and the batch, and changes alone. */
static void test_clone(uint32_t width) {
    mortarpink_bitmap bitmap = MORTARPINK_EMPTY, copy = MORTARPINK_EMPTY;
    make(&bitmap, width, "110");
    commit(&bitmap, 4);
    check_done(mortarpink_begin(&bitmap));
    push_text(&bitmap, "1");
    check_done(mortarpink_clone(&bitmap, &copy));
    check(has_bits(visible(&copy), "1101"));
    check_done(mortarpink_set(&copy, 0, 0));
    push_text(&bitmap, "0");
    fill_outputs();
    check_status(mortarpink_commit(&copy, 4, &out.number), MORTARPINK_NON_MONOTONIC_COMMIT);
    check_equal(out.number, 4);
    commit(&copy, 5);
    commit(&bitmap, 6);
    check(has_bits(visible(&copy), "0101"));
    check(has_bits(visible(&bitmap), "11010"));
    check(has_bits(at_commit(&copy, 4), "110"));
    check_bit(mortarpink_exists(&copy, 6, &out.bit), 0);
    check_bit(mortarpink_exists(&bitmap, 5, &out.bit), 0);
    check_done(mortarpink_free(&bitmap));
    check(has_bits(at_commit(&copy, 5), "0101"));
    check_done(mortarpink_free(&copy));
}

/* A bitmap of a commit has its bits and nothing else, and changes alone. */
static void test_checkout(uint32_t width) {
    mortarpink_bitmap bitmap = MORTARPINK_EMPTY, copy = MORTARPINK_EMPTY;
    make(&bitmap, width, "110");
    commit(&bitmap, 4);
    check_done(mortarpink_begin(&bitmap));
    check_done(mortarpink_set(&bitmap, 0, 0));
    push_text(&bitmap, "1");
    commit(&bitmap, 5);
    check_done(mortarpink_checkout(&bitmap, 4, &copy));
    check(has_bits(visible(&copy), "110"));
    check_none(mortarpink_latest(&copy, &out.number));
    check_number(mortarpink_entries(&copy, &out.number), 0);
    check_done(mortarpink_begin(&copy));
    push_text(&copy, "0");
    commit(&copy, 0);
    check(has_bits(at_commit(&copy, 0), "1100"));
    check(has_bits(visible(&bitmap), "0101"));
    check(has_bits(at_commit(&bitmap, 4), "110"));
    check_bit(mortarpink_exists(&bitmap, 0, &out.bit), 0);
    check_done(mortarpink_free(&copy));
    check_done(mortarpink_checkout(&bitmap, 5, &copy));
    check_done(mortarpink_free(&bitmap));
    check(has_bits(visible(&copy), "0101"));
    check_done(mortarpink_free(&copy));
}

/* A start drops the bits, the commits and the last number. */
static void test_start(uint32_t width) {
    const uint64_t B = 8 * (uint64_t)width;
    mortarpink_bitmap bitmap = MORTARPINK_EMPTY;
    make(&bitmap, width, "11");
    commit(&bitmap, 7);
    check_done(mortarpink_start(&bitmap, 3));
    check_number(mortarpink_len(&bitmap, &out.number), 3 * B);
    check_number(mortarpink_pruned_chunks(&bitmap, &out.number), 3);
    check_unwritten(mortarpink_get(&bitmap, 3 * B - 1, &out.bit), MORTARPINK_PRUNED);
    check_unwritten(mortarpink_get(&bitmap, 3 * B, &out.bit), MORTARPINK_OUT_OF_BOUNDS);
    check_none(mortarpink_next_zero(&bitmap, 0, &out.number));
    check_none(mortarpink_earliest(&bitmap, &out.number));
    check_done(mortarpink_begin(&bitmap));
    check_unwritten(mortarpink_pop(&bitmap, &out.bit), MORTARPINK_NO_RETAINED_BIT);
    commit(&bitmap, 0);
    check_done(mortarpink_start(&bitmap, 0));
    check(has_bits(visible(&bitmap), ""));
    check_done(mortarpink_free(&bitmap));
}


/* ---- Edits ---- */

/* Bits, bytes and pops. 0xA5 is 10100101, its lowest bit first. */
static void test_pushes(uint32_t width) {
    mortarpink_bitmap bitmap = MORTARPINK_EMPTY;
    const uint8_t bytes[] = {0x01, 0x80, 0xFF};
    make(&bitmap, width, "");
    check_unwritten(mortarpink_pop(&bitmap, &out.bit), MORTARPINK_NO_RETAINED_BIT);
    check_done(mortarpink_push(&bitmap, 0));
    check_done(mortarpink_push(&bitmap, 1));
    check_done(mortarpink_push(&bitmap, 255));
    check_done(mortarpink_push(&bitmap, 2));
    check_done(mortarpink_push_byte(&bitmap, 0xA5));
    check(has_bits(visible(&bitmap), "011110100101"));
    check_value(mortarpink_push_bytes(&bitmap, bytes, 2, &out.size), out.size, 2);
    check(has_bits(visible(&bitmap), "0111101001011000000000000001"));
    check_value(mortarpink_push_bytes(&bitmap, bytes, 0, &out.size), out.size, 0);
    check_bit(mortarpink_pop(&bitmap, &out.bit), 1);
    check_bit(mortarpink_pop(&bitmap, &out.bit), 0);
    check(has_bits(visible(&bitmap), "01111010010110000000000000"));
    check_done(mortarpink_set(&bitmap, 0, 128));
    check_done(mortarpink_set(&bitmap, 25, 1));
    check_done(mortarpink_set(&bitmap, 1, 0));
    check_unwritten(mortarpink_set(&bitmap, 26, 1), MORTARPINK_OUT_OF_BOUNDS);
    check_unwritten(mortarpink_set(&bitmap, UINT64_MAX, 1), MORTARPINK_OUT_OF_BOUNDS);
    commit(&bitmap, 1);
    check(has_bits(visible(&bitmap), "10111010010110000000000001"));
    check_done(mortarpink_free(&bitmap));
}

/* A chunk of the bytes 64, 65 and so on is appended after one bit, and then read by chunks. */
static void test_chunks(uint32_t width) {
    const uint64_t B = 8 * (uint64_t)width;
    mortarpink_bitmap bitmap = MORTARPINK_EMPTY;
    uint8_t chunk[64], shifted[64];
    for (uint32_t k = 0; k < 64; k++) {
        chunk[k] = (uint8_t)(k + 64);
        shifted[k] = (uint8_t)((k + 64) << 1 | (k == 0));
    }
    make(&bitmap, width, "1");
    check_unwritten(mortarpink_push_chunk(&bitmap, chunk, width - 1), MORTARPINK_WRONG_SIZE);
    check_unwritten(mortarpink_push_chunk(&bitmap, chunk, width + 1), MORTARPINK_WRONG_SIZE);
    check_unwritten(mortarpink_push_chunk(&bitmap, chunk, 0), MORTARPINK_WRONG_SIZE);
    check_done(mortarpink_push_chunk(&bitmap, chunk, width));
    check_number(mortarpink_len(&bitmap, &out.number), B + 1);
    check_value(mortarpink_chunk(&bitmap, 3, out.bytes, width), memcmp(out.bytes, shifted, width), 0);
    check_value(mortarpink_chunk(&bitmap, B, out.bytes, width), out.bytes[0], 0);
    check_unwritten(mortarpink_chunk(&bitmap, B, out.bytes, width - 1), MORTARPINK_WRONG_SIZE);
    check_unwritten(mortarpink_chunk(&bitmap, B + 1, out.bytes, width), MORTARPINK_OUT_OF_BOUNDS);
    check_done(mortarpink_prune(&bitmap, B));
    check_unwritten(mortarpink_chunk(&bitmap, B - 1, out.bytes, width), MORTARPINK_PRUNED);
    check_done(mortarpink_free(&bitmap));
}

/* Pruning drops whole chunks, also all of them. */
static void test_prune(void) {
    mortarpink_bitmap bitmap = MORTARPINK_EMPTY;
    make(&bitmap, 1, "1111000011001100101");
    check_done(mortarpink_prune(&bitmap, 7));
    check_number(mortarpink_pruned_chunks(&bitmap, &out.number), 0);
    check_done(mortarpink_prune(&bitmap, 8));
    check_number(mortarpink_pruned_chunks(&bitmap, &out.number), 1);
    check(has_bits(visible(&bitmap), "........11001100101"));
    check_done(mortarpink_prune(&bitmap, 0));
    check_unwritten(mortarpink_prune(&bitmap, 20), MORTARPINK_OUT_OF_BOUNDS);
    check_unwritten(mortarpink_set(&bitmap, 7, 1), MORTARPINK_PRUNED);
    check_unwritten(mortarpink_get(&bitmap, 7, &out.bit), MORTARPINK_PRUNED);
    check_done(mortarpink_prune(&bitmap, 19));
    check(has_bits(visible(&bitmap), "................101"));
    check_bit(mortarpink_pop(&bitmap, &out.bit), 1);
    check_bit(mortarpink_pop(&bitmap, &out.bit), 0);
    check_bit(mortarpink_pop(&bitmap, &out.bit), 1);
    check_unwritten(mortarpink_pop(&bitmap, &out.bit), MORTARPINK_NO_RETAINED_BIT);
    check(has_bits(visible(&bitmap), "................"));
    push_text(&bitmap, "01010101");
    check_done(mortarpink_prune(&bitmap, 24));
    check(has_bits(visible(&bitmap), "........................"));
    commit(&bitmap, 1);
    check_number(mortarpink_pruned_chunks(&bitmap, &out.number), 3);
    check_done(mortarpink_free(&bitmap));
}


/* Each byte but 0 is a bit that is set. */
static void test_push_bits(uint32_t width) {
    const uint8_t bits[] = {0, 1, 2, 0, 255}, zeros[100] = {0};
    mortarpink_bitmap bitmap = MORTARPINK_EMPTY;
    make(&bitmap, width, "1");
    check_done(mortarpink_push_bits(&bitmap, bits, 5));
    check(has_bits(visible(&bitmap), "101101"));
    check_done(mortarpink_push_bits(&bitmap, bits, 0));
    check(has_bits(visible(&bitmap), "101101"));
    check_done(mortarpink_push_bits(&bitmap, zeros, 100));
    check_number(mortarpink_len(&bitmap, &out.number), 106);
    commit(&bitmap, 1);
    check_number(mortarpink_count_ones(&bitmap, 0, UINT64_MAX, &out.number), 4);
    check_number(mortarpink_prev_one(&bitmap, UINT64_MAX, &out.number), 5);
    check_done(mortarpink_free(&bitmap));
}

/* The length is cut and raised. Pruned bits count, and are not cut off. */
static void test_lengths(uint32_t width) {
    const uint64_t B = 8 * (uint64_t)width;
    mortarpink_bitmap bitmap = MORTARPINK_EMPTY;
    make(&bitmap, width, "1101");
    check_done(mortarpink_truncate(&bitmap, 3));
    check_done(mortarpink_truncate(&bitmap, 3));
    check_unwritten(mortarpink_truncate(&bitmap, 4), MORTARPINK_OUT_OF_BOUNDS);
    check(has_bits(visible(&bitmap), "110"));
    check_done(mortarpink_extend_to(&bitmap, 2));
    check_done(mortarpink_extend_to(&bitmap, 3));
    check_done(mortarpink_extend_to(&bitmap, 5));
    check(has_bits(visible(&bitmap), "11000"));
    check_done(mortarpink_extend_to(&bitmap, 2 * B + 1));
    check_number(mortarpink_len(&bitmap, &out.number), 2 * B + 1);
    check_bit(mortarpink_get(&bitmap, 2 * B, &out.bit), 0);
    check_done(mortarpink_prune(&bitmap, B));
    check_unwritten(mortarpink_truncate(&bitmap, B - 1), MORTARPINK_PRUNED);
    check_unwritten(mortarpink_truncate(&bitmap, 2 * B + 2), MORTARPINK_OUT_OF_BOUNDS);
    check_done(mortarpink_truncate(&bitmap, B));
    check_unwritten(mortarpink_pop(&bitmap, &out.bit), MORTARPINK_NO_RETAINED_BIT);
    check_done(mortarpink_extend_to(&bitmap, 0));
    commit(&bitmap, 1);
    check_number(mortarpink_len(&bitmap, &out.number), B);
    check_number(mortarpink_pruned_chunks(&bitmap, &out.number), 1);
    check_done(mortarpink_free(&bitmap));
}

/* Ranges are set within the retained bits. */
static void test_set_range(uint32_t width) {
    const uint64_t B = 8 * (uint64_t)width;
    mortarpink_bitmap bitmap = MORTARPINK_EMPTY;
    make(&bitmap, width, "0000001");
    check_done(mortarpink_set_range(&bitmap, 1, 4, 2));
    check_done(mortarpink_set_range(&bitmap, 6, 7, 0));
    check(has_bits(visible(&bitmap), "0111000"));
    check_done(mortarpink_set_range(&bitmap, 2, 2, 0));
    check_done(mortarpink_set_range(&bitmap, UINT64_MAX, 3, 0));
    check_done(mortarpink_set_range(&bitmap, UINT64_MAX, UINT64_MAX, 1));
    check_unwritten(mortarpink_set_range(&bitmap, 6, 8, 1), MORTARPINK_OUT_OF_BOUNDS);
    check(has_bits(visible(&bitmap), "0111000"));
    check_done(mortarpink_extend_to(&bitmap, 3 * B));
    check_done(mortarpink_prune(&bitmap, B));
    check_unwritten(mortarpink_set_range(&bitmap, B - 1, B + 1, 1), MORTARPINK_PRUNED);
    check_unwritten(mortarpink_set_range(&bitmap, B - 1, 3 * B + 1, 1), MORTARPINK_OUT_OF_BOUNDS);
    check_done(mortarpink_set_range(&bitmap, B - 1, B - 1, 1));
    check_done(mortarpink_set_range(&bitmap, B, 3 * B, 1));
    check_done(mortarpink_set_range(&bitmap, 2 * B - 1, 2 * B + 1, 0));
    commit(&bitmap, 1);
    check_number(mortarpink_count_ones(&bitmap, 0, UINT64_MAX, &out.number), 2 * B - 2);
    check_number(mortarpink_next_zero(&bitmap, 0, &out.number), 2 * B - 1);
    check_done(mortarpink_free(&bitmap));
}

/* The bits of a chunk are replaced, up to the length. */
static void test_set_chunk(uint32_t width) {
    const uint64_t B = 8 * (uint64_t)width;
    mortarpink_bitmap bitmap = MORTARPINK_EMPTY;
    uint8_t chunk[65];
    memset(chunk, 0x5A, sizeof chunk);
    make(&bitmap, width, "");
    check_unwritten(mortarpink_set_chunk(&bitmap, 0, chunk, width), MORTARPINK_OUT_OF_BOUNDS);
    check_done(mortarpink_extend_to(&bitmap, 2 * B + 4));
    check_unwritten(mortarpink_set_chunk(&bitmap, 1, chunk, width - 1), MORTARPINK_WRONG_SIZE);
    check_unwritten(mortarpink_set_chunk(&bitmap, 1, chunk, width + 1), MORTARPINK_WRONG_SIZE);
    check_done(mortarpink_set_chunk(&bitmap, 1, chunk, width));
    check_done(mortarpink_set_chunk(&bitmap, 2, chunk, width));
    check_unwritten(mortarpink_set_chunk(&bitmap, 3, chunk, width), MORTARPINK_OUT_OF_BOUNDS);
    check_unwritten(mortarpink_set_chunk(&bitmap, SIZE_MAX, chunk, width), MORTARPINK_OUT_OF_BOUNDS);
    check_value(mortarpink_chunk(&bitmap, 0, out.bytes, width), out.bytes[0], 0);
    check_value(mortarpink_chunk(&bitmap, B, out.bytes, width), memcmp(out.bytes, chunk, width), 0);
    check_value(mortarpink_chunk(&bitmap, 2 * B, out.bytes, width), out.bytes[0], 0x0A);
    check_done(mortarpink_prune(&bitmap, B));
    check_unwritten(mortarpink_set_chunk(&bitmap, 0, chunk, width), MORTARPINK_PRUNED);
    commit(&bitmap, 1);
    check_number(mortarpink_count_ones(&bitmap, 0, UINT64_MAX, &out.number), 4 * (uint64_t)width + 2);
    check_done(mortarpink_free(&bitmap));
}

/* Positions are set in order, up to the first that is refused. */
static void test_set_many(uint32_t width) {
    const uint64_t B = 8 * (uint64_t)width, positions[] = {B, 2 * B + 1, B + 3, 2 * B + 1, B - 1, B + 2, 2 * B + 2};
    mortarpink_bitmap bitmap = MORTARPINK_EMPTY;
    make(&bitmap, width, "");
    check_done(mortarpink_extend_to(&bitmap, 2 * B + 2));
    check_done(mortarpink_prune(&bitmap, B));
    fill_outputs();
    check_status(mortarpink_set_many(&bitmap, positions, 7, 255, &out.size), MORTARPINK_PRUNED);
    check_equal(out.size, 4);
    fill_outputs();
    check_status(mortarpink_set_many(&bitmap, positions + 5, 2, 1, &out.size), MORTARPINK_OUT_OF_BOUNDS);
    check_equal(out.size, 1);
    check_value(mortarpink_set_many(&bitmap, positions, 0, 1, &out.size), out.size, 0);
    check_value(mortarpink_set_many(&bitmap, positions + 2, 1, 0, &out.size), out.size, 1);
    commit(&bitmap, 1);
    check_page(mortarpink_ones(&bitmap, 0, UINT64_MAX, out.numbers, 8, &out.size),
               ((const uint64_t[]){B, B + 2, 2 * B + 1}), 3);
    check_done(mortarpink_free(&bitmap));
}


/* ---- Reads of one bitmap ---- */

/* Commits, under 1, a bitmap of length 3B + 4 whose first chunk is pruned. B+1, 2B-1, 2B and 3B+2 are set. */
static void make_sample(mortarpink_bitmap *bitmap, uint32_t width) {
    const uint64_t B = 8 * (uint64_t)width;
    const uint8_t zeros[192] = {0};
    make(bitmap, width, "");
    check_value(mortarpink_push_bytes(bitmap, zeros, 3 * width, &out.size), out.size, 3 * width);
    push_text(bitmap, "0010");
    check_done(mortarpink_set(bitmap, 3, 1));
    check_done(mortarpink_set(bitmap, B + 1, 1));
    check_done(mortarpink_set(bitmap, 2 * B - 1, 1));
    check_done(mortarpink_set(bitmap, 2 * B, 1));
    check_done(mortarpink_prune(bitmap, B + 5));
    commit(bitmap, 1);
}

/* The chunks 1, 2 and 3 of the sample. */
static void sample_chunks(uint8_t *chunks, uint32_t width) {
    memset(chunks, 0, 3 * width);
    chunks[0] |= 0x02;
    chunks[width - 1] |= 0x80;
    chunks[width] = 0x01;
    chunks[2 * width] = 0x04;
}

static void check_sample_bits(struct view view, uint32_t width) {
    const uint64_t B = 8 * (uint64_t)width;
    uint8_t chunks[192];
    sample_chunks(chunks, width);
    check_number(read_of(view, len, &out.number), 3 * B + 4);
    check_number(read_of(view, pruned_chunks, &out.number), 1);
    check_bit(read_of(view, get, B, &out.bit), 0);
    check_bit(read_of(view, get, B + 1, &out.bit), 1);
    check_bit(read_of(view, get, 2 * B - 1, &out.bit), 1);
    check_bit(read_of(view, get, 3 * B + 3, &out.bit), 0);
    check_unwritten(read_of(view, get, 3 * B + 4, &out.bit), MORTARPINK_OUT_OF_BOUNDS);
    check_unwritten(read_of(view, get, UINT64_MAX, &out.bit), MORTARPINK_OUT_OF_BOUNDS);
    check_unwritten(read_of(view, get, B - 1, &out.bit), MORTARPINK_PRUNED);
    check_unwritten(read_of(view, get, 0, &out.bit), MORTARPINK_PRUNED);
    check_value(read_of(view, chunk, B, out.bytes, width), memcmp(out.bytes, chunks, width), 0);
    check_value(read_of(view, chunk, 3 * B - 1, out.bytes, width), memcmp(out.bytes, chunks + width, width), 0);
    check_value(read_of(view, chunk, 3 * B + 3, out.bytes, width), memcmp(out.bytes, chunks + 2 * width, width), 0);
    check_equal(out.bytes[width], 0xA5);
    check_unwritten(read_of(view, chunk, 3 * B + 4, out.bytes, width), MORTARPINK_OUT_OF_BOUNDS);
    check_unwritten(read_of(view, chunk, B - 1, out.bytes, width), MORTARPINK_PRUNED);
    check_unwritten(read_of(view, chunk, B, out.bytes, width - 1), MORTARPINK_WRONG_SIZE);
    check_unwritten(read_of(view, chunk, B, out.bytes, width + 1), MORTARPINK_WRONG_SIZE);
    check_unwritten(read_of(view, chunk, B, out.bytes, 0), MORTARPINK_WRONG_SIZE);
}

static void check_sample_bytes(struct view view, uint32_t width) {
    const uint64_t B = 8 * (uint64_t)width, end = 3 * B + 4;
    const size_t size = 2 * (size_t)width + 1;
    uint8_t chunks[192];
    sample_chunks(chunks, width);
    check_value(read_of(view, read_bytes, B, end, out.bytes, size), memcmp(out.bytes, chunks, size), 0);
    check_equal(out.bytes[size], 0xA5);
    check_value(read_of(view, read_bytes, 2 * B - 1, 2 * B + 1, out.bytes, 1), out.bytes[0], 0x03);
    check_value(read_of(view, read_bytes, B + 1, B + 7, out.bytes, 1), out.bytes[0], 0x01);
    check_value(read_of(view, read_bytes, 2 * B - 3, 2 * B + 6, out.bytes, 2), out.bytes[0], 0x0C);
    check_equal(out.bytes[1], 0);
    check_value(read_of(view, read_bytes, 3 * B - 2, end, out.bytes, 1), out.bytes[0], 0x10);
    check_value(read_of(view, read_bytes, end - 1, end, out.bytes, 1), out.bytes[0], 0);
    check_unwritten(read_of(view, read_bytes, B, B, out.bytes, 0), MORTARPINK_DONE);
    check_unwritten(read_of(view, read_bytes, end, end, out.bytes, 0), MORTARPINK_DONE);
    check_unwritten(read_of(view, read_bytes, B, B + 8, out.bytes, 0), MORTARPINK_WRONG_SIZE);
    check_unwritten(read_of(view, read_bytes, B, B + 8, out.bytes, 2), MORTARPINK_WRONG_SIZE);
    check_unwritten(read_of(view, read_bytes, B, B, out.bytes, 1), MORTARPINK_WRONG_SIZE);
    check_unwritten(read_of(view, read_bytes, B + 1, B, out.bytes, 1), MORTARPINK_WRONG_SIZE);
    check_unwritten(read_of(view, read_bytes, 0, UINT64_MAX, out.bytes, size), MORTARPINK_WRONG_SIZE);
    check_unwritten(read_of(view, read_bytes, B + 1, B, out.bytes, 0), MORTARPINK_OUT_OF_BOUNDS);
    check_unwritten(read_of(view, read_bytes, B, end + 1, out.bytes, size), MORTARPINK_OUT_OF_BOUNDS);
    check_unwritten(read_of(view, read_bytes, end + 1, end + 1, out.bytes, 0), MORTARPINK_OUT_OF_BOUNDS);
    check_unwritten(read_of(view, read_bytes, UINT64_MAX, UINT64_MAX, out.bytes, 0), MORTARPINK_OUT_OF_BOUNDS);
    check_unwritten(read_of(view, read_bytes, B - 1, B, out.bytes, 1), MORTARPINK_PRUNED);
    check_unwritten(read_of(view, read_bytes, 0, 0, out.bytes, 0), MORTARPINK_PRUNED);
}

static void check_sample_searches(struct view view, uint64_t B) {
    check_number(read_of(view, next_one, 0, &out.number), B + 1);
    check_number(read_of(view, next_one, B + 1, &out.number), B + 1);
    check_number(read_of(view, next_one, B + 2, &out.number), 2 * B - 1);
    check_number(read_of(view, next_one, 2 * B + 1, &out.number), 3 * B + 2);
    check_none(read_of(view, next_one, 3 * B + 3, &out.number));
    check_none(read_of(view, next_one, UINT64_MAX, &out.number));
    check_number(read_of(view, next_zero, 0, &out.number), B);
    check_number(read_of(view, next_zero, B + 1, &out.number), B + 2);
    check_number(read_of(view, next_zero, 2 * B - 1, &out.number), 2 * B + 1);
    check_number(read_of(view, next_zero, 3 * B + 3, &out.number), 3 * B + 3);
    check_none(read_of(view, next_zero, 3 * B + 4, &out.number));
    check_none(read_of(view, next_zero, UINT64_MAX, &out.number));
    check_number(read_of(view, prev_one, UINT64_MAX, &out.number), 3 * B + 2);
    check_number(read_of(view, prev_one, 3 * B + 2, &out.number), 2 * B);
    check_number(read_of(view, prev_one, 2 * B, &out.number), 2 * B - 1);
    check_number(read_of(view, prev_one, B + 2, &out.number), B + 1);
    check_none(read_of(view, prev_one, B + 1, &out.number));
    check_none(read_of(view, prev_one, 0, &out.number));
    check_number(read_of(view, prev_zero, UINT64_MAX, &out.number), 3 * B + 3);
    check_number(read_of(view, prev_zero, 3 * B + 3, &out.number), 3 * B + 1);
    check_number(read_of(view, prev_zero, 2 * B + 1, &out.number), 2 * B - 2);
    check_number(read_of(view, prev_zero, B + 1, &out.number), B);
    check_none(read_of(view, prev_zero, B, &out.number));
    check_none(read_of(view, prev_zero, 0, &out.number));
}

static void check_sample_counts(struct view view, uint64_t B) {
    check_number(read_of(view, count_ones, 0, UINT64_MAX, &out.number), 4);
    check_number(read_of(view, count_ones, B + 1, B + 2, &out.number), 1);
    check_number(read_of(view, count_ones, B + 2, 2 * B, &out.number), 1);
    check_number(read_of(view, count_ones, 2 * B - 1, 3 * B + 2, &out.number), 2);
    check_number(read_of(view, count_ones, 3 * B + 3, UINT64_MAX, &out.number), 0);
    check_number(read_of(view, count_ones, 0, B + 1, &out.number), 0);
    check_number(read_of(view, count_ones, 3 * B, B, &out.number), 0);
    check_number(read_of(view, count_ones, UINT64_MAX, UINT64_MAX, &out.number), 0);
    check_number(read_of(view, select_one, 0, &out.number), B + 1);
    check_number(read_of(view, select_one, 1, &out.number), 2 * B - 1);
    check_number(read_of(view, select_one, 2, &out.number), 2 * B);
    check_number(read_of(view, select_one, 3, &out.number), 3 * B + 2);
    check_none(read_of(view, select_one, 4, &out.number));
    check_none(read_of(view, select_one, UINT64_MAX, &out.number));
}

static void check_sample_pages(struct view view, uint64_t B) {
    const uint64_t all[] = {B + 1, 2 * B - 1, 2 * B, 3 * B + 2};
    check_page(read_of(view, ones, 0, UINT64_MAX, out.numbers, 0, &out.size), all, 0);
    check_page(read_of(view, ones, 0, UINT64_MAX, out.numbers, 1, &out.size), all, 1);
    check_page(read_of(view, ones, 0, UINT64_MAX, out.numbers, 3, &out.size), all, 3);
    check_page(read_of(view, ones, 2 * B + 1, UINT64_MAX, out.numbers, 3, &out.size), all + 3, 1);
    check_page(read_of(view, ones, 0, UINT64_MAX, out.numbers, 4, &out.size), all, 4);
    check_page(read_of(view, ones, 3 * B + 3, UINT64_MAX, out.numbers, 4, &out.size), all, 0);
    check_page(read_of(view, ones, 0, UINT64_MAX, out.numbers, 8, &out.size), all, 4);
    check_page(read_of(view, ones, B + 1, 3 * B + 3, out.numbers, 8, &out.size), all, 4);
    check_page(read_of(view, ones, B + 2, 3 * B + 2, out.numbers, 8, &out.size), all + 1, 2);
    check_page(read_of(view, ones, B + 1, B + 1, out.numbers, 8, &out.size), all, 0);
    check_page(read_of(view, ones, 3 * B, 2, out.numbers, 8, &out.size), all, 0);
}

static void check_sample_encoding(struct view view, uint32_t width) {
    const uint64_t B = 8 * (uint64_t)width;
    const size_t size = 16 + 3 * (size_t)width;
    uint8_t chunks[192];
    sample_chunks(chunks, width);
    fill_outputs();
    check_status(read_of(view, encode, out.bytes, 0, &out.size), MORTARPINK_WRONG_SIZE);
    check_equal(out.size, size);
    check_equal(out.bytes[0], 0xA5);
    check_value(read_of(view, encode, out.bytes, size, &out.size), out.size, size);
    check(is_encoding(out.bytes, 1, 2 * B + 4, chunks, 3 * width));
    check_equal(out.bytes[size], 0xA5);
    fill_outputs();
    check_status(read_of(view, encode, out.bytes, size - 1, &out.size), MORTARPINK_WRONG_SIZE);
    check_equal(out.bytes[0], 0xA5);
    check_equal(out.size, size);
    check_status(read_of(view, encode, out.bytes, size + 1, &out.size), MORTARPINK_WRONG_SIZE);
    check_equal(out.bytes[0], 0xA5);
}

static void check_sample(struct view view, uint32_t width) {
    check_sample_bits(view, width);
    check_sample_bytes(view, width);
    check_sample_searches(view, 8 * (uint64_t)width);
    check_sample_counts(view, 8 * (uint64_t)width);
    check_sample_pages(view, 8 * (uint64_t)width);
    check_sample_encoding(view, width);
}

/* The sample is the same as a copy, in its bytes, and as a past state after all of it has changed. */
static void test_reads(uint32_t width) {
    const uint64_t B = 8 * (uint64_t)width;
    mortarpink_bitmap bitmap = MORTARPINK_EMPTY, copy = MORTARPINK_EMPTY;
    size_t used = 0;
    make_sample(&bitmap, width);
    check_sample(visible(&bitmap), width);
    check_sample(at_commit(&bitmap, 1), width);

    check_done(mortarpink_begin(&bitmap));
    check_done(mortarpink_set(&bitmap, B + 1, 0));
    check_done(mortarpink_set(&bitmap, 3 * B + 3, 1));
    check_done(mortarpink_prune(&bitmap, 2 * B));
    check_bit(mortarpink_pop(&bitmap, &out.bit), 1);
    check_done(mortarpink_prune(&bitmap, 3 * B));
    commit(&bitmap, 2);
    check_number(mortarpink_len(&bitmap, &out.number), 3 * B + 3);
    check_number(mortarpink_pruned_chunks(&bitmap, &out.number), 3);
    check_number(mortarpink_count_ones(&bitmap, 0, UINT64_MAX, &out.number), 1);
    check_sample(at_commit(&bitmap, 1), width);

    check_done(mortarpink_encode_at(&bitmap, 1, out.bytes, 16 + 3 * width, &out.size));
    check_done(mortarpink_read(&copy, width, 0, UINT64_MAX, out.bytes, out.size, &used, &out.number));
    check_equal(used, 16 + 3 * width);
    check_sample(visible(&copy), width);
    check_done(mortarpink_rewind(&bitmap, 1));
    check_sample(visible(&bitmap), width);
    check_done(mortarpink_free(&bitmap));
    check_done(mortarpink_free(&copy));
}


/* ---- Decoding ---- */

/* Two pruned chunks of width 1, and ten set bits. Two bytes follow. */
static const uint8_t ten[] = {0, 0, 0, 0, 0, 0, 0, 2, 0, 0, 0, 0, 0, 0, 0, 10, 0xFF, 0x03, 'a', 'b'};

/* Reads bytes with one of them replaced, in an empty handle. */
static mortarpink_status read_changed(size_t index, uint8_t byte, size_t len, uint64_t least, uint64_t most) {
    mortarpink_bitmap bitmap = MORTARPINK_EMPTY;
    mortarpink_status status;
    uint8_t bytes[sizeof ten];
    memcpy(bytes, ten, sizeof ten);
    bytes[index] = byte;
    fill_outputs();
    status = mortarpink_read(&bitmap, 1, least, most, bytes, len, &out.size, &out.number);
    check_equal(mortarpink_free(&bitmap) == MORTARPINK_DONE, status == MORTARPINK_DONE);
    return status;
}

static void test_read(void) {
    mortarpink_bitmap bitmap = MORTARPINK_EMPTY;
    fill_outputs();
    check_done(mortarpink_read(&bitmap, 1, 10, 10, ten, sizeof ten, &out.size, &out.number));
    check_equal(out.size, 18);
    check_equal(out.number, UINT64_C(0xA5A5A5A5A5A5A5A5));
    check(has_bits(visible(&bitmap), "................1111111111"));
    check_number(mortarpink_pruned_chunks(&bitmap, &out.number), 2);
    check_none(mortarpink_latest(&bitmap, &out.number));
    check_done(mortarpink_begin(&bitmap));
    push_text(&bitmap, "0");
    commit(&bitmap, 0);
    check(has_bits(visible(&bitmap), "................11111111110"));
    check_done(mortarpink_free(&bitmap));
    for (size_t len = 0; len < 18; len++) {
        check_unwritten(mortarpink_read(&bitmap, 1, 0, UINT64_MAX, ten, len, &out.size, &out.number),
                        MORTARPINK_END_OF_BUFFER);
    }
    check_unwritten(mortarpink_free(&bitmap), MORTARPINK_EMPTY_HANDLE);
}

static void check_length_error(uint64_t least, uint64_t most, size_t len) {
    check_status(read_changed(0, 0, len, least, most), MORTARPINK_INVALID_LENGTH);
    check_equal(out.number, 10);
    check_equal(out.size, (size_t)UINT64_C(0xA5A5A5A5A5A5A5A5));
}

static void test_read_errors(void) {
    check_done(read_changed(0, 0, 18, 0, UINT64_MAX));
    check_done(read_changed(0, 0, 18, 10, UINT64_MAX));
    check_done(read_changed(0, 0, 18, 0, 10));
    check_length_error(11, UINT64_MAX, 18);
    check_length_error(0, 9, 18);
    check_length_error(11, 9, 18);
    check_length_error(0, 9, 16);
    check_unwritten(read_changed(0, 0, 15, 0, 9), MORTARPINK_END_OF_BUFFER);
    check_unwritten(read_changed(17, 0x07, 18, 0, UINT64_MAX), MORTARPINK_INVALID);
    check_unwritten(read_changed(17, 0x83, 18, 0, UINT64_MAX), MORTARPINK_INVALID);
    check_unwritten(read_changed(0, 0x20, 8, 0, UINT64_MAX), MORTARPINK_INVALID);
    check_unwritten(read_changed(0, 0x20, 7, 0, UINT64_MAX), MORTARPINK_END_OF_BUFFER);
    check_done(read_changed(0, 0x1F, 18, 0, UINT64_MAX));
    check_unwritten(read_changed(8, 0xFF, 18, 0, UINT64_MAX), MORTARPINK_END_OF_BUFFER);
    check_done(read_changed(17, 0x00, 18, 0, UINT64_MAX));
    check_unwritten(read_changed(15, 9, 18, 0, UINT64_MAX), MORTARPINK_INVALID);
}


/* ---- Commits ---- */

/* Three commits of width 8: 3 has the bits 10, 5 these and 64 set bits, and 9 the same with position 65 cleared. */
static void make_commits(mortarpink_bitmap *bitmap) {
    const uint8_t full[] = {255, 255, 255, 255, 255, 255, 255, 255};
    make(bitmap, 8, "10");
    commit(bitmap, 3);
    check_done(mortarpink_begin(bitmap));
    check_done(mortarpink_push_chunk(bitmap, full, 8));
    commit(bitmap, 5);
    check_done(mortarpink_begin(bitmap));
    check_done(mortarpink_set(bitmap, 65, 0));
    commit(bitmap, 9);
}

static void test_commit_lists(void) {
    const uint64_t all[] = {3, 5, 9};
    mortarpink_bitmap bitmap = MORTARPINK_EMPTY;
    make_commits(&bitmap);
    check_page(mortarpink_commits(&bitmap, 0, out.numbers, 0, &out.size), all, 0);
    check_page(mortarpink_commits(&bitmap, 0, out.numbers, 1, &out.size), all, 1);
    check_page(mortarpink_commits(&bitmap, 4, out.numbers, 1, &out.size), all + 1, 1);
    check_page(mortarpink_commits(&bitmap, 0, out.numbers, 3, &out.size), all, 3);
    check_page(mortarpink_commits(&bitmap, 3, out.numbers, 8, &out.size), all, 3);
    check_page(mortarpink_commits(&bitmap, 9, out.numbers, 8, &out.size), all + 2, 1);
    check_page(mortarpink_commits(&bitmap, 10, out.numbers, 8, &out.size), all, 0);
    check_page(mortarpink_commits(&bitmap, UINT64_MAX, out.numbers, 8, &out.size), all, 0);
    check_bit(mortarpink_exists(&bitmap, 3, &out.bit), 1);
    check_bit(mortarpink_exists(&bitmap, 4, &out.bit), 0);
    check_bit(mortarpink_exists(&bitmap, UINT64_MAX, &out.bit), 0);
    check_number(mortarpink_latest(&bitmap, &out.number), 9);
    check_number(mortarpink_earliest(&bitmap, &out.number), 3);
    check_number(mortarpink_entries(&bitmap, &out.number), 4);
    check_number(mortarpink_count_ones_at(&bitmap, 3, 0, 99, &out.number), 1);
    check_number(mortarpink_count_ones_at(&bitmap, 5, 0, 99, &out.number), 65);
    check_number(mortarpink_count_ones_at(&bitmap, 9, 0, 99, &out.number), 64);
    check_done(mortarpink_free(&bitmap));
}

static void test_changed_chunks(void) {
    const uint64_t chunks[] = {0, 1};
    mortarpink_bitmap bitmap = MORTARPINK_EMPTY;
    make_commits(&bitmap);
    check_page(mortarpink_changed_chunks(&bitmap, 3, 5, 0, out.numbers, 0, &out.size), chunks, 0);
    check_page(mortarpink_changed_chunks(&bitmap, 3, 5, 0, out.numbers, 1, &out.size), chunks, 1);
    check_page(mortarpink_changed_chunks(&bitmap, 3, 5, 1, out.numbers, 1, &out.size), chunks + 1, 1);
    check_page(mortarpink_changed_chunks(&bitmap, 3, 5, 0, out.numbers, 2, &out.size), chunks, 2);
    check_page(mortarpink_changed_chunks(&bitmap, 3, 9, 0, out.numbers, 8, &out.size), chunks, 2);
    check_page(mortarpink_changed_chunks(&bitmap, 5, 9, 0, out.numbers, 8, &out.size), chunks + 1, 1);
    check_page(mortarpink_changed_chunks(&bitmap, 3, 9, 2, out.numbers, 8, &out.size), chunks, 0);
    check_page(mortarpink_changed_chunks(&bitmap, 3, 9, UINT64_MAX, out.numbers, 8, &out.size), chunks, 0);
    check_page(mortarpink_changed_chunks(&bitmap, 5, 5, 0, out.numbers, 8, &out.size), chunks, 0);
    check_unwritten(mortarpink_changed_chunks(&bitmap, 5, 3, 0, out.numbers, 8, &out.size), MORTARPINK_NO_SUCH_COMMIT);
    check_unwritten(mortarpink_changed_chunks(&bitmap, 3, 4, 0, out.numbers, 8, &out.size), MORTARPINK_NO_SUCH_COMMIT);
    check_unwritten(mortarpink_changed_chunks(&bitmap, 4, 5, 0, out.numbers, 8, &out.size), MORTARPINK_NO_SUCH_COMMIT);
    check_done(mortarpink_free(&bitmap));
}

/* Checks that a batch is not committed under a number, because of the last one. */
static void check_not_above(mortarpink_bitmap *bitmap, uint64_t number, uint64_t last) {
    fill_outputs();
    check_status(mortarpink_commit(bitmap, number, &out.number), MORTARPINK_NON_MONOTONIC_COMMIT);
    check_equal(out.number, last);
}

static void test_commit_numbers(void) {
    mortarpink_bitmap bitmap = MORTARPINK_EMPTY;
    make(&bitmap, 1, "1");
    check_unwritten(mortarpink_commit(&bitmap, UINT64_MAX, &out.number), MORTARPINK_RESERVED_COMMIT_NUMBER);
    commit(&bitmap, 0);
    check_done(mortarpink_begin(&bitmap));
    push_text(&bitmap, "0");
    check_not_above(&bitmap, 0, 0);
    check_unwritten(mortarpink_commit(&bitmap, UINT64_MAX, &out.number), MORTARPINK_RESERVED_COMMIT_NUMBER);
    check(has_bits(visible(&bitmap), "10"));
    commit(&bitmap, 7);
    check_done(mortarpink_begin(&bitmap));
    check_not_above(&bitmap, 7, 7);
    check_not_above(&bitmap, 6, 7);
    commit(&bitmap, UINT64_MAX - 1);
    check_done(mortarpink_begin(&bitmap));
    check_not_above(&bitmap, UINT64_MAX - 1, UINT64_MAX - 1);
    check_done(mortarpink_abort(&bitmap));
    check_number(mortarpink_entries(&bitmap, &out.number), 2);
    check_number(mortarpink_latest(&bitmap, &out.number), UINT64_MAX - 1);
    check(has_bits(at_commit(&bitmap, UINT64_MAX - 1), "10"));
    check_done(mortarpink_free(&bitmap));
}

/* After a rewind, numbers continue from the commit that is current again. */
static void test_rewind(void) {
    const uint64_t kept[] = {3, 5, 6};
    mortarpink_bitmap bitmap = MORTARPINK_EMPTY;
    make_commits(&bitmap);
    check_unwritten(mortarpink_rewind(&bitmap, 4), MORTARPINK_NO_SUCH_COMMIT);
    check_done(mortarpink_rewind(&bitmap, 9));
    check_number(mortarpink_latest(&bitmap, &out.number), 9);
    check_bit(mortarpink_get(&bitmap, 65, &out.bit), 0);
    check_done(mortarpink_rewind(&bitmap, 5));
    check_bit(mortarpink_get(&bitmap, 65, &out.bit), 1);
    check_unwritten(mortarpink_rewind(&bitmap, 9), MORTARPINK_NO_SUCH_COMMIT);
    check_number(mortarpink_entries(&bitmap, &out.number), 3);
    check_done(mortarpink_begin(&bitmap));
    check_not_above(&bitmap, 5, 5);
    check_bit(mortarpink_pop(&bitmap, &out.bit), 1);
    commit(&bitmap, 6);
    check_page(mortarpink_commits(&bitmap, 0, out.numbers, 8, &out.size), kept, 3);
    check_number(mortarpink_len(&bitmap, &out.number), 65);
    check_done(mortarpink_rewind(&bitmap, 3));
    check(has_bits(visible(&bitmap), "10"));
    check_page(mortarpink_commits(&bitmap, 0, out.numbers, 8, &out.size), kept, 1);
    check_done(mortarpink_free(&bitmap));
}

/* Checks those commits of `make_commits` that are kept from a number on. */
static void check_indexed(mortarpink_bitmap *bitmap, uint64_t from) {
    if (from <= 3) check(has_bits(at_commit(bitmap, 3), "10"));
    if (from <= 5) check_number(mortarpink_count_ones_at(bitmap, 5, 0, 99, &out.number), 65);
    check_number(mortarpink_count_ones_at(bitmap, 9, 0, 99, &out.number), 64);
    check_bit(mortarpink_get_at(bitmap, 9, 65, &out.bit), 0);
    check_number(mortarpink_next_zero_at(bitmap, 9, 2, &out.number), 65);
}

/* The reads of commits are the same with an index, which the calls that change the commits keep. */
static void test_index(void) {
    mortarpink_bitmap bitmap = MORTARPINK_EMPTY, copy = MORTARPINK_EMPTY;
    make_commits(&bitmap);
    check_done(mortarpink_index(&bitmap, 1));
    check_done(mortarpink_index(&bitmap, 255));
    check_indexed(&bitmap, 3);
    check_done(mortarpink_begin(&bitmap));
    check_done(mortarpink_set(&bitmap, 0, 0));
    commit(&bitmap, 12);
    check_indexed(&bitmap, 3);
    check_bit(mortarpink_get_at(&bitmap, 9, 0, &out.bit), 1);
    check_done(mortarpink_clone(&bitmap, &copy));
    check_indexed(&copy, 3);
    check_done(mortarpink_rewind(&bitmap, 9));
    check_indexed(&bitmap, 3);
    check_number(mortarpink_drop_before(&bitmap, 5, &out.number), 1);
    check_indexed(&bitmap, 5);
    check_done(mortarpink_index(&bitmap, 0));
    check_done(mortarpink_index(&bitmap, 0));
    check_indexed(&bitmap, 5);
    check_done(mortarpink_index(&bitmap, 1));
    check_done(mortarpink_clear(&bitmap));
    check_none(mortarpink_latest(&bitmap, &out.number));
    check_number(mortarpink_count_ones(&bitmap, 0, 99, &out.number), 64);
    check_indexed(&copy, 3);
    check_done(mortarpink_free(&bitmap));
    check_done(mortarpink_free(&copy));
}

/* Dropped commits leave the current bitmap, and their numbers are not used again. */
static void test_dropping(void) {
    const uint64_t kept[] = {5, 9};
    mortarpink_bitmap bitmap = MORTARPINK_EMPTY;
    make_commits(&bitmap);
    check_number(mortarpink_drop_before(&bitmap, 3, &out.number), 0);
    check_number(mortarpink_drop_before(&bitmap, 4, &out.number), 1);
    check_page(mortarpink_commits(&bitmap, 0, out.numbers, 8, &out.size), kept, 2);
    check_number(mortarpink_earliest(&bitmap, &out.number), 5);
    check_number(mortarpink_entries(&bitmap, &out.number), 3);
    check_unwritten(mortarpink_len_at(&bitmap, 3, &out.number), MORTARPINK_NO_SUCH_COMMIT);
    check_number(mortarpink_count_ones_at(&bitmap, 5, 0, 99, &out.number), 65);
    check_number(mortarpink_drop_before(&bitmap, UINT64_MAX, &out.number), 2);
    check_none(mortarpink_latest(&bitmap, &out.number));
    check_number(mortarpink_entries(&bitmap, &out.number), 0);
    check_number(mortarpink_count_ones(&bitmap, 0, 99, &out.number), 64);
    check_done(mortarpink_begin(&bitmap));
    check_not_above(&bitmap, 9, 9);
    commit(&bitmap, 10);
    check_done(mortarpink_clear(&bitmap));
    check_done(mortarpink_clear(&bitmap));
    check_none(mortarpink_latest(&bitmap, &out.number));
    check_none(mortarpink_earliest(&bitmap, &out.number));
    check_page(mortarpink_commits(&bitmap, 0, out.numbers, 8, &out.size), kept, 0);
    check_unwritten(mortarpink_rewind(&bitmap, 10), MORTARPINK_NO_SUCH_COMMIT);
    check_number(mortarpink_len(&bitmap, &out.number), 66);
    check_done(mortarpink_begin(&bitmap));
    check_not_above(&bitmap, 10, 10);
    check_done(mortarpink_free(&bitmap));
}


/* ---- Histories and deltas ---- */

/* A history of width 1. Commit 2 has the bits 1011000001, and 9 two set bits more, with chunk 0 pruned. */
static const char history_text[] =
    "4d504249544c4f47" "0000000000000001" "0000000000000001" "0b5345d577e3df7b" /* magic, version, width, check */
    "0000000000000024" "992088adb9e46f98"                                       /* 36 bytes of a base, head check */
    "04" "02" "0000000000000002" "0000000000000001"                             /* a base: 2 is kept, and 1 more */
    "0000000000000000" "000000000000000a" "0d" "02"                             /* pruned 0, 10 bits, two chunks */
    "f0ba2420f99960b8"                                                          /* digest */
    "0000000000000022" "c5d16092427c97d9"                                       /* 34 bytes of a commit, head check */
    "01" "0000000000000009" "000000000000000c" "0000000000000001"               /* number 9, length 12, pruned 1 */
    "0000000000000001" "0e"                                                     /* chunk 1 */
    "81fb552b1a913976";                                                         /* digest */

/* The delta from 2 to 9. It replaces the byte 02. */
static const char delta_text[] =
    "4d504244454c5441" "0000000000000001" "0000000000000001" /* magic, version, width */
    "0000000000000002" "000000000000000a" "0000000000000000" /* from: number 2, length 10, pruned 0 */
    "6432cecb7f52450b"                                       /* digest of the replaced byte */
    "0000000000000009" "000000000000000c" "0000000000000001" /* to: number 9, length 12, pruned 1 */
    "0000000000000001" "0e"                                  /* chunk 1 */
    "a6237c783aedba3c";                                      /* digest */

enum { HISTORY = 150, DELTA = 97, TEXT_BYTES = 160 };

static uint8_t digit(char sign) {
    return (uint8_t)(sign <= '9' ? sign - '0' : sign - 'a' + 10);
}

/* Writes the bytes that a text has in hexadecimal. */
static void put_hex(uint8_t *bytes, const char *text) {
    for (; text[0] != 0; text += 2) *bytes++ = (uint8_t)(digit(text[0]) << 4 | digit(text[1]));
}

/* Makes the bitmap of the worked history up to commit 2. */
static void make_first(mortarpink_bitmap *bitmap, uint32_t width) {
    make(bitmap, width, "1011000001");
    commit(bitmap, 2);
}

/* Makes the whole bitmap of the worked history. */
static void make_both(mortarpink_bitmap *bitmap) {
    make_first(bitmap, 1);
    check_done(mortarpink_begin(bitmap));
    push_text(bitmap, "11");
    check_done(mortarpink_prune(bitmap, 8));
    commit(bitmap, 9);
}

/* Whether a bitmap is that of the worked history, or keeps only commit 9 of it. */
static int is_worked(mortarpink_bitmap *bitmap, int keeps_first) {
    const uint64_t numbers[] = {2, 9};
    fill_outputs();
    if (mortarpink_commits(bitmap, 0, out.numbers, 8, &out.size) != MORTARPINK_DONE) return 0;
    if (!has_page(numbers + !keeps_first, 1 + (size_t)keeps_first)) return 0;
    if (keeps_first && !has_bits(at_commit(bitmap, 2), "1011000001")) return 0;
    return has_bits(at_commit(bitmap, 9), "........0111") && has_bits(visible(bitmap), "........0111");
}

static void test_save(void) {
    uint8_t bytes[TEXT_BYTES];
    mortarpink_bitmap bitmap = MORTARPINK_EMPTY;
    put_hex(bytes, history_text);
    make_both(&bitmap);
    fill_outputs();
    check_status(mortarpink_save(&bitmap, out.bytes, 0, &out.size), MORTARPINK_WRONG_SIZE);
    check_equal(out.size, HISTORY);
    check_equal(out.bytes[0], 0xA5);
    fill_outputs();
    check_status(mortarpink_save(&bitmap, out.bytes, HISTORY + 1, &out.size), MORTARPINK_WRONG_SIZE);
    check_equal(out.size, HISTORY);
    check_equal(out.bytes[0], 0xA5);
    check_value(mortarpink_save(&bitmap, out.bytes, HISTORY, &out.size), out.size, HISTORY);
    check(memcmp(out.bytes, bytes, HISTORY) == 0);
    check_equal(out.bytes[HISTORY], 0xA5);
    check_done(mortarpink_index(&bitmap, 1));
    check_value(mortarpink_save(&bitmap, out.bytes, HISTORY, &out.size), memcmp(out.bytes, bytes, HISTORY), 0);
    check(is_worked(&bitmap, 1));
    check_done(mortarpink_free(&bitmap));
}

/* Without commits a history has the current bitmap, and the last number if there is one. */
static void test_save_without_commits(uint32_t width) {
    const size_t size = 32 + 16 + 18 + 16 + (size_t)width + 8;
    mortarpink_bitmap bitmap = MORTARPINK_EMPTY, copy = MORTARPINK_EMPTY;
    size_t used = 0;
    make_first(&bitmap, width);
    check_done(mortarpink_clear(&bitmap));
    check_done(mortarpink_begin(&bitmap));
    check_done(mortarpink_truncate(&bitmap, 4));
    commit(&bitmap, 5);
    check_done(mortarpink_clear(&bitmap));
    check_value(mortarpink_save(&bitmap, out.bytes, size, &out.size), out.size, size);
    check_equal(out.bytes[49], 1);
    check_done(load_any(&copy, width, out.bytes, size, &used));
    check_equal(used, size);
    check(has_bits(visible(&copy), "1011"));
    check_none(mortarpink_latest(&copy, &out.number));
    check_done(mortarpink_begin(&copy));
    check_not_above(&copy, 5, 5);
    commit(&copy, 6);
    check_done(mortarpink_free(&bitmap));
    check_done(mortarpink_free(&copy));
}

static void test_load(void) {
    uint8_t bytes[TEXT_BYTES] = {0};
    mortarpink_bitmap bitmap = MORTARPINK_EMPTY;
    put_hex(bytes, history_text);
    fill_outputs();
    check_done(mortarpink_load(&bitmap, 1, 4, 10, 1, 1, bytes, TEXT_BYTES, &out.size));
    check_equal(out.size, HISTORY);
    check(is_worked(&bitmap, 1));
    check_done(mortarpink_rewind(&bitmap, 2));
    check(has_bits(visible(&bitmap), "1011000001"));
    check_done(mortarpink_free(&bitmap));
    for (size_t len = 0; len < HISTORY; len++) {
        check_unwritten(load_any(&bitmap, 1, bytes, len, &out.size), MORTARPINK_CUT_OFF);
    }
    for (uint32_t width = 8; width <= 64; width++) {
        const int is_width = width == 8 || width == 32 || width == 64;
        check_unwritten(load_any(&bitmap, width, bytes, HISTORY, &out.size),
                        is_width ? MORTARPINK_WRONG_HEADER : MORTARPINK_NO_SUCH_WIDTH);
    }
    check_unwritten(mortarpink_free(&bitmap), MORTARPINK_EMPTY_HANDLE);
}

/* Loads the worked history in an empty handle, with these ranges. */
static mortarpink_status load_within(uint64_t least_bits, uint64_t most_bits, uint64_t least, uint64_t most) {
    uint8_t bytes[TEXT_BYTES];
    mortarpink_bitmap bitmap = MORTARPINK_EMPTY;
    mortarpink_status status;
    put_hex(bytes, history_text);
    status = mortarpink_load(&bitmap, 1, least_bits, most_bits, least, most, bytes, HISTORY, &out.size);
    check_equal(mortarpink_free(&bitmap) == MORTARPINK_DONE, status == MORTARPINK_DONE);
    return status;
}

/* Commit 2 retains ten bits, and 9 four. One commit follows the first. */
static void test_load_ranges(void) {
    check_done(load_within(4, 10, 0, UINT64_MAX));
    check_done(load_within(0, UINT64_MAX, 1, 1));
    check_unwritten(load_within(5, UINT64_MAX, 0, UINT64_MAX), MORTARPINK_OUT_OF_RANGE);
    check_unwritten(load_within(0, 9, 0, UINT64_MAX), MORTARPINK_OUT_OF_RANGE);
    check_unwritten(load_within(11, 4, 0, UINT64_MAX), MORTARPINK_OUT_OF_RANGE);
    check_unwritten(load_within(0, UINT64_MAX, 2, UINT64_MAX), MORTARPINK_OUT_OF_RANGE);
    check_unwritten(load_within(0, UINT64_MAX, 0, 0), MORTARPINK_OUT_OF_RANGE);
    check_unwritten(load_within(0, UINT64_MAX, 1, 0), MORTARPINK_OUT_OF_RANGE);
}

/* Loads the worked history with these bytes in place of those from an index on, in hexadecimal. */
static mortarpink_status load_with(size_t index, const char *text) {
    uint8_t bytes[TEXT_BYTES];
    mortarpink_bitmap bitmap = MORTARPINK_EMPTY;
    mortarpink_status status;
    put_hex(bytes, history_text);
    put_hex(bytes + index, text);
    status = load_any(&bitmap, 1, bytes, HISTORY, &out.size);
    check_equal(mortarpink_free(&bitmap) == MORTARPINK_DONE, status == MORTARPINK_DONE);
    return status;
}

/* Each bit that is flipped is found. With digests that are made anew, the bytes are whole, but not accepted. */
static void test_damaged_history(void) {
    uint8_t bytes[TEXT_BYTES];
    mortarpink_bitmap bitmap = MORTARPINK_EMPTY;
    for (size_t bit = 0; bit < 8 * HISTORY; bit++) {
        put_hex(bytes, history_text);
        bytes[bit / 8] ^= (uint8_t)(1 << bit % 8);
        check_unwritten(load_any(&bitmap, 1, bytes, HISTORY, &out.size),
                        bit < 8 * 32 ? MORTARPINK_WRONG_HEADER : MORTARPINK_DAMAGED);
    }
    check_done(load_with(0, ""));
    check_unwritten(load_with(48, "05"), MORTARPINK_DAMAGED);
    check_unwritten(load_with(48, "05" "020000000000000002" "0000000000000001" "0000000000000000" "000000000000000a"
                                  "0d02" "1fc7a35b01096ee5"), MORTARPINK_NOT_ACCEPTED);
    check_unwritten(load_with(108, "01" "0000000000000002" "000000000000000c" "0000000000000001" "0000000000000001"
                                   "0e" "692a9ebd545fcb5f"), MORTARPINK_NOT_ACCEPTED);
}

static void test_delta(void) {
    uint8_t bytes[TEXT_BYTES];
    mortarpink_bitmap bitmap = MORTARPINK_EMPTY;
    put_hex(bytes, delta_text);
    make_both(&bitmap);
    check_value(mortarpink_delta(&bitmap, 2, 9, out.bytes, DELTA, &out.size), out.size, DELTA);
    check(memcmp(out.bytes, bytes, DELTA) == 0);
    check_equal(out.bytes[DELTA], 0xA5);
    fill_outputs();
    check_status(mortarpink_delta(&bitmap, 2, 9, out.bytes, 0, &out.size), MORTARPINK_WRONG_SIZE);
    check_equal(out.size, DELTA);
    check_equal(out.bytes[0], 0xA5);
    check_unwritten(mortarpink_delta(&bitmap, 9, 2, out.bytes, DELTA, &out.size), MORTARPINK_NO_SUCH_COMMIT);
    check_unwritten(mortarpink_delta(&bitmap, 2, 2, out.bytes, DELTA, &out.size), MORTARPINK_NO_SUCH_COMMIT);
    check_unwritten(mortarpink_delta(&bitmap, 2, 8, out.bytes, DELTA, &out.size), MORTARPINK_NO_SUCH_COMMIT);
    check_unwritten(mortarpink_delta(&bitmap, 1, 9, out.bytes, DELTA, &out.size), MORTARPINK_NO_SUCH_COMMIT);
    check_done(mortarpink_free(&bitmap));
}

/* The delta is applied once, whether or not the older bitmap is kept. */
static void test_apply_delta(void) {
    uint8_t bytes[TEXT_BYTES];
    mortarpink_bitmap bitmap = MORTARPINK_EMPTY;
    put_hex(bytes, delta_text);
    make_first(&bitmap, 1);
    for (size_t len = 0; len < DELTA; len++) {
        check_unwritten(mortarpink_apply_delta(&bitmap, bytes, len), len < 88 ? MORTARPINK_CUT_OFF : MORTARPINK_DAMAGED);
    }
    check_unwritten(mortarpink_apply_delta(&bitmap, bytes, DELTA), MORTARPINK_DONE);
    check(is_worked(&bitmap, 1));
    check_unwritten(mortarpink_apply_delta(&bitmap, bytes, DELTA), MORTARPINK_NOT_AT_BASE);
    check(is_worked(&bitmap, 1));
    check_done(mortarpink_rewind(&bitmap, 2));
    check_done(mortarpink_clear(&bitmap));
    check_done(mortarpink_index(&bitmap, 1));
    check_unwritten(mortarpink_apply_delta(&bitmap, bytes, DELTA), MORTARPINK_DONE);
    check(is_worked(&bitmap, 0));
    check_done(mortarpink_free(&bitmap));
}

/* Applies the worked delta, with these bytes in place of those from an index on, to a bitmap. It has to be unchanged. */
static mortarpink_status apply_with(mortarpink_bitmap *bitmap, size_t index, const char *text, size_t len) {
    uint8_t bytes[TEXT_BYTES] = {0};
    put_hex(bytes, delta_text);
    put_hex(bytes + index, text);
    return mortarpink_apply_delta(bitmap, bytes, len);
}

static void test_delta_errors(void) {
    mortarpink_bitmap bitmap = MORTARPINK_EMPTY, other = MORTARPINK_EMPTY;
    make_first(&bitmap, 1);
    check_unwritten(apply_with(&bitmap, 0, "4c", DELTA), MORTARPINK_WRONG_HEADER);
    check_unwritten(apply_with(&bitmap, 15, "02", DELTA), MORTARPINK_WRONG_HEADER);
    check_unwritten(apply_with(&bitmap, 88, "0f", DELTA), MORTARPINK_DAMAGED);
    check_unwritten(apply_with(&bitmap, 23, "08", DELTA), MORTARPINK_DAMAGED);
    check_unwritten(apply_with(&bitmap, 89, "00" "ba348906755ac714", DELTA + 1), MORTARPINK_CUT_OFF);
    check(has_bits(visible(&bitmap), "1011000001"));
    check_number(mortarpink_latest(&bitmap, &out.number), 2);
    make_first(&other, 8);
    check_unwritten(apply_with(&other, 0, "", DELTA), MORTARPINK_WRONG_HEADER);
    check_done(mortarpink_free(&other));
    check_done(mortarpink_new(&other, 1));
    check_unwritten(apply_with(&other, 0, "", DELTA), MORTARPINK_NOT_AT_BASE);
    check_done(mortarpink_free(&other));
    check_done(mortarpink_begin(&bitmap));
    check_unwritten(apply_with(&bitmap, 0, "", DELTA), MORTARPINK_IN_BATCH);
    check_done(mortarpink_set(&bitmap, 9, 0));
    commit(&bitmap, 3);
    check_unwritten(apply_with(&bitmap, 0, "", DELTA), MORTARPINK_NOT_AT_BASE);
    check_done(mortarpink_free(&bitmap));
}

/* The number of the newer bitmap is 2, which is not above the last one, and the digest is made anew. */
static void test_delta_not_accepted(void) {
    uint8_t bytes[TEXT_BYTES];
    mortarpink_bitmap bitmap = MORTARPINK_EMPTY;
    make_first(&bitmap, 1);
    put_hex(bytes, delta_text);
    bytes[63] = 2;
    put_hex(bytes + 89, "95b0c694dac7624e");
    check_unwritten(mortarpink_apply_delta(&bitmap, bytes, DELTA), MORTARPINK_NOT_ACCEPTED);
    check(has_bits(visible(&bitmap), "1011000001"));
    check_done(mortarpink_free(&bitmap));
}

/* A bitmap of each width is saved and loaded, and follows another one by a delta. */
static void test_replica(uint32_t width) {
    mortarpink_bitmap bitmap = MORTARPINK_EMPTY, replica = MORTARPINK_EMPTY;
    uint8_t bytes[1024];
    size_t size = 0, used = 0;
    make_sample(&bitmap, width);
    check_status(mortarpink_save(&bitmap, bytes, 0, &size), MORTARPINK_WRONG_SIZE);
    check_done(mortarpink_save(&bitmap, bytes, size, &size));
    check_done(load_any(&replica, width, bytes, size, &used));
    check_equal(used, size);
    check_sample(visible(&replica), width);
    check_sample(at_commit(&replica, 1), width);
    check_done(mortarpink_begin(&bitmap));
    push_text(&bitmap, "1101");
    commit(&bitmap, 2);
    check_status(mortarpink_delta(&bitmap, 1, 2, bytes, 0, &size), MORTARPINK_WRONG_SIZE);
    check_equal(size, 88 + 8 + width);
    check_done(mortarpink_delta(&bitmap, 1, 2, bytes, size, &size));
    check_done(mortarpink_apply_delta(&replica, bytes, size));
    check_sample(at_commit(&replica, 1), width);
    check_number(mortarpink_len(&replica, &out.number), 24 * (uint64_t)width + 8);
    check_number(mortarpink_count_ones(&replica, 0, UINT64_MAX, &out.number), 7);
    check_number(mortarpink_latest(&replica, &out.number), 2);
    check_done(mortarpink_free(&bitmap));
    check_done(mortarpink_free(&replica));
}


/* ---- The log of the commits ---- */

/* Reads the bytes of a log that were not forgotten to `out`, and returns their number. */
static size_t log_size(mortarpink_bitmap *bitmap) {
    size_t size = 0;
    fill_outputs();
    check_status(mortarpink_log_bytes(bitmap, out.bytes, 0, &size), MORTARPINK_WRONG_SIZE);
    check(outputs_are_filled());
    check_done(mortarpink_log_bytes(bitmap, out.bytes, size, &out.size));
    check_equal(out.size, size);
    return size;
}

/* A log begins with the history, and ends once. */
static void test_log(void) {
    uint8_t bytes[TEXT_BYTES];
    mortarpink_bitmap bitmap = MORTARPINK_EMPTY, copy = MORTARPINK_EMPTY;
    put_hex(bytes, history_text);
    make_both(&bitmap);
    check_log_calls(&bitmap, MORTARPINK_NO_LOG);
    check_done(mortarpink_begin(&bitmap));
    check_unwritten(mortarpink_log_begin(&bitmap), MORTARPINK_IN_BATCH);
    check_log_calls(&bitmap, MORTARPINK_NO_LOG);
    check_done(mortarpink_abort(&bitmap));
    check_unwritten(mortarpink_log_begin(&bitmap), MORTARPINK_DONE);
    check_unwritten(mortarpink_log_begin(&bitmap), MORTARPINK_HAS_LOG);
    check_equal(log_size(&bitmap), HISTORY);
    check(memcmp(out.bytes, bytes, HISTORY) == 0);
    check_number(mortarpink_log_position(&bitmap, &out.number), HISTORY);
    check_unwritten(mortarpink_start(&bitmap, 1), MORTARPINK_HAS_LOG);
    check(is_worked(&bitmap, 1));
    check_done(mortarpink_clone(&bitmap, &copy));
    check_log_calls(&copy, MORTARPINK_NO_LOG);
    check_done(mortarpink_free(&copy));
    check_done(mortarpink_checkout(&bitmap, 2, &copy));
    check_log_calls(&copy, MORTARPINK_NO_LOG);
    check_done(mortarpink_free(&copy));
    check_unwritten(mortarpink_log_forget(&bitmap), MORTARPINK_DONE);
    check_value(mortarpink_log_bytes(&bitmap, out.bytes, 0, &out.size), out.size, 0);
    check_number(mortarpink_log_position(&bitmap, &out.number), HISTORY);
    check_unwritten(mortarpink_log_end(&bitmap), MORTARPINK_DONE);
    check_log_calls(&bitmap, MORTARPINK_NO_LOG);
    check(is_worked(&bitmap, 1));
    check_done(mortarpink_start(&bitmap, 1));
    check_done(mortarpink_free(&bitmap));
}

/* Checks that a call has appended an entry of this size, and that the position is that of the whole log. Forgets it. */
static void check_entry(mortarpink_bitmap *bitmap, size_t size, uint64_t *position) {
    check_value(mortarpink_log_bytes(bitmap, out.bytes, size, &out.size), out.size, size);
    *position += size;
    check_number(mortarpink_log_position(bitmap, &out.number), *position);
    check_unwritten(mortarpink_log_forget(bitmap), MORTARPINK_DONE);
}

static uint64_t log_digest(mortarpink_bitmap *bitmap) {
    uint64_t digest = 0;
    check_done(mortarpink_log_digest(bitmap, &digest));
    return digest;
}

/* Makes a bitmap with a log, of which nothing is to be written, and commits three bits. */
static void make_logged(mortarpink_bitmap *bitmap, uint32_t width) {
    check_done(mortarpink_new(bitmap, width));
    check_done(mortarpink_log_begin(bitmap));
    check_done(mortarpink_log_forget(bitmap));
    check_done(mortarpink_begin(bitmap));
    push_text(bitmap, "101");
    commit(bitmap, 1);
}

/* Each accepted call that changes what is kept appends its entry to the log, and a refused one does not. An entry has a
 * frame of 24 bytes. A commit of one chunk has 25 + 8 + width bytes, a rewind or a drop 9, and a clear 1. */
static void test_log_entries(uint32_t width) {
    const size_t of_commit = 24 + 33 + width, of_number = 24 + 9, of_clear = 24 + 1, of_delta = 88 + 8 + width;
    mortarpink_bitmap bitmap = MORTARPINK_EMPTY;
    uint8_t bytes[TEXT_BYTES];
    uint64_t position = 0;
    make_logged(&bitmap, width);
    check_done(mortarpink_log_position(&bitmap, &position));
    position -= of_commit;
    check_entry(&bitmap, of_commit, &position);

    check_unwritten(mortarpink_commit(&bitmap, 2, &out.number), MORTARPINK_NOT_IN_BATCH);
    check_done(mortarpink_begin(&bitmap));
    push_text(&bitmap, "1");
    check_unwritten(mortarpink_commit(&bitmap, UINT64_MAX, &out.number), MORTARPINK_RESERVED_COMMIT_NUMBER);
    check_unwritten(mortarpink_rewind(&bitmap, 1), MORTARPINK_IN_BATCH);
    check_unwritten(mortarpink_drop_before(&bitmap, 1, &out.number), MORTARPINK_IN_BATCH);
    check_unwritten(mortarpink_clear(&bitmap), MORTARPINK_IN_BATCH);
    check_entry(&bitmap, 0, &position);
    commit(&bitmap, 2);
    check_entry(&bitmap, of_commit, &position);
    check_done(mortarpink_delta(&bitmap, 1, 2, bytes, of_delta, &out.size));

    check_unwritten(mortarpink_rewind(&bitmap, 3), MORTARPINK_NO_SUCH_COMMIT);
    check_entry(&bitmap, 0, &position);
    check_unwritten(mortarpink_rewind(&bitmap, 1), MORTARPINK_DONE);
    check_entry(&bitmap, of_number, &position);
    check_unwritten(mortarpink_apply_delta(&bitmap, bytes, of_delta), MORTARPINK_DONE);
    check_entry(&bitmap, of_commit, &position);
    check_unwritten(mortarpink_apply_delta(&bitmap, bytes, of_delta), MORTARPINK_NOT_AT_BASE);
    check_entry(&bitmap, 0, &position);
    check_number(mortarpink_drop_before(&bitmap, 2, &out.number), 1);
    check_entry(&bitmap, of_number, &position);
    check_unwritten(mortarpink_clear(&bitmap), MORTARPINK_DONE);
    check_entry(&bitmap, of_clear, &position);
    check_done(mortarpink_free(&bitmap));
}

/* A delta and the commit that it has append the same entry, and so the logs have the same digest. */
static void test_log_digest(uint32_t width) {
    const size_t of_delta = 88 + 8 + width;
    mortarpink_bitmap bitmap = MORTARPINK_EMPTY, replica = MORTARPINK_EMPTY;
    uint8_t bytes[TEXT_BYTES];
    make_logged(&bitmap, width);
    make_logged(&replica, width);
    check(log_digest(&bitmap) == log_digest(&replica));
    check_done(mortarpink_begin(&bitmap));
    push_text(&bitmap, "1");
    commit(&bitmap, 2);
    check(log_digest(&bitmap) != log_digest(&replica));
    check_done(mortarpink_delta(&bitmap, 1, 2, bytes, of_delta, &out.size));
    check_done(mortarpink_apply_delta(&replica, bytes, of_delta));
    check(log_digest(&bitmap) == log_digest(&replica));
    check_done(mortarpink_free(&bitmap));
    check_done(mortarpink_free(&replica));
}


/* ---- A log that is recovered ---- */

/* A log of width 1. Commit 1 has the bits 101, and commit 5 the bits 11010011 more. Then the bitmap is rewound to 1, the
 * commits before 1 are dropped, and then all. */
static const char log_text[] =
    "4d504249544c4f47" "0000000000000001" "0000000000000001" "0b5345d577e3df7b" /* magic, version, width, check */
    "0000000000000022" "681c20c77e3ca319"                                       /* 34 bytes of a base, head check */
    "04" "00" "0000000000000000" "0000000000000000"                             /* a base: nothing is kept */
    "0000000000000000" "0000000000000000"                                       /* pruned 0, no bits */
    "210e45243dcc6fc5"                                                          /* digest */
    "0000000000000022" "5e94e59343a9b255"                                       /* 34 bytes of a commit, head check */
    "01" "0000000000000001" "0000000000000003" "0000000000000000"               /* number 1, length 3, pruned 0 */
    "0000000000000000" "05"                                                     /* chunk 0 */
    "047d3edd96aca7ad"                                                          /* digest */
    "000000000000002b" "0617ef9306963819"                                       /* 43 bytes of a commit, head check */
    "01" "0000000000000005" "000000000000000b" "0000000000000000"               /* number 5, length 11, pruned 0 */
    "0000000000000000" "5d" "0000000000000001" "06"                             /* chunks 0 and 1 */
    "ee3250713d159206"                                                          /* digest */
    "0000000000000009" "3df4e7cbc31e449f" "02" "0000000000000001" "68ce0b476a18468b"  /* a rewind to 1 */
    "0000000000000009" "2328220afb295d45" "03" "0000000000000001" "75872cd18716b0dc"  /* a drop before 1 */
    "0000000000000001" "f0e8689801a08294" "05" "7356dd36b6d8bbf2";                    /* a clear */

/* A frame for the place after the header, and one for the place after the base: a clear, and a rewind to 1. */
static const char clear_at_32[] = "0000000000000001" "8777fb2ef6f06553" "05" "3c9e243c641247a4";
static const char rewind_at_90[] = "0000000000000009" "bdafaba374d80f2f" "02" "0000000000000001" "0fad80476082398e";

enum { HEADER = 32, LOG = 306, FRAMES = 6, FILE_BYTES = 1024 };

/* Where the frames of the worked log begin, and where the last one ends. */
static const size_t log_places[FRAMES + 1] = {HEADER, 90, 148, 215, 248, 281, LOG};

/* The bits after each frame, and the number of commits, which are 1 and 5. */
static const char *const log_bits[FRAMES] = {"", "101", "10111010011", "101", "101", "101"};
static const size_t log_commits[FRAMES] = {0, 1, 2, 1, 1, 0};

/* The file of a program that writes a log. */
struct file {
    size_t size;
    uint8_t bytes[FILE_BYTES];
};

/* Writes the bytes of a log that were not forgotten to the end of a file, and forgets them. */
static void write_log(struct file *file, mortarpink_bitmap *bitmap) {
    const size_t size = log_size(bitmap);
    const int fits = file->size + size <= FILE_BYTES;
    check(fits);
    if (!fits) return;
    memcpy(file->bytes + file->size, out.bytes, size);
    file->size += size;
    check_done(mortarpink_log_forget(bitmap));
}

static void commit_text(mortarpink_bitmap *bitmap, const char *bits, uint64_t number) {
    check_done(mortarpink_begin(bitmap));
    push_text(bitmap, bits);
    commit(bitmap, number);
}

/* Recovers a bitmap from the first bytes of a file, of which so many have to be good. The next entry goes there. */
static void check_recovered(mortarpink_bitmap *bitmap, uint32_t width, const uint8_t *bytes, size_t len, size_t good) {
    check_value(mortarpink_recover(bitmap, width, bytes, len, &out.size), out.size, good);
    check_number(mortarpink_log_position(bitmap, &out.number), good);
    check_value(mortarpink_log_bytes(bitmap, out.bytes, 0, &out.size), out.size, 0);
    check_unwritten(mortarpink_log_begin(bitmap), MORTARPINK_HAS_LOG);
}

/* A program writes the log after each call, and is stopped in a batch. It goes on with what it recovers. */
static void test_recover(uint32_t width) {
    mortarpink_bitmap bitmap = MORTARPINK_EMPTY, copy = MORTARPINK_EMPTY;
    struct file file = {0, {0}};
    check_done(mortarpink_new(&bitmap, width));
    check_done(mortarpink_log_begin(&bitmap));
    write_log(&file, &bitmap);
    commit_text(&bitmap, "101", 1);
    write_log(&file, &bitmap);
    commit_text(&bitmap, "1", 2);
    check_done(mortarpink_rewind(&bitmap, 1));
    write_log(&file, &bitmap);
    check_done(mortarpink_begin(&bitmap));
    push_text(&bitmap, "00");

    check_recovered(&copy, width, file.bytes, file.size, file.size);
    check(log_digest(&copy) == log_digest(&bitmap));
    check(has_bits(visible(&copy), "101"));
    check_unwritten(mortarpink_push(&copy, 1), MORTARPINK_NOT_IN_BATCH);
    check_page(mortarpink_commits(&copy, 0, out.numbers, 8, &out.size), (const uint64_t[]){1}, 1);
    commit_text(&copy, "11", 2);
    write_log(&file, &copy);
    check_done(mortarpink_free(&copy));

    check_recovered(&copy, width, file.bytes, file.size, file.size);
    check_page(mortarpink_commits(&copy, 0, out.numbers, 8, &out.size), ((const uint64_t[]){1, 2}), 2);
    check(has_bits(at_commit(&copy, 1), "101"));
    check(has_bits(at_commit(&copy, 2), "10111"));
    check(has_bits(visible(&copy), "10111"));
    check_done(mortarpink_free(&copy));
    check_done(mortarpink_free(&bitmap));
}

/* A log that has grown is ended and begun anew: the file that is written then has only what is kept, and the log goes on in it. */
static void test_shorter_log(uint32_t width) {
    mortarpink_bitmap bitmap = MORTARPINK_EMPTY, copy = MORTARPINK_EMPTY;
    struct file old = {0, {0}}, file = {0, {0}};
    make_logged(&bitmap, width);
    for (uint64_t number = 2; number < 6; number++) {
        commit_text(&bitmap, "1", number);
        write_log(&old, &bitmap);
    }
    check_number(mortarpink_drop_before(&bitmap, 5, &out.number), 4);
    write_log(&old, &bitmap);
    check_done(mortarpink_log_end(&bitmap));
    check_done(mortarpink_log_begin(&bitmap));
    write_log(&file, &bitmap);
    check(file.size < old.size);
    commit_text(&bitmap, "0", 6);
    write_log(&file, &bitmap);

    check_recovered(&copy, width, file.bytes, file.size, file.size);
    check_page(mortarpink_commits(&copy, 0, out.numbers, 8, &out.size), ((const uint64_t[]){5, 6}), 2);
    check(has_bits(at_commit(&copy, 5), "1011111"));
    check(has_bits(visible(&copy), "10111110"));
    check_done(mortarpink_free(&copy));
    check_done(mortarpink_free(&bitmap));
}

/* How many frames of the worked log are whole in its first bytes. */
static size_t whole_frames(size_t len) {
    size_t count = 0;
    while (count < FRAMES && log_places[count + 1] <= len) count++;
    return count;
}

/* Commits a bit after the good bytes, which are in a file, and recovers the file. */
static void check_goes_on(mortarpink_bitmap *bitmap, struct file *file, const char *bits) {
    mortarpink_bitmap copy = MORTARPINK_EMPTY;
    const size_t len = strlen(bits), before = file->size;
    commit_text(bitmap, "1", 9);
    write_log(file, bitmap);
    check(file->size > before);
    check_recovered(&copy, 1, file->bytes, file->size, file->size);
    check(has_bits(at_commit(&copy, 9), len == 0 ? "1" : len == 3 ? "1011" : "101110100111"));
    check_number(mortarpink_latest(&copy, &out.number), 9);
    check_done(mortarpink_free(&copy));
}

/* From each prefix of the worked log the bitmap is that of the last frame that is whole in it. */
static void test_recover_prefixes(void) {
    const uint64_t numbers[] = {1, 5};
    for (size_t len = 0; len <= LOG; len++) {
        const size_t frames = whole_frames(len);
        mortarpink_bitmap bitmap = MORTARPINK_EMPTY;
        struct file file = {log_places[frames], {0}};
        put_hex(file.bytes, log_text);
        if (frames == 0) {
            check_unwritten(mortarpink_recover(&bitmap, 1, file.bytes, len, &out.size), MORTARPINK_CUT_OFF);
            check_unwritten(mortarpink_free(&bitmap), MORTARPINK_EMPTY_HANDLE);
            continue;
        }
        check_recovered(&bitmap, 1, file.bytes, len, file.size);
        check(has_bits(visible(&bitmap), log_bits[frames - 1]));
        check_page(mortarpink_commits(&bitmap, 0, out.numbers, 8, &out.size), numbers, log_commits[frames - 1]);
        check_goes_on(&bitmap, &file, log_bits[frames - 1]);
        check_done(mortarpink_free(&bitmap));
    }
}

/* A history is a log: what was saved is recovered, and goes on. */
static void test_recover_history(void) {
    mortarpink_bitmap bitmap = MORTARPINK_EMPTY;
    struct file file = {HISTORY, {0}};
    put_hex(file.bytes, history_text);
    check_recovered(&bitmap, 1, file.bytes, HISTORY - 1, 92);
    check(has_bits(visible(&bitmap), "1011000001"));
    check_number(mortarpink_latest(&bitmap, &out.number), 2);
    check_done(mortarpink_free(&bitmap));
    check_recovered(&bitmap, 1, file.bytes, HISTORY, HISTORY);
    check(is_worked(&bitmap, 1));
    check_done(mortarpink_rewind(&bitmap, 2));
    write_log(&file, &bitmap);
    check_done(mortarpink_free(&bitmap));
    check_recovered(&bitmap, 1, file.bytes, file.size, file.size);
    check(has_bits(visible(&bitmap), "1011000001"));
    check_done(mortarpink_free(&bitmap));
}

/* Checks that no bitmap is made of a log, and that no output is written but the number of bytes before the damage. */
static void check_damage(const uint8_t *bytes, size_t len, mortarpink_status status, size_t at) {
    mortarpink_bitmap bitmap = MORTARPINK_EMPTY;
    fill_outputs();
    check_status(mortarpink_recover(&bitmap, 1, bytes, len, &out.size), status);
    check_equal(out.size, at);
    memset(&out.size, 0xA5, sizeof out.size);
    check(outputs_are_filled());
    check_unwritten(mortarpink_free(&bitmap), MORTARPINK_EMPTY_HANDLE);
}

/* Each bit of the worked log that is flipped is found, with the place of its frame. */
static void test_damaged_log(void) {
    mortarpink_bitmap bitmap = MORTARPINK_EMPTY;
    uint8_t bytes[LOG];
    for (size_t bit = 0; bit < 8 * LOG; bit++) {
        put_hex(bytes, log_text);
        bytes[bit / 8] ^= (uint8_t)(1 << bit % 8);
        if (bit < 8 * HEADER) {
            check_unwritten(mortarpink_recover(&bitmap, 1, bytes, LOG, &out.size), MORTARPINK_WRONG_HEADER);
        } else {
            check_damage(bytes, LOG, MORTARPINK_DAMAGED, log_places[whole_frames(bit / 8)]);
        }
    }
    check_unwritten(mortarpink_free(&bitmap), MORTARPINK_EMPTY_HANDLE);
}

/* What is after the worked log is torn or damaged. A whole frame that is no base or no entry is not accepted. */
static void test_changed_log(void) {
    mortarpink_bitmap bitmap = MORTARPINK_EMPTY;
    uint8_t bytes[2 * LOG] = {0};
    put_hex(bytes, log_text);
    check_recovered(&bitmap, 1, bytes, sizeof bytes, LOG);
    check(has_bits(visible(&bitmap), "101"));
    check_done(mortarpink_free(&bitmap));
    memset(bytes + LOG, 0xFF, LOG);
    check_recovered(&bitmap, 1, bytes, LOG + 15, LOG);
    check_done(mortarpink_free(&bitmap));
    check_damage(bytes, LOG + 16, MORTARPINK_DAMAGED, LOG);
    for (uint32_t width = 8; width <= 64; width++) {
        const int is_width = width == 8 || width == 32 || width == 64;
        check_unwritten(mortarpink_recover(&bitmap, width, bytes, LOG, &out.size),
                        is_width ? MORTARPINK_WRONG_HEADER : MORTARPINK_NO_SUCH_WIDTH);
    }
    check_unwritten(mortarpink_free(&bitmap), MORTARPINK_EMPTY_HANDLE);
    put_hex(bytes + 90, rewind_at_90);
    check_damage(bytes, LOG, MORTARPINK_NOT_ACCEPTED, 90);
    put_hex(bytes + HEADER, clear_at_32);
    check_damage(bytes, LOG, MORTARPINK_NOT_ACCEPTED, HEADER);
}


/* ---- The ends of the positions ---- */

/* Makes a bitmap of 2^64 - 1 bits, in a batch. Its last seven bits are set, and its other retained bits are not. */
static void make_longest(mortarpink_bitmap *bitmap, uint32_t width) {
    const uint64_t B = 8 * (uint64_t)width;
    const uint8_t zeros[64] = {0};
    check_done(mortarpink_new(bitmap, width));
    check_unwritten(mortarpink_start(bitmap, UINT64_MAX / B + 1), MORTARPINK_PRUNED_CHUNKS_OVERFLOW);
    check_unwritten(mortarpink_start(bitmap, UINT64_MAX), MORTARPINK_PRUNED_CHUNKS_OVERFLOW);
    check(has_bits(visible(bitmap), ""));
    check_done(mortarpink_start(bitmap, UINT64_MAX / B));
    check_number(mortarpink_len(bitmap, &out.number), UINT64_MAX - B + 1);
    check_done(mortarpink_begin(bitmap));
    fill_outputs();
    check_status(mortarpink_push_bytes(bitmap, zeros, width, &out.size), MORTARPINK_TOO_LONG);
    check_equal(out.size, width - 1);
    push_text(bitmap, "1111111");
    check_number(mortarpink_len(bitmap, &out.number), UINT64_MAX);
}

static void test_longest_edits(uint32_t width) {
    const uint8_t zeros[64] = {0};
    mortarpink_bitmap bitmap = MORTARPINK_EMPTY;
    make_longest(&bitmap, width);
    check_unwritten(mortarpink_push(&bitmap, 1), MORTARPINK_TOO_LONG);
    check_unwritten(mortarpink_push_byte(&bitmap, 1), MORTARPINK_TOO_LONG);
    check_unwritten(mortarpink_push_chunk(&bitmap, zeros, width), MORTARPINK_TOO_LONG);
    check_unwritten(mortarpink_push_bits(&bitmap, zeros, 1), MORTARPINK_TOO_LONG);
    check_done(mortarpink_push_bits(&bitmap, zeros, 0));
    check_done(mortarpink_extend_to(&bitmap, UINT64_MAX));
    check_unwritten(mortarpink_truncate(&bitmap, 0), MORTARPINK_PRUNED);
    check_unwritten(mortarpink_set_range(&bitmap, 0, UINT64_MAX, 1), MORTARPINK_PRUNED);
    check_unwritten(mortarpink_set_chunk(&bitmap, SIZE_MAX, zeros, width), MORTARPINK_OUT_OF_BOUNDS);
    check_value(mortarpink_chunk(&bitmap, UINT64_MAX - 1, out.bytes, width), out.bytes[width - 1], 0x7F);
    check_unwritten(mortarpink_chunk(&bitmap, UINT64_MAX, out.bytes, width), MORTARPINK_OUT_OF_BOUNDS);
    check_done(mortarpink_set(&bitmap, UINT64_MAX - 1, 0));
    check_unwritten(mortarpink_set(&bitmap, UINT64_MAX, 0), MORTARPINK_OUT_OF_BOUNDS);
    check_bit(mortarpink_get(&bitmap, UINT64_MAX - 1, &out.bit), 0);
    check_unwritten(mortarpink_get(&bitmap, UINT64_MAX, &out.bit), MORTARPINK_OUT_OF_BOUNDS);
    check_bit(mortarpink_pop(&bitmap, &out.bit), 0);
    check_unwritten(mortarpink_prune(&bitmap, UINT64_MAX), MORTARPINK_OUT_OF_BOUNDS);
    push_text(&bitmap, "1");
    check_done(mortarpink_prune(&bitmap, UINT64_MAX));
    check_number(mortarpink_pruned_chunks(&bitmap, &out.number), UINT64_MAX / (8 * (uint64_t)width));
    check_done(mortarpink_free(&bitmap));
}

static void check_longest(struct view view, uint32_t width) {
    const uint64_t most = UINT64_MAX;
    const uint64_t last[] = {most - 7, most - 6, most - 5, most - 4, most - 3, most - 2, most - 1};
    check_page(read_of(view, ones, 0, most, out.numbers, 8, &out.size), last, 7);
    check_page(read_of(view, ones, most - 1, most, out.numbers, 8, &out.size), last + 6, 1);
    check_page(read_of(view, ones, most, most, out.numbers, 8, &out.size), last, 0);
    check_value(read_of(view, read_bytes, most - 7, most, out.bytes, 1), out.bytes[0], 0x7F);
    check_value(read_of(view, read_bytes, most - 1, most, out.bytes, 1), out.bytes[0], 0x01);
    check_unwritten(read_of(view, read_bytes, most, most, out.bytes, 0), MORTARPINK_DONE);
    check_unwritten(read_of(view, read_bytes, most, most - 1, out.bytes, 0), MORTARPINK_OUT_OF_BOUNDS);
    check_unwritten(read_of(view, read_bytes, 0, 9, out.bytes, 2), MORTARPINK_PRUNED);
    check_number(read_of(view, next_one, 0, &out.number), most - 7);
    check_number(read_of(view, next_one, most - 1, &out.number), most - 1);
    check_none(read_of(view, next_one, most, &out.number));
    check_none(read_of(view, next_zero, most - 7, &out.number));
    check_none(read_of(view, next_zero, most, &out.number));
    check_number(read_of(view, prev_one, most, &out.number), most - 1);
    check_none(read_of(view, prev_one, most - 7, &out.number));
    check_number(read_of(view, count_ones, 0, most, &out.number), 7);
    check_number(read_of(view, select_one, 6, &out.number), most - 1);
    if (width == 1) {
        check_none(read_of(view, prev_zero, most, &out.number));
    } else {
        check_number(read_of(view, prev_zero, most, &out.number), most - 8);
        check_number(read_of(view, next_zero, 0, &out.number), most - 8 * (uint64_t)width + 1);
    }
}

/* The bytes of the longest bitmap are read back, but not with one bit or one chunk more. */
static void test_longest_bytes(mortarpink_bitmap *bitmap, uint32_t width) {
    const size_t size = 16 + (size_t)width;
    mortarpink_bitmap copy = MORTARPINK_EMPTY;
    uint8_t bytes[80] = {0};
    check_value(mortarpink_encode(bitmap, bytes, size, &out.size), out.size, size);
    check_value(mortarpink_read(&copy, width, 0, UINT64_MAX, bytes, size, &out.size, &out.number), out.size, size);
    check_longest(visible(&copy), width);
    check_done(mortarpink_free(&copy));
    bytes[15]++;
    bytes[14] = (uint8_t)(bytes[14] + (bytes[15] == 0));
    check_unwritten(mortarpink_read(&copy, width, 0, UINT64_MAX, bytes, size, &out.size, &out.number),
                    MORTARPINK_INVALID);
    memset(bytes, 0xFF, 8);
    check_unwritten(mortarpink_read(&copy, width, 0, UINT64_MAX, bytes, size, &out.size, &out.number),
                    MORTARPINK_INVALID);
    check_unwritten(mortarpink_free(&copy), MORTARPINK_EMPTY_HANDLE);
}

static void test_longest_reads(uint32_t width) {
    mortarpink_bitmap bitmap = MORTARPINK_EMPTY;
    make_longest(&bitmap, width);
    commit(&bitmap, 1);
    check_longest(visible(&bitmap), width);
    test_longest_bytes(&bitmap, width);
    check_done(mortarpink_begin(&bitmap));
    check_bit(mortarpink_pop(&bitmap, &out.bit), 1);
    commit(&bitmap, 2);
    check_longest(at_commit(&bitmap, 1), width);
    check_page(mortarpink_changed_chunks(&bitmap, 1, 2, UINT64_MAX / (8 * (uint64_t)width), out.numbers, 8, &out.size),
               (const uint64_t[]){UINT64_MAX / (8 * (uint64_t)width)}, 1);
    check_done(mortarpink_free(&bitmap));
}


/* ---- Proofs, of the worked root in docs/FORMATS.md: 20 bits in the chunks 01, 80 and 0f, the first of which is pruned ---- */

static const char worked_root[] = "e30df6a24c0a4623dca2543e7d1ae2fd927984e85be2b6771a037ed9ec585591";

static const char proof_of_chunk_2[] =
    "0000000000000001" "0000000000000014" "0000000000000001" "0000000000000002" "0000000000000001" "0f"
    "e5b8ce24c2528ae6278fb86b3801653d16e79c75eed7795c3f8846edb783f926";

static const char proof_of_chunks_1_and_2[] =
    "0000000000000001" "0000000000000014" "0000000000000001" "0000000000000001" "0000000000000002" "0000000000000001"
    "80" "0f" "b413f47d13ee2fe6c845b2ee141af81de858df4ec549a58b7970bb96645bc8d2";

enum { PROOF = 40 + 1 + 32, RANGE = 48 + 2 + 32 };

/* Checks a proof of a chunk, into a buffer of a size. */
static mortarpink_status chunk_by(uint32_t width, const uint8_t *root, const uint8_t *proof, size_t len, size_t size) {
    return mortarpink_verify_chunk(width, root, proof, len, out.bytes, size, &out.numbers[0], &out.numbers[1], &out.numbers[2]);
}

/* Checks a proof of a range, into a buffer of a size. */
static mortarpink_status range_by(uint32_t width, const uint8_t *root, const uint8_t *proof, size_t len, size_t size) {
    return mortarpink_verify_range(width, root, proof, len, out.bytes, size, &out.size, &out.numbers[0], &out.numbers[1],
                                   &out.numbers[2]);
}

static void test_verify_chunk(void) {
    uint8_t root[32], proof[PROOF + 1] = {0};
    put_hex(root, worked_root);
    put_hex(proof, proof_of_chunk_2);
    check_value(chunk_by(1, root, proof, PROOF, 1), out.bytes[0], 0x0F);
    check(out.numbers[0] == 20 && out.numbers[1] == 1 && out.numbers[2] == 2);
    check(out.bytes[1] == 0xA5);
    check_unwritten(chunk_by(3, root, proof, PROOF, 1), MORTARPINK_NO_SUCH_WIDTH);
    check_unwritten(chunk_by(8, root, proof, PROOF, 8), MORTARPINK_INVALID);
    check_unwritten(chunk_by(1, root, proof, PROOF, 0), MORTARPINK_WRONG_SIZE);
    check_unwritten(chunk_by(1, root, proof, PROOF, 2), MORTARPINK_WRONG_SIZE);
    check_unwritten(chunk_by(1, root, proof, PROOF + 1, 1), MORTARPINK_INVALID);
    for (size_t len = 0; len < PROOF; len++) check_unwritten(chunk_by(1, root, proof, len, 1), MORTARPINK_INVALID);
    root[31] ^= 1;
    check_unwritten(chunk_by(1, root, proof, PROOF, 1), MORTARPINK_NOT_VERIFIED);
}

static void test_verify_bit(void) {
    uint8_t root[32], proof[PROOF];
    put_hex(root, worked_root);
    put_hex(proof, proof_of_chunk_2);
    for (uint64_t position = 16; position < 20; position++) {
        check_bit(mortarpink_verify_bit(1, root, proof, PROOF, position, &out.bit), 1);
    }
    check_unwritten(mortarpink_verify_bit(1, root, proof, PROOF, 20, &out.bit), MORTARPINK_OUT_OF_BOUNDS);
    check_unwritten(mortarpink_verify_bit(1, root, proof, PROOF, UINT64_MAX, &out.bit), MORTARPINK_OUT_OF_BOUNDS);
    check_unwritten(mortarpink_verify_bit(1, root, proof, PROOF, 7, &out.bit), MORTARPINK_PRUNED);
    check_unwritten(mortarpink_verify_bit(1, root, proof, PROOF, 8, &out.bit), MORTARPINK_NOT_VERIFIED);
    check_unwritten(mortarpink_verify_bit(1, root, proof, PROOF, 15, &out.bit), MORTARPINK_NOT_VERIFIED);
    check_unwritten(mortarpink_verify_bit(3, root, proof, PROOF, 16, &out.bit), MORTARPINK_NO_SUCH_WIDTH);
    check_unwritten(mortarpink_verify_bit(8, root, proof, PROOF, 16, &out.bit), MORTARPINK_INVALID);
    check_unwritten(mortarpink_verify_bit(1, root, proof, PROOF - 1, 16, &out.bit), MORTARPINK_INVALID);
    /* What a proof says of its length and of what is pruned counts only if it verifies. */
    root[0] ^= 1;
    check_unwritten(mortarpink_verify_bit(1, root, proof, PROOF, 16, &out.bit), MORTARPINK_NOT_VERIFIED);
    check_unwritten(mortarpink_verify_bit(1, root, proof, PROOF, 20, &out.bit), MORTARPINK_NOT_VERIFIED);
    check_unwritten(mortarpink_verify_bit(1, root, proof, PROOF, 7, &out.bit), MORTARPINK_NOT_VERIFIED);
}

static void test_verify_range(void) {
    uint8_t root[32], proof[RANGE + 1] = {0}, none[48] = {0};
    put_hex(root, worked_root);
    put_hex(proof, proof_of_chunks_1_and_2);
    put_hex(none, "00000000000000010000000000000014000000000000000100000000000000010000000000000000");
    check_value(range_by(1, root, proof, RANGE, 2), out.size, 2);
    check(out.bytes[0] == 0x80 && out.bytes[1] == 0x0F && out.bytes[2] == 0xA5);
    check(out.numbers[0] == 20 && out.numbers[1] == 1 && out.numbers[2] == 1);
    check_unwritten(range_by(16, root, proof, RANGE, 2), MORTARPINK_NO_SUCH_WIDTH);
    check_unwritten(range_by(64, root, proof, RANGE, 2), MORTARPINK_INVALID);
    check_unwritten(range_by(1, root, proof, RANGE + 1, 2), MORTARPINK_INVALID);
    for (size_t len = 0; len < RANGE; len++) check_unwritten(range_by(1, root, proof, len, 2), MORTARPINK_INVALID);
    for (size_t size = 0; size < 5; size += size == 1 ? 2 : 1) {
        fill_outputs();
        check_status(range_by(1, root, proof, RANGE, size), MORTARPINK_WRONG_SIZE);
        check_equal(out.size, 2);
        memset(&out.size, 0xA5, sizeof out.size);
        check(outputs_are_filled());
    }
    check_unwritten(range_by(1, root, none, sizeof none, 0), MORTARPINK_NOT_VERIFIED);
    root[31] ^= 1;
    check_unwritten(range_by(1, root, proof, RANGE, 2), MORTARPINK_NOT_VERIFIED);
}

/* Checks that no bit of a proof can be another one. The width is in the first eight bytes, and the counts are those from `count` up to
 * `end`. */
static void check_each_byte(const uint8_t *root, uint8_t *proof, size_t len, size_t count, size_t end, int is_range) {
    for (size_t at = 0; at < len; at++) {
        for (int bit = 0; bit < 8; bit++) {
            const int is_head = at < 8 || (count <= at && at < end);
            proof[at] = (uint8_t)(proof[at] ^ 1 << bit);
            check_unwritten(is_range ? range_by(1, root, proof, len, 2) : chunk_by(1, root, proof, len, 1),
                            is_head ? MORTARPINK_INVALID : MORTARPINK_NOT_VERIFIED);
            proof[at] = (uint8_t)(proof[at] ^ 1 << bit);
        }
    }
}

static void test_changed_proofs(void) {
    uint8_t root[32], proof[PROOF], range[RANGE];
    put_hex(root, worked_root);
    put_hex(proof, proof_of_chunk_2);
    put_hex(range, proof_of_chunks_1_and_2);
    check_each_byte(root, proof, PROOF, 32, 40, 0);
    check_each_byte(root, range, RANGE, 32, 48, 1);
    for (size_t bit = 0; bit < 256; bit++) {
        root[bit / 8] = (uint8_t)(root[bit / 8] ^ 1 << bit % 8);
        check_unwritten(chunk_by(1, root, proof, PROOF, 1), MORTARPINK_NOT_VERIFIED);
        check_unwritten(range_by(1, root, range, RANGE, 2), MORTARPINK_NOT_VERIFIED);
        root[bit / 8] = (uint8_t)(root[bit / 8] ^ 1 << bit % 8);
    }
    check_done(chunk_by(1, root, proof, PROOF, 1));
    check_done(range_by(1, root, range, RANGE, 2));
}

/* The root of two chunks at each width, and the digest of the first one. Of it the lowest bit is set, and of the second one each bit. */
static const struct { uint32_t width; const char *root, *first; } two_chunks[] = {
    {1, "42d6deae1fb52fc3a6db965ae8002852b068bd61cfc46bff7d638b6c2164fe71",
     "b413f47d13ee2fe6c845b2ee141af81de858df4ec549a58b7970bb96645bc8d2"},
    {8, "a283bbdfb63c21d889520a406ed225df7d7f43f7d9d66d6ee1fde362cad7798e",
     "51b09ceccfbec44595dd4241e6e2a693d279b72c899c8f60ec63524fe58b1d4f"},
    {32, "5cf9f8641f04c6337b9416d31829240f6dce0d16b64dc110880475d32827679b",
     "1b7c643b049c11a4fb6b65822e4a5e2a3da54223366c5f453cf376536f9bf42a"},
    {64, "b0c50ce1c14799545aa41dc064f4e33d2ed04f8577c32a8fd4f57704664d2c54",
     "ec817ca76a98978fd35c8a49070d06a35c30fe54b17747cef9a8ebdc3210a820"},
};

static void test_proofs_of_each_width(void) {
    for (size_t k = 0; k < sizeof two_chunks / sizeof *two_chunks; k++) {
        const uint32_t width = two_chunks[k].width;
        uint8_t root[32], proof[40 + 64 + 32] = {0}, all[64];
        memset(all, 0xFF, sizeof all);
        put_hex(root, two_chunks[k].root);
        proof[7] = (uint8_t)width;
        proof[14] = (uint8_t)(16 * width >> 8);
        proof[15] = (uint8_t)(16 * width & 0xFF);
        proof[31] = proof[39] = 1;
        memset(proof + 40, 0xFF, width);
        put_hex(proof + 40 + width, two_chunks[k].first);
        check_value(chunk_by(width, root, proof, 72 + width, width), out.numbers[0], 16 * width);
        check(memcmp(out.bytes, all, width) == 0 && out.numbers[1] == 0 && out.numbers[2] == 1);
        check_bit(mortarpink_verify_bit(width, root, proof, 72 + width, 16 * width - 1, &out.bit), 1);
        check_unwritten(mortarpink_verify_bit(width, root, proof, 72 + width, 8 * width - 1, &out.bit), MORTARPINK_NOT_VERIFIED);
        proof[40] = 0xFE;
        check_unwritten(mortarpink_verify_bit(width, root, proof, 72 + width, 16 * width - 1, &out.bit), MORTARPINK_NOT_VERIFIED);
    }
}


static void test_width(uint32_t width) {
    test_modes(width);
    test_pending_searches(width);
    test_unknown_commits(width);
    test_full_handle(width);
    test_free(width);
    test_empty_values(width);
    test_clone(width);
    test_checkout(width);
    test_start(width);
    test_pushes(width);
    test_chunks(width);
    test_push_bits(width);
    test_lengths(width);
    test_set_range(width);
    test_set_chunk(width);
    test_set_many(width);
    test_reads(width);
    test_save_without_commits(width);
    test_replica(width);
    test_log_entries(width);
    test_log_digest(width);
    test_recover(width);
    test_shorter_log(width);
    test_longest_edits(width);
    test_longest_reads(width);
}

int main(void) {
    test_texts();
    test_empty_handle();
    test_widths();
    test_width(1);
    test_width(8);
    test_width(32);
    test_width(64);
    test_prune();
    test_read();
    test_read_errors();
    test_commit_lists();
    test_changed_chunks();
    test_commit_numbers();
    test_rewind();
    test_index();
    test_dropping();
    test_save();
    test_load();
    test_load_ranges();
    test_damaged_history();
    test_delta();
    test_apply_delta();
    test_delta_errors();
    test_delta_not_accepted();
    test_log();
    test_recover_prefixes();
    test_recover_history();
    test_damaged_log();
    test_changed_log();
    test_verify_chunk();
    test_verify_bit();
    test_verify_range();
    test_changed_proofs();
    test_proofs_of_each_width();
    return finish("checks", checks, failures);
}
