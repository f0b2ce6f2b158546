/* Tests of calls whose allocations fail.
 *
 * A scenario is a list of calls. A run makes one of them after those before it, with one of its allocations failing, or
 * with all from that one on failing. It expects MORTARPINK_NO_MEMORY and the same state and output as before, and that
 * the same call then succeeds. In the last run of a call no allocation fails. At the end of a run every block is freed.
 *
 * The malloc of this program takes effect under valgrind with --soname-synonyms=somalloc=nouserintercepts. */
#include "../../../tools/fail_allocations.c"

#include "check.h"

#include <string.h>

enum { NUMBERS = 4, BYTES = 512 };

/* A scenario's bitmaps, and where its calls write. */
struct subject {
    mortarpink_bitmap bitmap, copy;
    uint64_t number;
    size_t size;
    uint8_t bytes[BYTES];
};

/* What calls report of a bitmap, in a row. */
struct description {
    size_t size;
    uint8_t bytes[8 * BYTES];
};

static uint32_t width;
static unsigned long runs, failed_runs;
static uint8_t sample[100];


/* ---- Letting allocations fail ---- */

static char fail_at[40] = "FAIL_AT=0", fail_from[40] = "FAIL_FROM=0";

/* Counts allocations from 1 again, and lets this one fail, or all from this one on. 0 means none. */
static void set_failures(unsigned long at, unsigned long from) {
    snprintf(fail_at, sizeof fail_at, "FAIL_AT=%lu", at);
    snprintf(fail_from, sizeof fail_from, "FAIL_FROM=%lu", from);
    allocations = 0;
}


/* ---- Describing a bitmap ---- */

static void add(struct description *description, const void *bytes, size_t size) {
    const int fits = size <= sizeof description->bytes - description->size;
    check(fits);
    if (!fits) return;
    memcpy(description->bytes + description->size, bytes, size);
    description->size += size;
}

/* Adds the length, the number of pruned chunks and the retained bits of the visible bitmap. */
static void add_visible(struct description *description, mortarpink_bitmap *bitmap) {
    uint64_t len = 0, pruned = 0;
    check_done(mortarpink_len(bitmap, &len));
    check_done(mortarpink_pruned_chunks(bitmap, &pruned));
    add(description, &len, sizeof len);
    add(description, &pruned, sizeof pruned);
    for (uint64_t position = 8 * width * pruned; position < len; position += 8 * width) {
        uint8_t chunk[64] = {0};
        check_done(mortarpink_chunk(bitmap, position, chunk, width));
        add(description, chunk, width);
    }
}

static void add_encodings(struct description *description, mortarpink_bitmap *bitmap) {
    uint64_t numbers[NUMBERS] = {0};
    uint8_t bytes[BYTES] = {0};
    size_t size = 0, count = 0;
    check_status(mortarpink_encode(bitmap, bytes, 0, &size), MORTARPINK_WRONG_SIZE);
    check_done(mortarpink_encode(bitmap, bytes, size, &size));
    add(description, bytes, size);
    check_done(mortarpink_commits(bitmap, 0, numbers, NUMBERS, &count));
    add(description, numbers, count * sizeof *numbers);
    for (size_t k = 0; k < count; k++) {
        check_status(mortarpink_encode_at(bitmap, numbers[k], bytes, 0, &size), MORTARPINK_WRONG_SIZE);
        check_done(mortarpink_encode_at(bitmap, numbers[k], bytes, size, &size));
        add(description, bytes, size);
    }
}

/* Adds the number of entries, and the last number or that there is none. */
static void add_numbers(struct description *description, mortarpink_bitmap *bitmap) {
    uint64_t entries = 0, last = 0;
    mortarpink_status status;
    check_done(mortarpink_entries(bitmap, &entries));
    check_done(mortarpink_begin(bitmap));
    status = mortarpink_commit(bitmap, 0, &last);
    add(description, &entries, sizeof entries);
    add(description, &status, sizeof status);
    add(description, &last, sizeof last);
}

/* Adds the visible bitmap, and what is read outside a batch of a copy. An empty handle adds nothing. */
static void add_bitmap(struct description *description, mortarpink_bitmap *bitmap) {
    mortarpink_bitmap copy = MORTARPINK_EMPTY;
    mortarpink_status batch;
    if (mortarpink_clone(bitmap, &copy) == MORTARPINK_EMPTY_HANDLE) return;
    add_visible(description, bitmap);
    batch = mortarpink_begin(&copy);
    add(description, &batch, sizeof batch);
    check_done(mortarpink_abort(&copy));
    add_encodings(description, &copy);
    add_numbers(description, &copy);
    check_done(mortarpink_free(&copy));
}

/* Adds the position and the digest of the log, or that there is none. */
static void add_log(struct description *description, const mortarpink_bitmap *bitmap) {
    uint64_t position = 0, digest = 0;
    mortarpink_status status = mortarpink_log_position(bitmap, &position);
    check_status(mortarpink_log_digest(bitmap, &digest), status);
    add(description, &status, sizeof status);
    add(description, &position, sizeof position);
    add(description, &digest, sizeof digest);
}

static struct description description_of(struct subject *subject) {
    struct description description = {0, {0}};
    add_bitmap(&description, &subject->bitmap);
    add_bitmap(&description, &subject->copy);
    add_log(&description, &subject->bitmap);
    add_log(&description, &subject->copy);
    add(&description, &subject->number, sizeof subject->number);
    add(&description, &subject->size, sizeof subject->size);
    add(&description, subject->bytes, sizeof subject->bytes);
    return description;
}

static int are_equal(const struct description *one, const struct description *other) {
    return one->size == other->size && memcmp(one->bytes, other->bytes, one->size) == 0;
}


/* ---- The scenario ---- */

static mortarpink_status make(struct subject *subject) {
    return mortarpink_new(&subject->bitmap, width);
}

static mortarpink_status begin(struct subject *subject) {
    return mortarpink_begin(&subject->bitmap);
}

static mortarpink_status push(struct subject *subject) {
    return mortarpink_push(&subject->bitmap, 1);
}

static mortarpink_status push_byte(struct subject *subject) {
    return mortarpink_push_byte(&subject->bitmap, 0x5A);
}

static mortarpink_status push_chunk(struct subject *subject) {
    return mortarpink_push_chunk(&subject->bitmap, sample, width);
}

static mortarpink_status set_first(struct subject *subject) {
    return mortarpink_set(&subject->bitmap, 0, 0);
}

static mortarpink_status set_second(struct subject *subject) {
    return mortarpink_set(&subject->bitmap, 8 * width + 1, 1);
}

static mortarpink_status set_third(struct subject *subject) {
    return mortarpink_set(&subject->bitmap, 16 * width + 1, 1);
}

static mortarpink_status prune(struct subject *subject) {
    return mortarpink_prune(&subject->bitmap, 16 * width);
}

static mortarpink_status commit_1(struct subject *subject) {
    return mortarpink_commit(&subject->bitmap, 1, &subject->number);
}

static mortarpink_status commit_2(struct subject *subject) {
    return mortarpink_commit(&subject->bitmap, 2, &subject->number);
}

static mortarpink_status commit_3(struct subject *subject) {
    return mortarpink_commit(&subject->bitmap, 3, &subject->number);
}

static mortarpink_status commit_4(struct subject *subject) {
    return mortarpink_commit(&subject->bitmap, 4, &subject->number);
}

static mortarpink_status rewind_to_1(struct subject *subject) {
    return mortarpink_rewind(&subject->bitmap, 1);
}

static mortarpink_status drop_1(struct subject *subject) {
    return mortarpink_drop_before(&subject->bitmap, 2, &subject->number);
}

static mortarpink_status clear(struct subject *subject) {
    return mortarpink_clear(&subject->bitmap);
}

static mortarpink_status log_begin(struct subject *subject) {
    return mortarpink_log_begin(&subject->bitmap);
}

static mortarpink_status log_begin_of_copy(struct subject *subject) {
    return mortarpink_log_begin(&subject->copy);
}

static mortarpink_status log_end(struct subject *subject) {
    return mortarpink_log_end(&subject->bitmap);
}

/* Writes the bytes of the log: a first call finds their number. */
static mortarpink_status log_bytes(struct subject *subject) {
    size_t size = 0;
    mortarpink_status status = mortarpink_log_bytes(&subject->bitmap, subject->bytes, 0, &size);
    if (status != MORTARPINK_WRONG_SIZE) return status;
    return mortarpink_log_bytes(&subject->bitmap, subject->bytes, size, &subject->size);
}

/* Recovers the log that was written. */
static mortarpink_status recover_copy(struct subject *subject) {
    size_t good = (size_t)subject->number;
    mortarpink_status status = mortarpink_recover(&subject->copy, width, subject->bytes, subject->size, &good);
    subject->number = good;
    return status;
}

static mortarpink_status clone(struct subject *subject) {
    return mortarpink_clone(&subject->bitmap, &subject->copy);
}

static mortarpink_status checkout_1(struct subject *subject) {
    return mortarpink_checkout(&subject->bitmap, 1, &subject->copy);
}

static mortarpink_status add_index(struct subject *subject) {
    return mortarpink_index(&subject->bitmap, 1);
}

static mortarpink_status free_copy(struct subject *subject) {
    return mortarpink_free(&subject->copy);
}

/* Encodes the bitmap at commit 1: a first call finds the size. */
static mortarpink_status encode_1(struct subject *subject) {
    size_t size = 0;
    mortarpink_status status = mortarpink_encode_at(&subject->bitmap, 1, subject->bytes, 0, &size);
    if (status != MORTARPINK_WRONG_SIZE) return status;
    return mortarpink_encode_at(&subject->bitmap, 1, subject->bytes, size, &subject->size);
}

static mortarpink_status encode(struct subject *subject) {
    size_t size = 0;
    mortarpink_status status = mortarpink_encode(&subject->bitmap, subject->bytes, 0, &size);
    if (status != MORTARPINK_WRONG_SIZE) return status;
    return mortarpink_encode(&subject->bitmap, subject->bytes, size, &subject->size);
}

/* Reads the bytes that were encoded. */
static mortarpink_status read_copy(struct subject *subject) {
    return mortarpink_read(&subject->copy, width, 0, UINT64_MAX, subject->bytes, BYTES, &subject->size,
                           &subject->number);
}

/* Saves the bitmap with its commits: a first call finds the size. */
static mortarpink_status save(struct subject *subject) {
    size_t size = 0;
    mortarpink_status status = mortarpink_save(&subject->bitmap, subject->bytes, 0, &size);
    if (status != MORTARPINK_WRONG_SIZE) return status;
    return mortarpink_save(&subject->bitmap, subject->bytes, size, &subject->size);
}

/* Loads the bytes that were saved. */
static mortarpink_status load_copy(struct subject *subject) {
    return mortarpink_load(&subject->copy, width, 0, UINT64_MAX, 0, UINT64_MAX, subject->bytes, BYTES, &subject->size);
}

/* Writes the delta from commit 1 to 2. */
static mortarpink_status delta(struct subject *subject) {
    size_t size = 0;
    mortarpink_status status = mortarpink_delta(&subject->bitmap, 1, 2, subject->bytes, 0, &size);
    if (status != MORTARPINK_WRONG_SIZE) return status;
    return mortarpink_delta(&subject->bitmap, 1, 2, subject->bytes, size, &subject->size);
}

static mortarpink_status rewind_copy_to_1(struct subject *subject) {
    return mortarpink_rewind(&subject->copy, 1);
}

static mortarpink_status apply_delta(struct subject *subject) {
    return mortarpink_apply_delta(&subject->copy, subject->bytes, subject->size);
}

static mortarpink_status push_bits(struct subject *subject) {
    return mortarpink_push_bits(&subject->bitmap, sample, sizeof sample);
}

static mortarpink_status extend(struct subject *subject) {
    return mortarpink_extend_to(&subject->bitmap, 40 * width);
}

static mortarpink_status set_chunk(struct subject *subject) {
    return mortarpink_set_chunk(&subject->bitmap, 1, sample, width);
}

static mortarpink_status set_range(struct subject *subject) {
    return mortarpink_set_range(&subject->bitmap, 3, 17 * width, 0);
}

static mortarpink_status truncate_to_first(struct subject *subject) {
    return mortarpink_truncate(&subject->bitmap, 9 * width);
}

typedef mortarpink_status step(struct subject *subject);

static step *const steps[] = {
    make,      begin,      push,     push_byte, push_chunk, push_chunk, push_chunk, commit_1,
    begin,     set_first,  push,     clone,     set_second, prune,      push_byte,  commit_2,
    free_copy, clone,      encode,   begin,     set_third,  commit_3,   encode_1,   free_copy,
    read_copy, rewind_to_1, free_copy, clone,     free_copy,  checkout_1, add_index,  begin,
    set_first, commit_2,   free_copy, clone,     save,       free_copy,  load_copy, rewind_copy_to_1,
    delta,     apply_delta, free_copy, save,    load_copy,  rewind_copy_to_1, delta,  log_begin_of_copy,
    apply_delta, begin,    set_chunk, set_range, push_bits, extend,     truncate_to_first, commit_3,
    log_begin, begin,      push,     commit_4,  rewind_to_1, drop_1,    clear,      free_copy,
    log_end,   log_begin,  begin,    push,      commit_4,   log_bytes,  recover_copy,
};

enum { STEPS = sizeof steps / sizeof *steps, STEPS_TO_BATCH = 9, STEPS_TO_COMMIT_3 = 22, POSITIONS = 6 };

/* Makes a subject, and runs the first steps of the scenario with it. */
static void prepare(struct subject *subject, size_t count) {
    memset(subject, 0, sizeof *subject);
    memset(subject->bytes, 0xA5, sizeof subject->bytes);
    for (size_t k = 0; k < count; k++) check_done(steps[k](subject));
}

static void release(struct subject *subject) {
    mortarpink_free(&subject->bitmap);
    mortarpink_free(&subject->copy);
}

/* The description after the first steps of the scenario. */
static struct description after_steps(size_t count) {
    struct subject subject;
    struct description description;
    prepare(&subject, count);
    description = description_of(&subject);
    release(&subject);
    return description;
}

/* Counts a run, which has failed if a check since then has, or if a block is not freed. */
static void count_run(unsigned long failures_before) {
    check_equal(blocks_left(), 0);
    runs++;
    if (failures != failures_before) failed_runs++;
}

/* Runs a step with these failures, after those before it. Returns whether an allocation failed. */
static int run_step(size_t index, unsigned long at, unsigned long from) {
    const unsigned long least = at != 0 ? at : from, failures_before = failures;
    const struct description before = after_steps(index), after = after_steps(index + 1);
    struct subject subject;
    struct description now;
    mortarpink_status status;
    int has_failed;
    prepare(&subject, index);
    set_failures(at, from);
    status = steps[index](&subject);
    has_failed = allocations >= least;
    set_failures(0, 0);
    if (has_failed) {
        check_status(status, MORTARPINK_NO_MEMORY);
        now = description_of(&subject);
        check(are_equal(&now, &before));
        status = steps[index](&subject);
    }
    check_done(status);
    now = description_of(&subject);
    check(are_equal(&now, &after));
    release(&subject);
    count_run(failures_before);
    return has_failed;
}

static void run_scenario(void) {
    for (size_t index = 0; index < STEPS; index++) {
        unsigned long k = 0;
        while (run_step(index, k + 1, 0)) k++;
        while (k > 0 && run_step(index, 0, k)) k--;
    }
}


/* ---- Many bytes ---- */

/* Pushes all bytes with these failures, and then those that were not pushed. Returns whether an allocation failed. */
static int run_push_bytes(unsigned long at, unsigned long from) {
    const unsigned long least = at != 0 ? at : from, failures_before = failures;
    struct subject subject, control;
    struct description now, wanted;
    mortarpink_status status;
    size_t count = 0, rest = 0;
    int has_failed;
    prepare(&subject, 3);
    prepare(&control, 3);
    set_failures(at, from);
    status = mortarpink_push_bytes(&subject.bitmap, sample, sizeof sample, &count);
    has_failed = allocations >= least;
    set_failures(0, 0);
    check_status(status, has_failed ? MORTARPINK_NO_MEMORY : MORTARPINK_DONE);
    check((count == sizeof sample) == (status == MORTARPINK_DONE));
    for (size_t k = 0; k < count; k++) check_done(mortarpink_push_byte(&control.bitmap, sample[k]));
    now = description_of(&subject);
    wanted = description_of(&control);
    check(are_equal(&now, &wanted));
    check_done(mortarpink_push_bytes(&subject.bitmap, sample + count, sizeof sample - count, &rest));
    check_equal(rest, sizeof sample - count);
    release(&subject);
    release(&control);
    count_run(failures_before);
    return has_failed;
}

static void run_bytes(void) {
    unsigned long k = 0;
    while (run_push_bytes(k + 1, 0)) k++;
    while (k > 0 && run_push_bytes(0, k)) k--;
}


/* ---- Many positions ---- */

/* The positions of a bit in each of the first three chunks, and again. */
static void put_positions(uint64_t *positions) {
    for (uint64_t k = 0; k < POSITIONS; k++) positions[k] = 8 * width * (k % 3) + k;
}

/* Sets the bits at all positions with these failures, and then those that were not set. Returns whether an allocation
 * failed. */
static int run_set_many(unsigned long at, unsigned long from) {
    const unsigned long least = at != 0 ? at : from, failures_before = failures;
    uint64_t positions[POSITIONS];
    struct subject subject, control;
    struct description now, wanted;
    mortarpink_status status;
    size_t count = 0, rest = 0;
    int has_failed;
    put_positions(positions);
    prepare(&subject, STEPS_TO_BATCH);
    prepare(&control, STEPS_TO_BATCH);
    set_failures(at, from);
    status = mortarpink_set_many(&subject.bitmap, positions, POSITIONS, 1, &count);
    has_failed = allocations >= least;
    set_failures(0, 0);
    check_status(status, has_failed ? MORTARPINK_NO_MEMORY : MORTARPINK_DONE);
    check((count == POSITIONS) == (status == MORTARPINK_DONE));
    for (size_t k = 0; k < count; k++) check_done(mortarpink_set(&control.bitmap, positions[k], 1));
    now = description_of(&subject);
    wanted = description_of(&control);
    check(are_equal(&now, &wanted));
    check_done(mortarpink_set_many(&subject.bitmap, positions + count, POSITIONS - count, 1, &rest));
    check_equal(rest, POSITIONS - count);
    release(&subject);
    release(&control);
    count_run(failures_before);
    return has_failed;
}

static void run_positions(void) {
    unsigned long k = 0;
    while (run_set_many(k + 1, 0)) k++;
    while (k > 0 && run_set_many(0, k)) k--;
}


/* ---- Reads of a version that gather its chunks ---- */

enum { PAST_CHUNKS = 16, PAST_BITS = 8 * PAST_CHUNKS * 64 };

static uint64_t past_numbers[PAST_BITS];
static uint8_t past_bytes[PAST_BITS / 8];

/* Makes a bitmap of 16 chunks in which all bits are 1, and a second commit that clears the first bit. */
static void make_two_versions(mortarpink_bitmap *bitmap) {
    uint64_t attempted = 0;
    check_done(mortarpink_new(bitmap, width));
    check_done(mortarpink_begin(bitmap));
    check_done(mortarpink_extend_to(bitmap, 8 * PAST_CHUNKS * width));
    check_done(mortarpink_set_range(bitmap, 0, 8 * PAST_CHUNKS * width, 1));
    check_done(mortarpink_commit(bitmap, 1, &attempted));
    check_done(mortarpink_begin(bitmap));
    check_done(mortarpink_set(bitmap, 0, 0));
    check_done(mortarpink_commit(bitmap, 2, &attempted));
}

static void count_past_ones(const mortarpink_bitmap *bitmap) {
    uint64_t count = 0;
    check_done(mortarpink_count_ones_at(bitmap, 1, 0, UINT64_MAX, &count));
    check_equal(count, 8 * PAST_CHUNKS * width);
}

static void select_last_past_one(const mortarpink_bitmap *bitmap) {
    uint64_t position = 0;
    check_done(mortarpink_select_one_at(bitmap, 1, 8 * PAST_CHUNKS * width - 1, &position));
    check_equal(position, 8 * PAST_CHUNKS * width - 1);
}

static void list_past_ones(const mortarpink_bitmap *bitmap) {
    size_t count = 0;
    check_done(mortarpink_ones_at(bitmap, 1, 0, UINT64_MAX, past_numbers, PAST_BITS, &count));
    check_equal(count, 8 * PAST_CHUNKS * width);
    for (size_t k = 0; k < count; k++) check_equal(past_numbers[k], k);
}

static void copy_past_bytes(const mortarpink_bitmap *bitmap) {
    memset(past_bytes, 0, sizeof past_bytes);
    check_done(mortarpink_read_bytes_at(bitmap, 1, 0, 8 * PAST_CHUNKS * width, past_bytes, PAST_CHUNKS * width));
    for (size_t k = 0; k < PAST_CHUNKS * width; k++) check_equal(past_bytes[k], 0xFF);
}

typedef void past_read(const mortarpink_bitmap *bitmap);

static past_read *const past_reads[] = {count_past_ones, select_last_past_one, list_past_ones, copy_past_bytes};

/* Makes a read with these failures, which change nothing that it reads. Returns how many allocations it tried. */
static unsigned long run_past_read(past_read *read, unsigned long at, unsigned long from) {
    const unsigned long failures_before = failures;
    mortarpink_bitmap bitmap = MORTARPINK_EMPTY;
    unsigned long tried;
    make_two_versions(&bitmap);
    set_failures(at, from);
    read(&bitmap);
    tried = allocations;
    set_failures(0, 0);
    check_done(mortarpink_free(&bitmap));
    count_run(failures_before);
    return tried;
}

static void run_past_reads(void) {
    for (size_t index = 0; index < sizeof past_reads / sizeof *past_reads; index++) {
        unsigned long k = run_past_read(past_reads[index], 0, 0);
        check(k > 0);
        for (; k > 0; k--) {
            run_past_read(past_reads[index], k, 0);
            run_past_read(past_reads[index], 0, k);
        }
    }
}


/* ---- Calls that do not allocate ---- */

static void read_in_place(mortarpink_bitmap *bitmap) {
    uint64_t number = 0, numbers[NUMBERS] = {0};
    uint8_t bit = 0, chunk[64] = {0};
    size_t count = 0;
    check_done(mortarpink_get_at(bitmap, 1, 1, &bit));
    check_done(mortarpink_chunk_at(bitmap, 1, 1, chunk, width));
    check_done(mortarpink_read_bytes_at(bitmap, 1, 1, 2, chunk, 1));
    check_done(mortarpink_ones_at(bitmap, 1, 0, UINT64_MAX, numbers, NUMBERS, &count));
    check_done(mortarpink_next_zero_at(bitmap, 1, 0, &number));
    check_done(mortarpink_count_ones_at(bitmap, 1, 0, UINT64_MAX, &number));
    check_done(mortarpink_select_one_at(bitmap, 1, 1, &number));
    check_done(mortarpink_chunk(bitmap, 16 * width, chunk, width));
    check_done(mortarpink_read_bytes(bitmap, 16 * width, 16 * width + 1, chunk, 1));
    check_done(mortarpink_ones(bitmap, 0, UINT64_MAX, numbers, NUMBERS, &count));
    check_done(mortarpink_prev_one(bitmap, UINT64_MAX, &number));
    check_done(mortarpink_count_ones(bitmap, 0, UINT64_MAX, &number));
    check_done(mortarpink_commits(bitmap, 0, numbers, NUMBERS, &count));
    check_done(mortarpink_changed_chunks(bitmap, 1, 3, 0, numbers, NUMBERS, &count));
    check_done(mortarpink_entries(bitmap, &number));
    check_done(mortarpink_index(bitmap, 0));
    check_done(mortarpink_drop_before(bitmap, 2, &number));
    check_done(mortarpink_begin(bitmap));
    check_done(mortarpink_pop(bitmap, &bit));
    check_done(mortarpink_push_bits(bitmap, chunk, 0));
    check_done(mortarpink_set_many(bitmap, numbers, 0, 1, &count));
    check_done(mortarpink_set_range(bitmap, 1, 1, 1));
    check_done(mortarpink_extend_to(bitmap, 16 * width));
    check_done(mortarpink_truncate(bitmap, 16 * width));
    check_done(mortarpink_abort(bitmap));
    check_done(mortarpink_clear(bitmap));
    check_done(mortarpink_start(bitmap, 5));
    check_done(mortarpink_free(bitmap));
}

/* Runs these calls after the third commit, with every allocation failing. */
static void run_in_place(void) {
    const unsigned long failures_before = failures;
    struct subject subject;
    prepare(&subject, STEPS_TO_COMMIT_3);
    set_failures(0, 1);
    read_in_place(&subject.bitmap);
    check_equal(allocations, 0);
    set_failures(0, 0);
    release(&subject);
    count_run(failures_before);
}


/* Checks that the library allocates by this program's malloc: no allocation fails otherwise. */
static void run_first_failure(void) {
    const unsigned long failures_before = failures;
    check(run_step(0, 1, 0));
    count_run(failures_before);
}

static void run_width(uint32_t bytes) {
    width = bytes;
    run_first_failure();
    run_scenario();
    run_bytes();
    run_positions();
    run_past_reads();
    run_in_place();
}

int main(void) {
    for (size_t k = 0; k < sizeof sample; k++) sample[k] = (uint8_t)(37 * k + 11);
    putenv(fail_at);
    putenv(fail_from);
    run_width(1);
    run_width(8);
    run_width(32);
    run_width(64);
    return finish("runs", runs, failed_runs);
}
