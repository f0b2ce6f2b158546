/* Tests that the calls which take a handle as `const` write neither the handle nor the bitmap that it owns.
 *
 * The handle has memory of its own, and the library allocates from an area of this program. Both are made read-only, so
 * that a call that writes there is interrupted by a signal. Meanwhile the library allocates from a second area.
 *
 * Link with --wrap=malloc,--wrap=realloc,--wrap=free, which gives the library the functions of this program. */
#define _DEFAULT_SOURCE

#include <setjmp.h>
#include <signal.h>
#include <stdio.h>
#include <stdlib.h>
#include <sys/mman.h>

#include "mortarpink.h"

static mortarpink_status run_status;
static sigjmp_buf back;

/* The status of a call that a signal interrupts. It is no status of the library. */
enum { WROTE = 1000 };

/* Makes a call, and returns its status, or WROTE. */
#define guarded(call) (sigsetjmp(back, 1) == 0 ? (run_status = (call)) : (run_status = WROTE))

/* The reads of reads.h are guarded. */
#define READ(call)                                                       \
    do {                                                                 \
        if (guarded(call) == WROTE) check_line(__LINE__, #call, 0);      \
        add_read(reads, run_status, out);                                \
    } while (0)

#include "reads.h"


/* ---- Memory ---- */

enum { AREA = 64 << 20, PAGE = 1 << 16, UNIT = 16 };

/* An area of memory, from which blocks are taken one after the other. None is taken back. */
struct area {
    uint8_t *memory;
    size_t used;
};

static struct area first, second, *from = &first;
static mortarpink_bitmap *handle;

static void *mapped(size_t size) {
    void *memory = mmap(NULL, size, PROT_READ | PROT_WRITE, MAP_PRIVATE | MAP_ANONYMOUS, -1, 0);
    if (memory == MAP_FAILED) exit(2);
    return memory;
}

/* Lets the handle, and all that the library allocated for it, be written, or only be read. */
static void protect(int how) {
    if (mprotect(handle, PAGE, how) != 0 || mprotect(first.memory, AREA, how) != 0) exit(2);
    from = how == PROT_READ ? &second : &first;
}

void *__wrap_malloc(size_t size);
void *__wrap_realloc(void *block, size_t size);
void __wrap_free(void *block);

/* Takes a block, whose size is in the unit before it. */
void *__wrap_malloc(size_t size) {
    const size_t units = (size + UNIT - 1) / UNIT + 1;
    uint8_t *block = from->memory + from->used;
    if (size > AREA / 2 || units * UNIT > AREA - from->used) return NULL;
    from->used += units * UNIT;
    memcpy(block, &size, sizeof size);
    return block + UNIT;
}

void *__wrap_realloc(void *block, size_t size) {
    void *copy = __wrap_malloc(size);
    size_t old = 0;
    if (block == NULL || copy == NULL) return copy;
    memcpy(&old, (uint8_t *)block - UNIT, sizeof old);
    return memcpy(copy, block, old < size ? old : size);
}

void __wrap_free(void *block) {
    (void)block;
}

static void go_back(int signal) {
    (void)signal;
    siglongjmp(back, 1);
}


/* ---- Tests ---- */

/* Checks that a call with read-only memory is refused, or that it writes and is interrupted. So it is not made. */
#define check_not_made(call) check(guarded(call) != MORTARPINK_DONE)

static void try_edits(uint32_t width) {
    static uint8_t chunk[64];
    static uint64_t number;
    static uint8_t bit;
    check_not_made(mortarpink_begin(handle));
    check_not_made(mortarpink_push(handle, 1));
    check_not_made(mortarpink_push_byte(handle, 1));
    check_not_made(mortarpink_push_chunk(handle, chunk, width));
    check_not_made(mortarpink_pop(handle, &bit));
    check_not_made(mortarpink_set(handle, 8 * BATCH_BITS / 7, 1));
    check_not_made(mortarpink_prune(handle, 2 * BATCH_BITS));
    check_not_made(mortarpink_commit(handle, COMMITS + 1, &number));
    check_not_made(mortarpink_abort(handle));
    check_not_made(mortarpink_rewind(handle, 1));
    check_not_made(mortarpink_drop_before(handle, COMMITS, &number));
    check_not_made(mortarpink_clear(handle));
    check_not_made(mortarpink_index(handle, 1));
    check_not_made(mortarpink_start(handle, 1));
    check_not_made(mortarpink_free(handle));
    check_not_made(mortarpink_new(handle, 8));
}

/* Makes all reads with memory that is read-only, and tries all edits. Then it is as before. */
static void test_reads(uint32_t width) {
    static struct reads before, meanwhile, after;
    before = read_all(handle, width);
    protect(PROT_READ);
    meanwhile = read_all(handle, width);
    try_edits(width);
    protect(PROT_READ | PROT_WRITE);
    after = read_all(handle, width);
    check(before.count > 100);
    check_equal(meanwhile.count, before.count);
    check_equal(meanwhile.digest, before.digest);
    check_equal(after.digest, before.digest);
    second.used = 0;
}

/* The reads are of a bitmap without an index and a log, with both, in a batch, and of an empty handle. */
static void test_width(uint32_t width) {
    first.used = 0;
    make_commits(handle, width);
    test_reads(width);
    check_done(mortarpink_index(handle, 1));
    check_done(mortarpink_log_begin(handle));
    test_reads(width);
    check_done(mortarpink_begin(handle));
    check_done(mortarpink_push(handle, 1));
    test_reads(width);
    check_done(mortarpink_free(handle));
    test_reads(width);
}

/* Checks that a write to memory that is read-only is caught. */
static void test_the_guard(void) {
    protect(PROT_READ);
    check(guarded((handle->session = NULL, MORTARPINK_DONE)) == WROTE);
    check(guarded((first.memory[AREA / 2] = 1, MORTARPINK_DONE)) == WROTE);
    protect(PROT_READ | PROT_WRITE);
}

int main(void) {
    struct sigaction action;
    memset(&action, 0, sizeof action);
    action.sa_handler = go_back;
    sigaction(SIGSEGV, &action, NULL);
    first.memory = mapped(AREA);
    second.memory = mapped(AREA);
    handle = mapped(PAGE);
    test_the_guard();
    test_width(1);
    test_width(8);
    test_width(32);
    test_width(64);
    return finish("checks", checks, failures);
}
