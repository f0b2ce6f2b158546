/*
 * An allocator that counts a program's blocks and lets allocations fail, preloaded or as a part of the program.
 *
 * Allocations are counted from 1. FAIL_AT=K fails the K-th one, FAIL_TWO=K that one and the next, and FAIL_FROM=K each one
 * from the K-th on.
 *
 * A block is the program's own if the call that made it comes from the program's file, or from a file whose name ends as
 * COUNT_IN says. So what a shared library keeps, such as the buffers of the C library, is not counted as left.
 *
 * At the end two lines are written to standard error: the program's own blocks, and the number of all allocations.
 */
#define _GNU_SOURCE
#include <dlfcn.h>
#include <errno.h>
#include <link.h>
#include <stddef.h>
#include <stdint.h>
#include <stdio.h>
#include <stdlib.h>
#include <string.h>
#include <unistd.h>

static unsigned long allocations;

static unsigned long number(const char *name) {
    const char *text = getenv(name);
    return text ? strtoul(text, NULL, 10) : 0;
}

static int fails(void) {
    unsigned long at = number("FAIL_AT"), two = number("FAIL_TWO"), from = number("FAIL_FROM");
    allocations++;
    int is_one = allocations == at || (two != 0 && (allocations == two || allocations == two + 1));
    if (!is_one && (from == 0 || allocations < from)) return 0;
    errno = ENOMEM;
    return 1;
}

/* Stores a pointer to the next function of a name. ISO C converts no object pointer to a function pointer. */
static void find(const char *name, void *next) {
    void *found = dlsym(RTLD_NEXT, name);
    memcpy(next, &found, sizeof found);
}


/* ---- The program's own blocks ---- */

/* The live ones, in a hash table: each is at the first place from its home on that was free. A place without a block is free. */
enum { PLACE_BITS = 20, PLACES = 1 << PLACE_BITS };

static struct {
    void *block;
    size_t size;
} live[PLACES];

static unsigned long made, freed;
static size_t bytes_left;
static char is_locked;

static void lock(void) {
    while (__atomic_test_and_set(&is_locked, __ATOMIC_ACQUIRE)) continue;
}

static void unlock(void) {
    __atomic_clear(&is_locked, __ATOMIC_RELEASE);
}

/* The code whose blocks are counted, once its file is loaded. */
static uintptr_t code_begin, code_end;

/* Stores the place of a file's code if it is the one that is counted: the program has no name here. */
static int find_code(struct dl_phdr_info *file, size_t size, void *counted) {
    const char *name = file->dlpi_name, *ending = counted;
    (void)size;
    if (ending && strlen(name) > strlen(ending)) name += strlen(name) - strlen(ending);
    if (strcmp(name, ending ? ending : "") != 0) return 0;
    for (size_t k = 0; k < file->dlpi_phnum; k++) {
        uintptr_t begin = file->dlpi_addr + file->dlpi_phdr[k].p_vaddr;
        if (file->dlpi_phdr[k].p_type != PT_LOAD || !(file->dlpi_phdr[k].p_flags & PF_X)) continue;
        code_begin = begin;
        code_end = begin + file->dlpi_phdr[k].p_memsz;
    }
    return 1;
}

static int is_own_code(const void *address) {
    if (!code_end) dl_iterate_phdr(find_code, getenv("COUNT_IN"));
    return code_begin <= (uintptr_t)address && (uintptr_t)address < code_end;
}

/* The place of a block, or the free one where it would be. */
static size_t place_of(const void *block) {
    size_t place = (size_t)((uintptr_t)block * 0x9E3779B97F4A7C15U >> (64 - PLACE_BITS));
    while (live[place].block && live[place].block != block) place = (place + 1) % PLACES;
    return place;
}

static void put_block(void *block, size_t size) {
    size_t place = place_of(block);
    live[place].block = block;
    live[place].size = size;
}

/* Adds a block. Half of the places stay free. */
static void add_block(void *block, size_t size) {
    if (!block) return;
    lock();
    if (made - freed >= PLACES / 2) abort();
    put_block(block, size);
    made++;
    bytes_left += size;
    unlock();
}

/* Removes a block, and puts those after it where they are found. Returns whether it was there, and stores its size. */
static int remove_block(void *block, size_t *size) {
    lock();
    size_t place = place_of(block);
    int is_there = live[place].block != NULL;
    if (is_there) {
        *size = live[place].size;
        live[place].block = NULL;
        freed++;
        bytes_left -= *size;
        while (live[place = (place + 1) % PLACES].block) {
            void *moved = live[place].block;
            live[place].block = NULL;
            put_block(moved, live[place].size);
        }
    }
    unlock();
    return is_there;
}

/* The number of the program's own blocks that were made, and of those that are live. */
unsigned long blocks_made(void) {
    return made;
}

unsigned long blocks_left(void) {
    return made - freed;
}


/* ---- The functions of the C library ---- */

void *malloc(size_t size) {
    static void *(*next)(size_t);
    if (!next) find("malloc", &next);
    void *block = fails() ? NULL : next(size);
    if (is_own_code(__builtin_return_address(0))) add_block(block, size);
    return block;
}

void *realloc(void *old, size_t size) {
    static void *(*next)(void *, size_t);
    size_t old_size = 0;
    if (!next) find("realloc", &next);
    if (fails()) return NULL;
    int is_own = old ? remove_block(old, &old_size) : is_own_code(__builtin_return_address(0));
    void *block = next(old, size);
    const int is_kept = !block && size != 0;
    if (is_own) add_block(is_kept ? old : block, is_kept ? old_size : size);
    return block;
}

void free(void *block) {
    static void (*next)(void *);
    size_t size = 0;
    if (!next) find("free", &next);
    if (block) remove_block(block, &size);
    next(block);
}

__attribute__((destructor)) static void report(void) {
    char lines[160];
    int length = snprintf(lines, sizeof lines, "blocks: %lu made, %lu left, of %zu bytes\nallocations: %lu\n", blocks_made(),
                          blocks_left(), bytes_left, allocations);
    if (write(STDERR_FILENO, lines, (size_t)length) != length) _exit(1);
}
