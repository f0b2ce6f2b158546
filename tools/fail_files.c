/*
 * Calls on files that fail, preloaded.
 *
 * The calls of pwrite, fsync, fdatasync, ftruncate and rename are counted from 1. FAIL_CALL=K fails the K-th one with EIO. What it did before that is
 * nothing, or as FAIL_AS says: `half` writes half of the bytes of a pwrite, and `whole` does all of what the call does. With FAIL_FOLDERS only the calls
 * of fsync for a folder are counted.
 */
#define _GNU_SOURCE
#include <dlfcn.h>
#include <errno.h>
#include <stddef.h>
#include <stdlib.h>
#include <string.h>
#include <sys/stat.h>
#include <sys/types.h>

enum failure { NONE, NOTHING_DONE, HALF_DONE, ALL_DONE };

static unsigned long calls;

/* How the call that begins now fails, if it does. */
static enum failure failure_of_call(int is_of_folder) {
    const char *number = getenv("FAIL_CALL"), *way = getenv("FAIL_AS");
    if (getenv("FAIL_FOLDERS") != NULL && !is_of_folder) return NONE;
    calls++;
    if (number == NULL || strtoul(number, NULL, 10) != calls) return NONE;
    if (way != NULL && strcmp(way, "half") == 0) return HALF_DONE;
    return way != NULL && strcmp(way, "whole") == 0 ? ALL_DONE : NOTHING_DONE;
}

/* Stores a pointer to the next function of a name. ISO C converts no object pointer to a function pointer. */
static void find(const char *name, void *next) {
    void *found = dlsym(RTLD_NEXT, name);
    memcpy(next, &found, sizeof found);
}

static int failed(void) {
    errno = EIO;
    return -1;
}

static ssize_t write_at(const char *name, int file, const void *bytes, size_t count, off64_t offset) {
    ssize_t (*next)(int, const void *, size_t, off64_t);
    find(name, &next);
    enum failure failure = failure_of_call(0);
    if (failure == NONE) return next(file, bytes, count, offset);
    if (failure != NOTHING_DONE) (void)next(file, bytes, failure == HALF_DONE ? count / 2 : count, offset);
    return failed();
}

static int is_folder(int file) {
    struct stat found;
    return fstat(file, &found) == 0 && S_ISDIR(found.st_mode);
}

static int sync_by(const char *name, int file) {
    int (*next)(int);
    find(name, &next);
    enum failure failure = failure_of_call(is_folder(file));
    if (failure == NONE) return next(file);
    if (failure == ALL_DONE) (void)next(file);
    return failed();
}

static int cut(const char *name, int file, off64_t length) {
    int (*next)(int, off64_t);
    find(name, &next);
    enum failure failure = failure_of_call(0);
    if (failure == NONE) return next(file, length);
    if (failure == ALL_DONE) (void)next(file, length);
    return failed();
}

ssize_t pwrite(int file, const void *bytes, size_t count, off_t offset) { return write_at("pwrite", file, bytes, count, offset); }

ssize_t pwrite64(int file, const void *bytes, size_t count, off64_t offset) { return write_at("pwrite64", file, bytes, count, offset); }

int fsync(int file) { return sync_by("fsync", file); }

int fdatasync(int file) { return sync_by("fdatasync", file); }

int ftruncate(int file, off_t length) { return cut("ftruncate", file, length); }

int ftruncate64(int file, off64_t length) { return cut("ftruncate64", file, length); }

int rename(const char *from, const char *to) {
    int (*next)(const char *, const char *);
    find("rename", &next);
    enum failure failure = failure_of_call(0);
    if (failure == NONE) return next(from, to);
    if (failure == ALL_DONE) (void)next(from, to);
    return failed();
}
