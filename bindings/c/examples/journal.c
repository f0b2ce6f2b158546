/* A history in a file: a log to which each commit appends its entry. When a commit is done, its entry is on the disk. A crash cuts the file
 * off, and the next start goes on from the last commit that is whole in it.
 *
 * With the package in ~/mortarpink, in this folder:
 *
 *     cc journal.c -I ~/mortarpink/include ~/mortarpink/lib/libmortarpink.a -o journal && ./journal */
#define _POSIX_C_SOURCE 200809L
#include "must.h"

#include <fcntl.h>
#include <inttypes.h>
#include <sys/stat.h>
#include <unistd.h>

/* The file of the log, and the copy of one whose log begins again. */
#define PATH "events.log"
#define COPY "events.cut"
enum { WIDTH = 8 };

/* Ends the program if a call of the system has failed. What it has left of an entry is cut off at the next start. */
static void check(int is_done, const char *what) {
    if (is_done) return;
    perror(what);
    exit(1);
}

/* Appends bytes to a file. When this has returned, they are on the disk. */
static void write_synced(int file, const uint8_t *bytes, size_t size) {
    while (size > 0) {
        const ssize_t written = write(file, bytes, size);
        check(written > 0, "write");
        bytes += written;
        size -= (size_t)written;
    }
    check(fsync(file) == 0, "fsync");
}

/* Returns the bytes of a file, and writes their number to `size`. */
static uint8_t *read_all(int file, size_t *size) {
    struct stat found;
    check(fstat(file, &found) == 0, "fstat");
    *size = (size_t)found.st_size;
    uint8_t *bytes = calloc(*size + 1, 1); /* No pointer is NULL, not even for no bytes. */
    check(bytes != NULL, "calloc");
    for (size_t count = 0; count < *size;) {
        const ssize_t more = read(file, bytes + count, *size - count);
        check(more > 0, "read");
        count += (size_t)more;
    }
    return bytes;
}

/* Opens the file of the log, and makes the bitmap of it in an empty handle. If the file has no bytes, or if a crash has cut off its first
 * write, the log of an empty bitmap begins. To find a new file after a power failure, a program also syncs its folder. */
static int open_log(mortarpink_bitmap *events) {
    const int file = open(PATH, O_RDWR | O_APPEND | O_CREAT, 0600);
    check(file >= 0, PATH);
    size_t size = 0, good = 0;
    uint8_t *bytes = read_all(file, &size);
    mortarpink_status status = mortarpink_recover(events, WIDTH, bytes, size, &good);
    if (status == MORTARPINK_CUT_OFF && size > 0) {
        const int copy = open(COPY, O_WRONLY | O_CREAT | O_EXCL, 0600); /* Fails if there is a copy from an earlier time. */
        check(copy >= 0, COPY);
        write_synced(copy, bytes, size);
        check(close(copy) == 0, COPY);
    }
    if (status == MORTARPINK_CUT_OFF) {
        must(mortarpink_new(events, WIDTH));
        status = mortarpink_log_begin(events);
    }
    must(status);
    printf("%zu of %zu bytes are good\n", good, size);
    check(ftruncate(file, (off_t)good) == 0, "ftruncate");
    free(bytes);
    return file;
}

/* Commits eight events, appends the entry to the file, and then removes it from the log in memory. */
static void commit(mortarpink_bitmap *events, uint64_t number, int file) {
    uint64_t previous = 0;
    uint8_t none = 0;
    size_t size = 0;
    must(mortarpink_begin(events));
    must(mortarpink_push_byte(events, (uint8_t)number));
    must(mortarpink_commit(events, number, &previous));
    if (mortarpink_log_bytes(events, &none, 0, &size) != MORTARPINK_WRONG_SIZE) exit(1);
    uint8_t *bytes = calloc(size, 1);
    check(bytes != NULL, "calloc");
    must(mortarpink_log_bytes(events, bytes, size, &size));
    write_synced(file, bytes, size);
    must(mortarpink_log_forget(events));
    free(bytes);
}

/* One run of the program, which makes some commits and prints all versions. */
static void run(uint64_t first, uint64_t last) {
    mortarpink_bitmap events = MORTARPINK_EMPTY;
    const int file = open_log(&events);
    uint64_t set = 0;
    for (uint64_t number = first; number <= last; number++) commit(&events, number, file);
    for (uint64_t number = 1; number <= last; number++) {
        must(mortarpink_count_ones_at(&events, number, 0, UINT64_MAX, &set));
        printf("version %" PRIu64 ": %" PRIu64 " bits are set\n", number, set);
    }
    must(mortarpink_free(&events));
    check(close(file) == 0, PATH);
}

int main(void) {
    char folder[] = "/tmp/mortarpink_journal_XXXXXX";
    check(mkdtemp(folder) != NULL && chdir(folder) == 0, folder);
    run(1, 3);
    check(truncate(PATH, 275) == 0, PATH); /* A crash cuts off the last ten bytes of the entry of version 3. */
    run(3, 4);
    check(truncate(PATH, 80) == 0, PATH); /* As if a crash had cut off the first write. */
    run(1, 1);
    check(unlink(PATH) == 0 && unlink(COPY) == 0 && rmdir(folder) == 0, folder);
    return 0;
}
