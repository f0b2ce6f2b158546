/* The work that the programs of the table `stores` do, and what they print. `src/main.rs` does the same work on a `Store`.
 *
 * The arguments are FOLDER COMMITS SETS MODE LAYOUT: an empty folder, the number of commits, the bits that each of them flips, `synced` or `buffered`,
 * and how versions are kept. Each line of the output has a name and a value. */
#define _POSIX_C_SOURCE 200809L
#include "workload.h"

#include <dirent.h>
#include <inttypes.h>
#include <stdio.h>
#include <stdlib.h>
#include <string.h>
#include <sys/stat.h>
#include <time.h>

/* A buffered way is synced after so many commits. The reads are repeated so often. */
enum { BUFFERED = 1000, BIT_READS = 1000, VERSION_READS = 5 };

/* Each byte of version 0. */
enum { BYTE = 105 };

struct work {
    const char *folder;
    uint64_t commits, sets;
    bool is_synced;
    const char *layout;
    uint64_t positions; /* the state of the pseudorandom positions */
    uint8_t state[BYTES];
    bool is_changed[CHUNKS];
    uint32_t chunks[CHUNKS]; /* the chunks that a commit changes */
    size_t count;
};

void require(bool is_true, const char *what) {
    if (is_true) return;
    fprintf(stderr, "stores: %s failed\n", what);
    exit(1);
}

/* Returns the next position, below 2^44. It is that of `shared::Positions`. */
static uint64_t next_position(uint64_t *state) {
    *state = *state * 6364136223846793005u + 1442695040888963407u;
    return *state >> 20;
}

static double seconds(void) {
    struct timespec time;
    clock_gettime(CLOCK_MONOTONIC, &time);
    return (double)time.tv_sec + (double)time.tv_nsec / 1e9;
}

/* Returns the number of a name in a file of /proc. */
static uint64_t field(const char *path, const char *name) {
    FILE *file = fopen(path, "r");
    require(file != NULL, path);
    char line[256];
    size_t len = strlen(name);
    while (fgets(line, sizeof line, file) != NULL) {
        if (strncmp(line, name, len) == 0 && line[len] == ':') {
            fclose(file);
            return strtoull(line + len + 1, NULL, 10);
        }
    }
    require(false, name);
    return 0;
}

/* Returns the bytes of all files in a folder. */
static uint64_t files_size(const char *folder) {
    DIR *entries = opendir(folder);
    require(entries != NULL, folder);
    uint64_t sum = 0;
    for (struct dirent *entry; (entry = readdir(entries)) != NULL;) {
        struct stat found;
        require(fstatat(dirfd(entries), entry->d_name, &found, 0) == 0, entry->d_name);
        if (S_ISREG(found.st_mode)) sum += (uint64_t)found.st_size;
    }
    closedir(entries);
    return sum;
}

/* Returns the checksum of a version, by FNV-1a. */
static uint64_t checksum(const uint8_t *state) {
    uint64_t sum = 0xcbf29ce484222325;
    for (size_t at = 0; at < BYTES; at++) sum = (sum ^ state[at]) * 0x100000001b3;
    return sum;
}

static void print_time(const char *name, double value) {
    printf("%s %.9f\n", name, value);
}

static void print_number(const char *name, uint64_t value) {
    printf("%s %" PRIu64 "\n", name, value);
}

static void change(struct work *work, uint32_t chunk) {
    if (!work->is_changed[chunk]) work->chunks[work->count++] = chunk;
    work->is_changed[chunk] = true;
}

static int compare(const void *one, const void *other) {
    uint32_t a = *(const uint32_t *)one, b = *(const uint32_t *)other;
    return (a > b) - (a < b);
}

static void commit(struct work *work, uint64_t version) {
    qsort(work->chunks, work->count, sizeof *work->chunks, compare);
    commit_chunks(version, work->chunks, work->count, work->state);
    for (size_t at = 0; at < work->count; at++) work->is_changed[work->chunks[at]] = false;
    work->count = 0;
}

/* Begins the files with version 0. */
static void begin(struct work *work) {
    memset(work->state, BYTE, BYTES);
    for (uint32_t chunk = 0; chunk < CHUNKS; chunk++) change(work, chunk);
    commit(work, 0);
    sync_files();
}

static void flip_and_commit(struct work *work, uint64_t version) {
    for (uint64_t set = 0; set < work->sets; set++) {
        uint32_t bit = (uint32_t)(next_position(&work->positions) % BITS);
        work->state[bit / 8] ^= (uint8_t)(1 << bit % 8);
        change(work, bit / (8 * WIDTH));
    }
    commit(work, version);
    if (!work->is_synced && version % BUFFERED == 0) sync_files();
}

static void measure_commits(struct work *work) {
    uint64_t written = field("/proc/self/io", "write_bytes"), passed = field("/proc/self/io", "wchar");
    double start = seconds();
    for (uint64_t version = 1; version <= work->commits; version++) flip_and_commit(work, version);
    if (!work->is_synced) sync_files();
    print_time("commit_seconds", seconds() - start);
    print_number("write_bytes", field("/proc/self/io", "write_bytes") - written);
    print_number("call_bytes", field("/proc/self/io", "wchar") - passed);
}

/* Opens the files and reads the current version, which the next commit would need. */
static void measure_opening(struct work *work) {
    double start = seconds();
    open_files(work->folder, work->is_synced, work->layout);
    read_version(work->commits, work->state);
    print_time("open_seconds", seconds() - start);
    print_number("current_checksum", checksum(work->state));
}

/* Reads the version in the middle: single bits, and all bytes. */
static void measure_reads(struct work *work) {
    uint64_t middle = work->commits / 2, positions = 2, ones = 0;
    double start = seconds();
    for (int read = 0; read < BIT_READS; read++) ones += read_bit(middle, (uint32_t)(next_position(&positions) % BITS));
    print_time("bit_seconds", (seconds() - start) / BIT_READS);
    print_number("bits_checksum", ones);
    start = seconds();
    for (int read = 0; read < VERSION_READS; read++) read_version(middle, work->state);
    print_time("version_seconds", (seconds() - start) / VERSION_READS);
    print_number("version_checksum", checksum(work->state));
    print_number("memory_bytes", field("/proc/self/status", "RssAnon") * 1024);
}

static void read_arguments(struct work *work, char **words) {
    work->folder = words[1];
    work->commits = strtoull(words[2], NULL, 10);
    work->sets = strtoull(words[3], NULL, 10);
    work->is_synced = strcmp(words[4], "synced") == 0;
    require(work->is_synced || strcmp(words[4], "buffered") == 0, words[4]);
    work->layout = words[5];
    work->positions = 1;
}

int main(int count, char **words) {
    static struct work work;
    if (count != 6) {
        fprintf(stderr, "usage: FOLDER COMMITS SETS MODE LAYOUT\n");
        return 2;
    }
    read_arguments(&work, words);
    open_files(work.folder, work.is_synced, work.layout);
    begin(&work);
    measure_commits(&work);
    close_files();
    print_number("file_bytes", files_size(work.folder));
    measure_opening(&work);
    measure_reads(&work);
    bool is_compacted = compact_files();
    close_files();
    if (is_compacted) print_number("compacted_bytes", files_size(work.folder));
    return 0;
}
