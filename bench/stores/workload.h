/* The bitmap of the table `stores`, and what each way to keep its versions implements. `workload.c` has the work, which is the same for all ways. */
#ifndef WORKLOAD_H
#define WORKLOAD_H

#include <stdbool.h>
#include <stddef.h>
#include <stdint.h>

enum { BITS = 1 << 20, WIDTH = 8, BYTES = BITS / 8, CHUNKS = BYTES / WIDTH };

/* Ends the program with a message unless something is true. */
void require(bool is_true, const char *what);

/* Opens the files of a way in a folder, or creates them. If commits are synced, each one is on the disk when `commit_chunks` returns. Otherwise
 * they all are when `sync_files` returns. */
void open_files(const char *folder, bool is_synced, const char *layout);

void close_files(void);

/* Keeps a version. `state` has all bytes of the bitmap in this version. It differs from the version before in these chunks alone, which are in
 * ascending order. Version 0 has all chunks. */
void commit_chunks(uint64_t version, const uint32_t *chunks, size_t count, const uint8_t *state);

/* Returns once all commits are on the disk. */
void sync_files(void);

/* Reads all bytes of a version. */
void read_version(uint64_t version, uint8_t *state);

bool read_bit(uint64_t version, uint32_t bit);

/* Removes from the files what is not needed to read the versions, and returns whether this way has such a call. */
bool compact_files(void);

#endif
