/* Versions in a plain file: the whole encoding of each version, one after the other. */
#define _POSIX_C_SOURCE 200809L
#include "workload.h"

#include <fcntl.h>
#include <stdio.h>
#include <string.h>
#include <unistd.h>

/* The encoding of a bitmap: its length in bits, in eight bytes with the most significant first, and its chunks. */
enum { HEAD = 8, ENCODING = HEAD + BYTES };

static int file;
static bool is_each_synced;

void open_files(const char *folder, bool is_synced, const char *layout) {
    char path[4096];
    snprintf(path, sizeof path, "%s/versions.bin", folder);
    require(strcmp(layout, "whole") == 0, layout);
    is_each_synced = is_synced;
    file = open(path, O_RDWR | O_CREAT, 0644);
    require(file >= 0, path);
}

void close_files(void) {
    require(close(file) == 0, "close");
}

void sync_files(void) {
    require(fdatasync(file) == 0, "fdatasync");
}

static off_t place_of(uint64_t version) {
    return (off_t)(version * ENCODING);
}

void commit_chunks(uint64_t version, const uint32_t *chunks, size_t count, const uint8_t *state) {
    static uint8_t bytes[ENCODING];
    (void)chunks, (void)count;
    for (int at = 0; at < HEAD; at++) bytes[at] = (uint8_t)((uint64_t)BITS >> 8 * (HEAD - 1 - at));
    memcpy(bytes + HEAD, state, BYTES);
    require(pwrite(file, bytes, ENCODING, place_of(version)) == ENCODING, "pwrite");
    if (is_each_synced) sync_files();
}

void read_version(uint64_t version, uint8_t *state) {
    require(pread(file, state, BYTES, place_of(version) + HEAD) == BYTES, "pread");
}

bool read_bit(uint64_t version, uint32_t bit) {
    uint8_t byte;
    require(pread(file, &byte, 1, place_of(version) + HEAD + bit / 8) == 1, "pread");
    return byte >> bit % 8 & 1;
}

bool compact_files(void) {
    return false;
}
