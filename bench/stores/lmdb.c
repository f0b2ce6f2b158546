/* Versions in LMDB: a key per changed chunk of each version, and a transaction per commit.
 *
 * The layout is the order of a key's parts. With `by-chunk` a chunk of any version is found by one search. With `by-version` the keys of a commit are
 * next to each other. */
#define _POSIX_C_SOURCE 200809L
#include "workload.h"

#include <lmdb.h>
#include <stdio.h>
#include <string.h>

enum { VERSION_SIZE = 8, CHUNK_SIZE = 4, KEY_SIZE = VERSION_SIZE + CHUNK_SIZE };

/* The most bytes of the file. This much address space is taken. */
static const size_t MOST = (size_t)64 << 30;

static MDB_env *environment;
static MDB_dbi database;
static char path[4096];
static bool is_by_chunk;

static void check(int status, const char *what) {
    if (status != 0) fprintf(stderr, "stores: %s\n", mdb_strerror(status));
    require(status == 0, what);
}

static void encode(uint64_t value, size_t size, uint8_t *bytes) {
    for (size_t at = size; at-- > 0; value >>= 8) bytes[at] = (uint8_t)value;
}

static uint64_t decode(const uint8_t *bytes, size_t size) {
    uint64_t value = 0;
    for (size_t at = 0; at < size; at++) value = value << 8 | bytes[at];
    return value;
}

/* Where the parts of a key begin. */
static size_t version_place(void) {
    return is_by_chunk ? CHUNK_SIZE : 0;
}

static size_t chunk_place(void) {
    return is_by_chunk ? 0 : VERSION_SIZE;
}

static void encode_key(uint64_t version, uint32_t chunk, uint8_t *bytes) {
    encode(version, VERSION_SIZE, bytes + version_place());
    encode(chunk, CHUNK_SIZE, bytes + chunk_place());
}

static uint64_t version_of(const MDB_val *key) {
    return decode((const uint8_t *)key->mv_data + version_place(), VERSION_SIZE);
}

static uint32_t chunk_of(const MDB_val *key) {
    return (uint32_t)decode((const uint8_t *)key->mv_data + chunk_place(), CHUNK_SIZE);
}

static MDB_txn *begin_transaction(unsigned flags) {
    MDB_txn *transaction = NULL;
    check(mdb_txn_begin(environment, NULL, flags, &transaction), "mdb_txn_begin");
    return transaction;
}

static MDB_cursor *open_cursor(MDB_txn *transaction) {
    MDB_cursor *cursor = NULL;
    check(mdb_cursor_open(transaction, database, &cursor), "mdb_cursor_open");
    return cursor;
}

void open_files(const char *folder, bool is_synced, const char *layout) {
    snprintf(path, sizeof path, "%s/versions.mdb", folder);
    is_by_chunk = strcmp(layout, "by-chunk") == 0;
    check(mdb_env_create(&environment), "mdb_env_create");
    check(mdb_env_set_mapsize(environment, MOST), "mdb_env_set_mapsize");
    check(mdb_env_open(environment, path, MDB_NOSUBDIR | (is_synced ? 0 : MDB_NOSYNC), 0644), "mdb_env_open");
    MDB_txn *transaction = begin_transaction(0);
    check(mdb_dbi_open(transaction, NULL, 0, &database), "mdb_dbi_open");
    check(mdb_txn_commit(transaction), "mdb_txn_commit");
}

void close_files(void) {
    mdb_env_close(environment);
}

void commit_chunks(uint64_t version, const uint32_t *chunks, size_t count, const uint8_t *state) {
    MDB_txn *transaction = begin_transaction(0);
    for (size_t at = 0; at < count; at++) {
        uint8_t bytes[KEY_SIZE];
        encode_key(version, chunks[at], bytes);
        MDB_val key = { KEY_SIZE, bytes }, value = { WIDTH, (void *)(state + (size_t)chunks[at] * WIDTH) };
        check(mdb_put(transaction, database, &key, &value, is_by_chunk ? 0 : MDB_APPEND), "mdb_put");
    }
    check(mdb_txn_commit(transaction), "mdb_txn_commit");
}

void sync_files(void) {
    check(mdb_env_sync(environment, 1), "mdb_env_sync");
}

/* Finds the last entry before a key. */
static void find_before(MDB_cursor *cursor, uint8_t *bytes, MDB_val *key, MDB_val *value) {
    *key = (MDB_val){ KEY_SIZE, bytes };
    int status = mdb_cursor_get(cursor, key, value, MDB_SET_RANGE);
    if (status == MDB_NOTFOUND) {
        status = mdb_cursor_get(cursor, key, value, MDB_LAST);
    } else if (status == 0) {
        status = mdb_cursor_get(cursor, key, value, MDB_PREV);
    }
    check(status, "a search");
}

/* Reads a chunk of a version: from the last entry of the chunk, up to this version. */
static void read_chunk(MDB_cursor *cursor, uint64_t version, uint32_t chunk, uint8_t *state) {
    uint8_t bytes[KEY_SIZE];
    encode_key(version + 1, is_by_chunk ? chunk : 0, bytes);
    MDB_val key, value;
    find_before(cursor, bytes, &key, &value);
    while (chunk_of(&key) != chunk) check(mdb_cursor_get(cursor, &key, &value, MDB_PREV), "a search");
    memcpy(state, value.mv_data, WIDTH);
}

/* Reads the entries of all versions up to this one. */
static void read_entries(MDB_cursor *cursor, uint64_t version, uint8_t *state) {
    MDB_val key, value;
    int status = mdb_cursor_get(cursor, &key, &value, MDB_FIRST);
    while (status == 0 && version_of(&key) <= version) {
        memcpy(state + (size_t)chunk_of(&key) * WIDTH, value.mv_data, WIDTH);
        status = mdb_cursor_get(cursor, &key, &value, MDB_NEXT);
    }
    require(status == 0 || status == MDB_NOTFOUND, "a scan");
}

void read_version(uint64_t version, uint8_t *state) {
    MDB_txn *transaction = begin_transaction(MDB_RDONLY);
    MDB_cursor *cursor = open_cursor(transaction);
    if (is_by_chunk) {
        for (uint32_t chunk = 0; chunk < CHUNKS; chunk++) read_chunk(cursor, version, chunk, state + (size_t)chunk * WIDTH);
    } else {
        read_entries(cursor, version, state);
    }
    mdb_cursor_close(cursor);
    mdb_txn_abort(transaction);
}

bool read_bit(uint64_t version, uint32_t bit) {
    uint8_t bytes[WIDTH];
    MDB_txn *transaction = begin_transaction(MDB_RDONLY);
    MDB_cursor *cursor = open_cursor(transaction);
    read_chunk(cursor, version, bit / (8 * WIDTH), bytes);
    mdb_cursor_close(cursor);
    mdb_txn_abort(transaction);
    return bytes[bit / 8 % WIDTH] >> bit % 8 & 1;
}

/* Copies the pages that are in use to a file that replaces the old one. */
bool compact_files(void) {
    char new_path[sizeof path + 4];
    snprintf(new_path, sizeof new_path, "%s.new", path);
    check(mdb_env_copy2(environment, new_path, MDB_CP_COMPACT), "mdb_env_copy2");
    require(rename(new_path, path) == 0, "rename");
    return true;
}
