/* Versions in SQLite: a row per changed chunk of each version, and a transaction per commit.
 *
 * The layout is the order of the primary key. With `by-chunk` a chunk of any version is found by one search. With `by-version` the rows of a commit
 * are next to each other. */
#define _POSIX_C_SOURCE 200809L
#include "workload.h"

#include <sqlite3.h>
#include <stdio.h>
#include <string.h>

static sqlite3 *database;
static sqlite3_stmt *begin_transaction, *end_transaction, *insert, *find_chunk, *find_all;
static bool is_by_chunk;

static void run(const char *text) {
    require(sqlite3_exec(database, text, NULL, NULL, NULL) == SQLITE_OK, text);
}

static sqlite3_stmt *prepared(const char *text) {
    sqlite3_stmt *statement = NULL;
    require(sqlite3_prepare_v3(database, text, -1, SQLITE_PREPARE_PERSISTENT, &statement, NULL) == SQLITE_OK, text);
    return statement;
}

/* Runs a statement that returns no row. */
static void finish(sqlite3_stmt *statement) {
    require(sqlite3_step(statement) == SQLITE_DONE, sqlite3_sql(statement));
    sqlite3_reset(statement);
}

static void bind(sqlite3_stmt *statement, int index, uint64_t value) {
    require(sqlite3_bind_int64(statement, index, (sqlite3_int64)value) == SQLITE_OK, sqlite3_sql(statement));
}

static void create_table(void) {
    char text[256];
    const char *key = is_by_chunk ? "chunk, version" : "version, chunk";
    snprintf(text, sizeof text, "CREATE TABLE IF NOT EXISTS changes (version INTEGER, chunk INTEGER, bytes BLOB, PRIMARY KEY (%s)) WITHOUT ROWID", key);
    run(text);
}

void open_files(const char *folder, bool is_synced, const char *layout) {
    char path[4096];
    snprintf(path, sizeof path, "%s/versions.db", folder);
    is_by_chunk = strcmp(layout, "by-chunk") == 0;
    require(sqlite3_open(path, &database) == SQLITE_OK, path);
    run("PRAGMA journal_mode = WAL");
    run(is_synced ? "PRAGMA synchronous = FULL" : "PRAGMA synchronous = NORMAL");
    run("PRAGMA cache_size = -65536"); /* 64 MiB */
    create_table();
    begin_transaction = prepared("BEGIN");
    end_transaction = prepared("COMMIT");
    insert = prepared("INSERT INTO changes (version, chunk, bytes) VALUES (?1, ?2, ?3)");
    find_chunk = prepared("SELECT bytes FROM changes WHERE chunk = ?1 AND version <= ?2 ORDER BY version DESC LIMIT 1");
    find_all = prepared("SELECT chunk, bytes FROM changes WHERE version <= ?1 ORDER BY version");
}

void close_files(void) {
    sqlite3_stmt *statements[] = { begin_transaction, end_transaction, insert, find_chunk, find_all };
    for (size_t at = 0; at < sizeof statements / sizeof *statements; at++) sqlite3_finalize(statements[at]);
    require(sqlite3_close(database) == SQLITE_OK, "sqlite3_close");
}

void commit_chunks(uint64_t version, const uint32_t *chunks, size_t count, const uint8_t *state) {
    finish(begin_transaction);
    for (size_t at = 0; at < count; at++) {
        bind(insert, 1, version);
        bind(insert, 2, chunks[at]);
        require(sqlite3_bind_blob(insert, 3, state + (size_t)chunks[at] * WIDTH, WIDTH, SQLITE_STATIC) == SQLITE_OK, "sqlite3_bind_blob");
        finish(insert);
    }
    finish(end_transaction);
}

/* A checkpoint syncs the log of the database, and then the database. */
void sync_files(void) {
    require(sqlite3_wal_checkpoint_v2(database, NULL, SQLITE_CHECKPOINT_FULL, NULL, NULL) == SQLITE_OK, "sqlite3_wal_checkpoint_v2");
}

static void copy_bytes(sqlite3_stmt *statement, int column, uint8_t *bytes) {
    require(sqlite3_column_bytes(statement, column) == WIDTH, "a row");
    memcpy(bytes, sqlite3_column_blob(statement, column), WIDTH);
}

static void read_chunk(uint64_t version, uint32_t chunk, uint8_t *bytes) {
    bind(find_chunk, 1, chunk);
    bind(find_chunk, 2, version);
    require(sqlite3_step(find_chunk) == SQLITE_ROW, "a search");
    copy_bytes(find_chunk, 0, bytes);
    sqlite3_reset(find_chunk);
}

/* Reads the rows of all versions up to this one. */
static void read_rows(uint64_t version, uint8_t *state) {
    bind(find_all, 1, version);
    while (sqlite3_step(find_all) == SQLITE_ROW) copy_bytes(find_all, 1, state + sqlite3_column_int64(find_all, 0) * WIDTH);
    require(sqlite3_reset(find_all) == SQLITE_OK, "a scan");
}

void read_version(uint64_t version, uint8_t *state) {
    finish(begin_transaction);
    if (is_by_chunk) {
        for (uint32_t chunk = 0; chunk < CHUNKS; chunk++) read_chunk(version, chunk, state + (size_t)chunk * WIDTH);
    } else {
        read_rows(version, state);
    }
    finish(end_transaction);
}

bool read_bit(uint64_t version, uint32_t bit) {
    uint8_t bytes[WIDTH];
    read_chunk(version, bit / (8 * WIDTH), bytes);
    return bytes[bit / 8 % WIDTH] >> bit % 8 & 1;
}

bool compact_files(void) {
    run("VACUUM");
    return true;
}
