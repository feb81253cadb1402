/*
 * SQLite, in a folder of SQLITE_DIR or /dev/shm, with a write-ahead log and without a sync, so that
 * nothing waits for a disk. A put is a transaction of its own, and so is a batch of puts; a read of
 * the newest version is a statement by itself. Each seat has a connection.
 */
#include "engine.h"
#include <sqlite3.h>
#include <stdio.h>
#include <stdlib.h>
#include <string.h>
#include <unistd.h>

#define WAIT_MILLISECONDS 10000

/* The statements of a seat. */
enum text { BEGIN, BEGIN_WRITE, COMMIT, ANY, GET, SET, NEXT, RANGE, TEXTS };

static const char *const texts[TEXTS] = {
    [BEGIN] = "BEGIN",
    [BEGIN_WRITE] = "BEGIN IMMEDIATE",
    [COMMIT] = "COMMIT",
    [ANY] = "SELECT 1 FROM pairs LIMIT 1",
    [GET] = "SELECT value FROM pairs WHERE key = ?1",
    [SET] = "INSERT INTO pairs VALUES (?1, ?2) ON CONFLICT (key) DO UPDATE SET value = ?2",
    [NEXT] = "SELECT key, value FROM pairs WHERE key > ?1 ORDER BY key LIMIT 1",
    [RANGE] = "SELECT key, value FROM pairs WHERE key >= ?1 ORDER BY key LIMIT ?2",
};

static sqlite3 *connections[SEATS];
static sqlite3_stmt *statements[SEATS][TEXTS];
static char folder[256];
static uint8_t rooms[SEATS][RANGE_PAIRS * (KEY_LENGTH + VALUE_LENGTH)];

static void require(const char *what, int code, int wanted) {
    if (code != wanted)
        give_up(what, code);
}

static void execute(int seat, const char *text) {
    require(text, sqlite3_exec(connections[seat], text, NULL, NULL, NULL), SQLITE_OK);
}

static void run(int seat, enum text text) {
    sqlite3_stmt *statement = statements[seat][text];
    require(texts[text], sqlite3_step(statement), SQLITE_DONE);
    sqlite3_reset(statement);
}

static sqlite3_stmt *bound(int seat, enum text text, const uint8_t *key) {
    sqlite3_stmt *statement = statements[seat][text];
    require("bind", sqlite3_bind_blob(statement, 1, key, KEY_LENGTH, SQLITE_STATIC), SQLITE_OK);
    return statement;
}

static void connect_seat(int seat, const char *file) {
    require("sqlite3_open", sqlite3_open(file, &connections[seat]), SQLITE_OK);
    sqlite3_busy_timeout(connections[seat], WAIT_MILLISECONDS);
    execute(seat, "PRAGMA journal_mode = WAL");
    execute(seat, "PRAGMA synchronous = OFF");
    if (seat == 0)
        execute(0, "CREATE TABLE pairs (key BLOB PRIMARY KEY, value BLOB) WITHOUT ROWID");
    for (int text = 0; text < TEXTS; text++)
        require(texts[text],
                sqlite3_prepare_v3(connections[seat], texts[text], -1, SQLITE_PREPARE_PERSISTENT,
                                   &statements[seat][text], NULL),
                SQLITE_OK);
}

static void open_map(void) {
    char file[300];
    const char *above = getenv("SQLITE_DIR");
    snprintf(folder, sizeof folder, "%s/speed.XXXXXX", above ? above : "/dev/shm");
    if (!mkdtemp(folder))
        give_up("mkdtemp", 0);
    snprintf(file, sizeof file, "%s/pairs", folder);
    for (int seat = 0; seat < SEATS; seat++)
        connect_seat(seat, file);
}

static void close_map(void) {
    static const char *const ends[] = {"", "-wal", "-shm"};
    char file[300];
    for (int seat = 0; seat < SEATS; seat++) {
        for (int text = 0; text < TEXTS; text++)
            sqlite3_finalize(statements[seat][text]);
        require("sqlite3_close", sqlite3_close(connections[seat]), SQLITE_OK);
    }
    for (size_t i = 0; i < sizeof ends / sizeof ends[0]; i++) {
        snprintf(file, sizeof file, "%s/pairs%s", folder, ends[i]);
        unlink(file);
    }
    rmdir(folder);
}

/* Copies what the columns of a row hold, one behind the other. */
static uint8_t *copy_row(sqlite3_stmt *statement, uint8_t *room) {
    for (int column = 0; column < sqlite3_column_count(statement); column++) {
        size_t length = (size_t)sqlite3_column_bytes(statement, column);
        memcpy(room, sqlite3_column_blob(statement, column), length);
        room += length;
    }
    return room;
}

/* Copies the rows that a statement finds, and returns how many there are. */
static int copy_rows(int seat, sqlite3_stmt *statement) {
    uint8_t *room = rooms[seat];
    int code, count = 0;
    for (; (code = sqlite3_step(statement)) == SQLITE_ROW; count++)
        room = copy_row(statement, room);
    require("sqlite3_step", code, SQLITE_DONE);
    sqlite3_reset(statement);
    return count;
}

static void set(int seat, const uint8_t *key, const uint8_t *value) {
    sqlite3_stmt *statement = bound(seat, SET, key);
    require("bind", sqlite3_bind_blob(statement, 2, value, VALUE_LENGTH, SQLITE_STATIC), SQLITE_OK);
    run(seat, SET);
}

static void put(int seat, const uint8_t *key, const uint8_t *value) {
    run(seat, BEGIN_WRITE);
    copy_rows(seat, bound(seat, GET, key)); /* the store's put returns the old value too */
    set(seat, key, value);
    run(seat, COMMIT);
}

static void start(void) {
    run(0, BEGIN_WRITE);
}

static void add(const uint8_t *key, const uint8_t *value) {
    set(0, key, value);
}

static void commit(void) {
    run(0, COMMIT);
}

/* A transaction has its version from its first read on. */
static void begin(int seat) {
    run(seat, BEGIN);
    sqlite3_step(statements[seat][ANY]);
    sqlite3_reset(statements[seat][ANY]);
}

static void end(int seat) {
    run(seat, COMMIT);
}

static void get(int seat, const uint8_t *key) {
    if (copy_rows(seat, bound(seat, GET, key)) != 1)
        give_up("get", 0);
}

static void next(int seat, const uint8_t *key) {
    copy_rows(seat, bound(seat, NEXT, key));
}

static void range(int seat, const uint8_t *key) {
    sqlite3_stmt *statement = bound(seat, RANGE, key);
    require("bind", sqlite3_bind_int(statement, 2, RANGE_PAIRS), SQLITE_OK);
    if (copy_rows(seat, statement) == 0)
        give_up("range", 0);
}

const struct engine sqlite_engine = {
    "SQLite", open_map, close_map, put, start, add, commit, get, next, range, begin, end, get, NULL,
};
