/*
 * LMDB, in a folder of LMDB_DIR or /dev/shm and without a sync, so that nothing waits for a disk. A
 * put is a transaction of its own, and so is a batch of puts; a read of the newest version renews
 * the seat's transaction.
 */
#include "engine.h"
#include <lmdb.h>
#include <stdio.h>
#include <stdlib.h>
#include <string.h>
#include <unistd.h>

/* Room for what is put while a reader sleeps: LMDB uses no page again that a reader may see. */
#define MAP_BYTES ((size_t)2 << 30)

static MDB_env *env;
static MDB_dbi dbi;
static MDB_txn *txns[SEATS], *batch;
static MDB_cursor *cursors[SEATS];
static char folder[256];
static uint8_t rooms[SEATS][RANGE_PAIRS * (4 + KEY_LENGTH + VALUE_LENGTH)];

static void require_done(const char *what, int code) {
    if (code != MDB_SUCCESS)
        give_up(what, code);
}

static MDB_txn *writing(void) {
    MDB_txn *txn;
    require_done("mdb_txn_begin", mdb_txn_begin(env, NULL, 0, &txn));
    return txn;
}

static void open_map(void) {
    const char *above = getenv("LMDB_DIR");
    snprintf(folder, sizeof folder, "%s/speed.XXXXXX", above ? above : "/dev/shm");
    if (!mkdtemp(folder))
        give_up("mkdtemp", 0);
    require_done("mdb_env_create", mdb_env_create(&env));
    require_done("mdb_env_set_mapsize", mdb_env_set_mapsize(env, MAP_BYTES));
    const unsigned flags = MDB_NOSYNC | MDB_WRITEMAP | MDB_NOTLS | MDB_NOMEMINIT;
    require_done("mdb_env_open", mdb_env_open(env, folder, flags, 0600));
    MDB_txn *txn = writing();
    require_done("mdb_dbi_open", mdb_dbi_open(txn, NULL, 0, &dbi));
    require_done("mdb_txn_commit", mdb_txn_commit(txn));
    for (int seat = 0; seat < SEATS; seat++) {
        require_done("mdb_txn_begin", mdb_txn_begin(env, NULL, MDB_RDONLY, &txns[seat]));
        require_done("mdb_cursor_open", mdb_cursor_open(txns[seat], dbi, &cursors[seat]));
        mdb_txn_reset(txns[seat]);
    }
}

static void close_map(void) {
    char file[300];
    for (int seat = 0; seat < SEATS; seat++) {
        mdb_cursor_close(cursors[seat]);
        mdb_txn_abort(txns[seat]);
    }
    mdb_env_close(env);
    snprintf(file, sizeof file, "%s/data.mdb", folder);
    unlink(file);
    snprintf(file, sizeof file, "%s/lock.mdb", folder);
    unlink(file);
    rmdir(folder);
}

static MDB_val bytes(const uint8_t *at, size_t length) {
    return (MDB_val){length, (void *)at};
}

static void put(int seat, const uint8_t *key, const uint8_t *value) {
    MDB_val at = bytes(key, KEY_LENGTH), given = bytes(value, VALUE_LENGTH), old;
    MDB_txn *txn = writing();
    int code = mdb_get(txn, dbi, &at, &old); /* the store's put returns the old value too */
    if (code == MDB_SUCCESS)
        memcpy(rooms[seat], old.mv_data, old.mv_size);
    else if (code != MDB_NOTFOUND)
        give_up("mdb_get", code);
    require_done("mdb_put", mdb_put(txn, dbi, &at, &given, 0));
    require_done("mdb_txn_commit", mdb_txn_commit(txn));
}

static void start(void) {
    batch = writing();
}

static void add(const uint8_t *key, const uint8_t *value) {
    MDB_val at = bytes(key, KEY_LENGTH), given = bytes(value, VALUE_LENGTH);
    require_done("mdb_put", mdb_put(batch, dbi, &at, &given, 0));
}

static void commit(void) {
    require_done("mdb_txn_commit", mdb_txn_commit(batch));
}

static void begin(int seat) {
    require_done("mdb_txn_renew", mdb_txn_renew(txns[seat]));
}

static void end(int seat) {
    mdb_txn_reset(txns[seat]);
}

static void get_within(int seat, const uint8_t *key) {
    MDB_val at = bytes(key, KEY_LENGTH), found;
    require_done("mdb_get", mdb_get(txns[seat], dbi, &at, &found));
    memcpy(rooms[seat], found.mv_data, found.mv_size);
}

static void get(int seat, const uint8_t *key) {
    begin(seat);
    get_within(seat, key);
    end(seat);
}

/* Begins at the key, and gives the cursor of the seat's transaction. */
static MDB_cursor *cursor_at(int seat, const uint8_t *key, MDB_val *at, MDB_val *found, int *code) {
    begin(seat);
    require_done("mdb_cursor_renew", mdb_cursor_renew(txns[seat], cursors[seat]));
    *at = bytes(key, KEY_LENGTH);
    *code = mdb_cursor_get(cursors[seat], at, found, MDB_SET_RANGE);
    return cursors[seat];
}

static void next(int seat, const uint8_t *key) {
    MDB_val at, found;
    int code;
    MDB_cursor *cursor = cursor_at(seat, key, &at, &found, &code);
    if (code == MDB_SUCCESS && memcmp(at.mv_data, key, KEY_LENGTH) == 0)
        code = mdb_cursor_get(cursor, &at, &found, MDB_NEXT);
    if (code == MDB_SUCCESS) {
        memcpy(rooms[seat], at.mv_data, at.mv_size);
        memcpy(rooms[seat] + KEY_LENGTH, found.mv_data, found.mv_size);
    } else if (code != MDB_NOTFOUND) {
        give_up("mdb_cursor_get", code);
    }
    end(seat);
}

static void range(int seat, const uint8_t *key) {
    MDB_val at, found;
    int code, count = 0;
    uint8_t *room = rooms[seat];
    MDB_cursor *cursor = cursor_at(seat, key, &at, &found, &code);
    while (code == MDB_SUCCESS && count < RANGE_PAIRS) {
        memcpy(room, at.mv_data, at.mv_size);
        memcpy(room + KEY_LENGTH, found.mv_data, found.mv_size);
        room += KEY_LENGTH + VALUE_LENGTH;
        count++;
        code = mdb_cursor_get(cursor, &at, &found, MDB_NEXT);
    }
    if (count == 0)
        give_up("mdb_cursor_get", code);
    end(seat);
}

const struct engine lmdb_engine = {
    "LMDB", open_map, close_map, put, start, add, commit, get, next, range, begin, end, get_within,
    NULL,
};
