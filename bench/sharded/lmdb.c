/*
 * LMDB, in a folder of LMDB_DIR or /dev/shm and without a sync, so that nothing waits for a disk. A
 * put is a transaction of its own, and puts of many pairs are one; it has one writer at a time,
 * whatever the parts.
 */
#include "engine.h"
#include <lmdb.h>
#include <stdio.h>
#include <stdlib.h>
#include <string.h>
#include <unistd.h>

/* Room for each key, and for what is put while a reader sleeps. */
#define BYTES_OF_KEY 1024

static MDB_env *env;
static MDB_dbi dbi;
static MDB_txn *txns[SEATS];
static char folder[256];

static void require_done(const char *what, int code) {
    if (code != MDB_SUCCESS)
        give_up(what, code);
}

static MDB_txn *writing(void) {
    MDB_txn *txn;
    require_done("mdb_txn_begin", mdb_txn_begin(env, NULL, 0, &txn));
    return txn;
}

static void open_map(size_t keys, size_t shards) {
    (void)shards;
    const char *above = getenv("LMDB_DIR");
    snprintf(folder, sizeof folder, "%s/sharded.XXXXXX", above ? above : "/dev/shm");
    if (!mkdtemp(folder))
        give_up("mkdtemp", 0);
    require_done("mdb_env_create", mdb_env_create(&env));
    require_done("mdb_env_set_mapsize", mdb_env_set_mapsize(env, (keys + 4096) * BYTES_OF_KEY));
    const unsigned flags = MDB_NOSYNC | MDB_WRITEMAP | MDB_NOTLS | MDB_NOMEMINIT;
    require_done("mdb_env_open", mdb_env_open(env, folder, flags, 0600));
    MDB_txn *txn = writing();
    require_done("mdb_dbi_open", mdb_dbi_open(txn, NULL, 0, &dbi));
    require_done("mdb_txn_commit", mdb_txn_commit(txn));
    for (int seat = 0; seat < SEATS; seat++) {
        require_done("mdb_txn_begin", mdb_txn_begin(env, NULL, MDB_RDONLY, &txns[seat]));
        mdb_txn_reset(txns[seat]);
    }
}

static void close_map(void) {
    char file[300];
    for (int seat = 0; seat < SEATS; seat++)
        mdb_txn_abort(txns[seat]);
    mdb_env_close(env);
    snprintf(file, sizeof file, "%s/data.mdb", folder);
    unlink(file);
    snprintf(file, sizeof file, "%s/lock.mdb", folder);
    unlink(file);
    rmdir(folder);
}

static MDB_val bytes(const uint8_t *at, size_t length) {
    return (MDB_val){length, (void *)at};
}

static void put_in(MDB_txn *txn, const uint8_t *key, const uint8_t *value) {
    MDB_val at = bytes(key, KEY_LENGTH), given = bytes(value, VALUE_LENGTH);
    require_done("mdb_put", mdb_put(txn, dbi, &at, &given, 0));
}

static void put(int seat, const uint8_t *key, const uint8_t *value) {
    (void)seat;
    MDB_txn *txn = writing();
    put_in(txn, key, value);
    require_done("mdb_txn_commit", mdb_txn_commit(txn));
}

static void put_all(const uint8_t *pairs, size_t count) {
    MDB_txn *txn = writing();
    for (size_t i = 0; i < count; i++, pairs += PAIR_LENGTH)
        put_in(txn, pairs, pairs + KEY_LENGTH);
    require_done("mdb_txn_commit", mdb_txn_commit(txn));
}

static void begin(int seat) {
    require_done("mdb_txn_renew", mdb_txn_renew(txns[seat]));
}

static void end(int seat) {
    mdb_txn_reset(txns[seat]);
}

static void get(int seat, const uint8_t *key) {
    uint8_t room[VALUE_LENGTH];
    MDB_val at = bytes(key, KEY_LENGTH), found;
    begin(seat);
    require_done("mdb_get", mdb_get(txns[seat], dbi, &at, &found));
    memcpy(room, found.mv_data, VALUE_LENGTH);
    end(seat);
}

const struct engine lmdb_engine = {"lmdb", open_map, close_map, put,  put_all,
                                   get,    begin,    end,       NULL, NULL};
