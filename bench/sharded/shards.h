/* How many rows the shards of a map have that is timed, and where they begin. */
#ifndef SHARDS_H
#define SHARDS_H

#include "engine.h"

/* Rows for a key of format 1, in 16ths, and further rows for the paths of puts. */
#define ROWS_OF_KEY 20
#define SPARE_ROWS 1024
#define ROWS_MOST 65535

/* Room for the splits of the most shards. */
#define SPLITS_ROOM (SHARDS_MOST * (1 + KEY_LENGTH))

/* A shard has room for its keys and as many rows again, as pinned versions need. */
static inline uint32_t rows_of(size_t keys, size_t shards) {
    size_t rows = keys / shards * ROWS_OF_KEY / 16 * 2 + SPARE_ROWS;
    return rows < ROWS_MOST ? (uint32_t)rows : ROWS_MOST;
}

/* A split as mst_sharded_open wants it, with its length before it: the first key of the shard. */
static inline void write_split(uint8_t *at, size_t shard, size_t shards) {
    uint64_t first = (uint64_t)(((unsigned __int128)shard << 64) / shards);
    at[0] = KEY_LENGTH;
    for (int byte = 0; byte < KEY_LENGTH; byte++)
        at[1 + byte] = byte < 8 ? (uint8_t)(first >> (56 - 8 * byte)) : 0;
}

/* Writes splits into equal intervals, and returns the length of all. */
static inline size_t write_splits(uint8_t *room, size_t shards) {
    size_t length = 0;
    for (size_t shard = 1; shard < shards; shard++, length += 1 + KEY_LENGTH)
        write_split(room + length, shard, shards);
    return length;
}

#endif
