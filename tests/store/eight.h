/* Blocks of a map of eight shards: random ones, and those of more keys than a shard has rows. */
#ifndef EIGHT_H
#define EIGHT_H

#include "blocks.h"

enum { SHARDS = 8, KEYS_OF_ONE = 24, MOST_EDITS = 200, ROWS = 512 };

/* Eight shards: the keys begin with the bytes 1 to 8. */
#define SPLITS "\1\2\1\3\1\4\1\5\1\6\1\7\1\10"

static uint8_t many[MOST_EDITS * MST_EDIT_LONGEST]; /* edits, in this order */
static size_t many_length;
static uint32_t chance = 2019;

static inline uint32_t choose(uint32_t bound) {
    chance = chance * 1664525u + 1013904223u;
    return (chance >> 8) % bound;
}

static inline void open_map(mst_handle *handles, size_t count, uint32_t rows) {
    EXPECT(mst_sharded_open(1, rows, TEXT(SPLITS), handles, count) == MST_OK);
    EXPECT(mst_sharded_shards(&handles[0]) == SHARDS);
}

/* Random edits, of the shards whose bit is set. */
static inline void choose_edits(uint32_t count, uint32_t shards) {
    many_length = 0;
    while (count > 0) {
        uint8_t first = (uint8_t)choose(SHARDS);
        uint8_t key[2] = {(uint8_t)(1 + first), (uint8_t)choose(KEYS_OF_ONE)};
        uint8_t value = (uint8_t)choose(256);
        if (!(shards >> first & 1))
            continue;
        many_length = choose(4) == 0 ? mst_edit_remove(many, many_length, key, 2)
                                     : mst_edit_put(many, many_length, key, 2, &value, 1);
        count--;
    }
}

/* A put into each shard, and fifteen more into one of them, for which 12 rows are too few. */
static inline void more_in(int full) {
    many_length = 0;
    for (int at = 0; at < SHARDS; at++)
        for (uint8_t second = 0; second < (at == full ? 16 : 1); second++) {
            uint8_t key[2] = {(uint8_t)(1 + at), second};
            many_length = mst_edit_put(many, many_length, key, 2, key, 2);
        }
}

/* Whether each key has the same value in both maps. */
static inline int are_same(mst_handle *one, mst_handle *other) {
    uint8_t rooms[2][MST_VALUE_LONGEST];
    for (int at = 0; at < SHARDS * KEYS_OF_ONE; at++) {
        uint8_t key[2] = {(uint8_t)(1 + at % SHARDS), (uint8_t)(at / SHARDS)};
        int32_t told = mst_sharded_get(one, key, 2, rooms[0], MST_VALUE_LONGEST);
        if (told != mst_sharded_get(other, key, 2, rooms[1], MST_VALUE_LONGEST)
            || (told > 0 && memcmp(rooms[0], rooms[1], (size_t)told) != 0))
            return 0;
    }
    return 1;
}

#endif
