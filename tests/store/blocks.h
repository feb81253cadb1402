/* Blocks of a sharded map as the tests make them, of texts as keys and values. */
#ifndef BLOCKS_H
#define BLOCKS_H

#include "tests.h"

#define MOST 64 /* edits of a block */

static uint8_t room[MST_VALUE_LONGEST];
static uint8_t edits[MOST * MST_EDIT_LONGEST];
static size_t length, place, shard; /* of the edits; what a block tells */
static uint64_t number;

static inline void puts_edit(const char *key, const char *value) {
    length = mst_edit_put(edits, length, (const uint8_t *)key, strlen(key),
                          (const uint8_t *)value, strlen(value));
}

static inline void removes_edit(const char *key) {
    length = mst_edit_remove(edits, length, (const uint8_t *)key, strlen(key));
}

static inline int32_t made_by(mst_handle *by) {
    return mst_sharded_apply(by, edits, length, &place, &shard, &number);
}

static inline int has(mst_handle *by, const char *key, const char *value) {
    int32_t told = mst_sharded_get(by, (const uint8_t *)key, strlen(key), room, sizeof room);
    return value == NULL ? told == MST_ABSENT
        : told == (int32_t)strlen(value) && memcmp(room, value, strlen(value)) == 0;
}

static inline int has_number(mst_handle *by, uint64_t wanted) {
    uint64_t told = 77;
    return mst_sharded_number(by, &told) == MST_OK && told == wanted;
}

/* Whether both have the same root digest. */
static inline int have_one_root(mst_handle *one, mst_handle *other) {
    uint8_t roots[2][MST_ROOT_LENGTH];
    return mst_sharded_root(one, roots[0], MST_ROOT_LENGTH) == MST_ROOT_LENGTH
        && mst_sharded_root(other, roots[1], MST_ROOT_LENGTH) == MST_ROOT_LENGTH
        && memcmp(roots[0], roots[1], MST_ROOT_LENGTH) == 0;
}

#endif
