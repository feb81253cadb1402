/* The calls that try, as those that wait call them: they answer as a test wants, without a store. */
#ifndef TRIES_H
#define TRIES_H

#include "mst_store.h"

/* What a try is told. */
static int32_t try_once(void);

int32_t mst_try_put(mst_pass *pass, const uint8_t *key, size_t key_length, const uint8_t *value,
                    size_t value_length, uint8_t *room, size_t room_length) {
    (void)pass, (void)key, (void)key_length, (void)value, (void)value_length;
    (void)room, (void)room_length;
    return try_once();
}

int32_t mst_try_remove(mst_pass *pass, const uint8_t *key, size_t key_length, uint8_t *room,
                       size_t room_length) {
    (void)pass, (void)key, (void)key_length, (void)room, (void)room_length;
    return try_once();
}

int32_t mst_try_apply(mst_pass *pass, const uint8_t *edits, size_t length, size_t *place) {
    (void)pass, (void)edits, (void)length, (void)place;
    return try_once();
}

int32_t mst_try_migrate(mst_pass *pass, uint32_t format) {
    (void)pass, (void)format;
    return try_once();
}

int32_t mst_sharded_try_snapshot(mst_handle *reader) {
    (void)reader;
    int32_t told = try_once();
    return told == MST_BUSY ? MST_MOVING : told;
}

#endif
