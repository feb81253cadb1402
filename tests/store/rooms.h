/* Rooms of which a test looks at each byte, and ranges into one of them. */
#ifndef ROOMS_H
#define ROOMS_H

#include "tests.h"

#define UNTOUCHED 0xA5

static uint8_t room[MST_VALUE_LONGEST], key_room[MST_KEY_LONGEST], root[MST_ROOT_LENGTH];
static uint8_t proof[4096], pairs[4 * MST_PAIR_LONGEST];
static const uint8_t long_bytes[65] = {1};
static size_t length, count;
static uint64_t version;
static uint32_t rows;

static inline void fill_rooms(void) {
    memset(room, UNTOUCHED, sizeof room);
    memset(key_room, UNTOUCHED, sizeof key_room);
    memset(root, UNTOUCHED, sizeof root);
    memset(proof, UNTOUCHED, sizeof proof);
    memset(pairs, UNTOUCHED, sizeof pairs);
    length = count = 77;
    version = 77;
    rows = 77;
}

static inline int is_untouched(const uint8_t *bytes, size_t number) {
    for (size_t i = 0; i < number; i++)
        if (bytes[i] != UNTOUCHED)
            return 0;
    return 1;
}

static inline int rooms_stay(void) {
    return is_untouched(room, sizeof room) && is_untouched(key_room, sizeof key_room)
        && is_untouched(root, sizeof root) && is_untouched(proof, sizeof proof)
        && is_untouched(pairs, sizeof pairs)
        && length == 77 && count == 77 && version == 77 && rows == 77;
}

/* A range into the first `room_length` bytes of `pairs`; of 0 into no room. */
static inline int32_t range_of(mst_pass *pass, const uint8_t *from, size_t from_length, const uint8_t *to,
                        size_t to_length, uint32_t limit, size_t room_length) {
    return mst_range(pass, from, from_length, to, to_length, limit, room_length ? pairs : NULL,
                     room_length, &count, &length);
}

#endif
