/* Lengths of 0, 33, 65 and more, null pointers, rooms that are too short, and null rooms. */
#include "rooms.h"

/* Lengths that no bytes have: each is refused by the length alone. */
static void longest_lengths(mst_pass *pass) {
    fill_rooms();
    EXPECT(mst_get(pass, long_bytes, SIZE_MAX, room, sizeof room) == MST_BAD_KEY);
    EXPECT(mst_next(pass, long_bytes, SIZE_MAX, key_room, 32, &length, room, 64) == MST_BAD_KEY);
    EXPECT(range_of(pass, long_bytes, SIZE_MAX, long_bytes, 1, 9, 0) == MST_BAD_KEY);
    EXPECT(range_of(pass, NULL, 0, long_bytes, SIZE_MAX, 9, 0) == MST_BAD_KEY);
    EXPECT(mst_prove(pass, long_bytes, SIZE_MAX, proof, sizeof proof, &length) == MST_BAD_KEY);
    EXPECT(mst_try_put(pass, long_bytes, SIZE_MAX, TEXT("1"), room, 64) == MST_BAD_KEY);
    EXPECT(mst_try_put(pass, TEXT("a"), long_bytes, SIZE_MAX, room, 64) == MST_BAD_VALUE);
    EXPECT(mst_try_remove(pass, long_bytes, SIZE_MAX, room, 64) == MST_BAD_KEY);
    EXPECT(rooms_stay());
}

static void lengths(mst_pass *pass) {
    fill_rooms();
    EXPECT(mst_get(pass, NULL, 0, room, sizeof room) == MST_BAD_KEY);
    EXPECT(mst_get(pass, long_bytes, 33, room, sizeof room) == MST_BAD_KEY);
    EXPECT(mst_get(pass, long_bytes, 65, NULL, 0) == MST_BAD_KEY);
    EXPECT(mst_next(pass, long_bytes, 33, key_room, 32, &length, room, 64) == MST_BAD_KEY);
    EXPECT(range_of(pass, long_bytes, 33, NULL, 0, 9, sizeof pairs) == MST_BAD_KEY);
    EXPECT(range_of(pass, NULL, 0, long_bytes, 33, 9, 0) == MST_BAD_KEY);
    EXPECT(range_of(pass, long_bytes, 65, long_bytes, 65, 0, 0) == MST_BAD_KEY);
    EXPECT(mst_prove(pass, NULL, 0, proof, sizeof proof, &length) == MST_BAD_KEY);
    EXPECT(mst_prove(pass, long_bytes, 33, proof, sizeof proof, &length) == MST_BAD_KEY);
    EXPECT(mst_try_put(pass, NULL, 0, TEXT("1"), room, sizeof room) == MST_BAD_KEY);
    EXPECT(mst_try_put(pass, long_bytes, 33, long_bytes, 65, room, sizeof room) == MST_BAD_KEY);
    EXPECT(mst_try_put(pass, TEXT("a"), long_bytes, 65, room, sizeof room) == MST_BAD_VALUE);
    EXPECT(mst_try_remove(pass, NULL, 0, room, sizeof room) == MST_BAD_KEY);
    EXPECT(mst_try_remove(pass, long_bytes, 33, room, sizeof room) == MST_BAD_KEY);
    EXPECT(rooms_stay());
    EXPECT(mst_try_put(pass, long_bytes, 32, NULL, 0, NULL, 0) == MST_ABSENT);
    EXPECT(mst_get(pass, long_bytes, 32, NULL, 0) == 0);
    EXPECT(mst_try_put(pass, long_bytes, 1, long_bytes, 64, NULL, 0) == MST_ABSENT);
    EXPECT(mst_get(pass, long_bytes, 1, room, 64) == 64);
    EXPECT(memcmp(room, long_bytes, 64) == 0);
}

/* The map of lengths(): its pairs take 69 and 36 bytes. */
static void ranges(mst_pass *pass) {
    mst_pair pair;
    fill_rooms();
    EXPECT(range_of(pass, NULL, 0, NULL, 0, 9, 104) == MST_SHORT_ROOM);
    EXPECT(count == 2 && length == 105 && is_untouched(pairs, sizeof pairs));
    EXPECT(range_of(pass, NULL, 0, NULL, 0, 9, 0) == MST_SHORT_ROOM);
    EXPECT(range_of(pass, NULL, 0, NULL, 0, 9, 105) == MST_OK);
    EXPECT(count == 2 && length == 105 && is_untouched(pairs + 105, sizeof pairs - 105));
    size_t next = mst_pair_at(pairs, 0, &pair);
    EXPECT(next == 69 && pair.key_length == 1 && pair.value_length == 64 && pair.key[0] == 1);
    EXPECT(memcmp(pair.value, long_bytes, 64) == 0);
    EXPECT(mst_pair_at(pairs, next, &pair) == 105);
    EXPECT(pair.key_length == 32 && pair.value_length == 0);
    EXPECT(memcmp(pair.key, long_bytes, 32) == 0);
    /* `from` is in the range, `to` is not */
    EXPECT(range_of(pass, long_bytes, 1, long_bytes, 32, 9, 69) == MST_OK);
    EXPECT(count == 1 && length == 69);
    EXPECT(range_of(pass, long_bytes, 2, NULL, 0, UINT32_MAX, 36) == MST_OK);
    EXPECT(count == 1 && length == 36);
    EXPECT(range_of(pass, NULL, 0, NULL, 0, 1, 69) == MST_OK);
    EXPECT(count == 1 && length == 69);
    fill_rooms();
    EXPECT(range_of(pass, NULL, 0, NULL, 0, 0, sizeof pairs) == MST_OK);
    EXPECT(count == 0 && length == 0 && is_untouched(pairs, sizeof pairs));
    EXPECT(range_of(pass, TEXT("b"), TEXT("a"), 9, 0) == MST_OK);
    EXPECT(count == 0 && length == 0);
}

/* The map of lengths(): a key of 1 byte with 64, and a key of 32 bytes with none. */
static void short_rooms(mst_pass *pass) {
    fill_rooms();
    EXPECT(mst_get(pass, long_bytes, 1, room, 63) == MST_SHORT_ROOM);
    EXPECT(mst_get(pass, long_bytes, 1, NULL, 0) == MST_SHORT_ROOM);
    EXPECT(mst_root(pass, root, 31) == MST_SHORT_ROOM);
    EXPECT(mst_next(pass, NULL, 0, key_room, 0, &length, room, 64) == MST_SHORT_ROOM);
    EXPECT(mst_next(pass, NULL, 0, key_room, 32, &length, room, 63) == MST_SHORT_ROOM);
    EXPECT(mst_next(pass, long_bytes, 1, key_room, 31, &length, room, 64) == MST_SHORT_ROOM);
    EXPECT(rooms_stay());
    EXPECT(mst_prove(pass, TEXT("b"), NULL, 0, &length) == MST_SHORT_ROOM);
    size_t told = length;
    EXPECT(told > 6 && told <= sizeof proof);
    EXPECT(mst_prove(pass, TEXT("b"), proof, told - 1, &length) == MST_SHORT_ROOM);
    EXPECT(length == told && is_untouched(proof, sizeof proof));
    EXPECT(mst_prove(pass, TEXT("b"), proof, told, &length) == MST_OK);
    EXPECT(length == told && is_untouched(proof + told, sizeof proof - told));
    EXPECT(mst_next(pass, NULL, 0, key_room, 1, &length, room, 64) == 64 && length == 1);
    EXPECT(is_untouched(key_room + 1, 31));
    EXPECT(mst_next(pass, long_bytes, 1, key_room, 32, &length, NULL, 0) == 0 && length == 32);
    EXPECT(mst_next(pass, long_bytes, 32, key_room, 32, &length, room, 64) == MST_ABSENT);
    /* written, although the old value did not fit, and the room is as it was */
    fill_rooms();
    EXPECT(mst_try_put(pass, long_bytes, 1, TEXT("new"), room, 63) == MST_SHORT_ROOM);
    EXPECT(is_untouched(room, sizeof room));
    EXPECT(mst_get(pass, long_bytes, 1, room, 64) == 3 && memcmp(room, "new", 3) == 0);
    EXPECT(mst_try_put(pass, long_bytes, 1, TEXT("next"), NULL, 0) == MST_SHORT_ROOM);
    EXPECT(mst_put(pass, long_bytes, 1, TEXT("newer"), room, 3) == MST_SHORT_ROOM);
    EXPECT(memcmp(room, "new", 3) == 0 && is_untouched(room + 3, 61));
    EXPECT(mst_put_within(pass, long_bytes, 1, TEXT("newer"), room, 0, 0) == MST_SHORT_ROOM);
    EXPECT(mst_get(pass, long_bytes, 1, room, 64) == 5 && memcmp(room, "newer", 5) == 0);
    EXPECT(mst_try_remove(pass, long_bytes, 1, room, 2) == MST_SHORT_ROOM);
    EXPECT(memcmp(room, "newer", 5) == 0);
    EXPECT(mst_get(pass, long_bytes, 1, room, 64) == MST_ABSENT);
}

/* ---- calls that wait, with a room and without one: they answer the same ---- */

/* How a write is called: with which room, and whether without end or with no time to wait. */
struct way {
    uint8_t *room;
    size_t room_length;
    int tries_once;
};

static int32_t puts_by(const struct way *way, mst_pass *pass, const uint8_t *key,
                       size_t key_length, const uint8_t *value, size_t value_length) {
    return way->tries_once ? mst_put_within(pass, key, key_length, value, value_length, way->room,
                                            way->room_length, 0)
                           : mst_put(pass, key, key_length, value, value_length, way->room,
                                     way->room_length);
}

static int32_t removes_by(const struct way *way, mst_pass *pass, const uint8_t *key,
                          size_t key_length) {
    return way->tries_once
        ? mst_remove_within(pass, key, key_length, way->room, way->room_length, 0)
        : mst_remove(pass, key, key_length, way->room, way->room_length);
}

static int has_version(mst_pass *pass, uint64_t wanted) {
    return mst_version(pass, &version) == MST_OK && version == wanted;
}

/* No write is made. */
static void refusals_by(const struct way *way, mst_pass *pass) {
    EXPECT(puts_by(way, pass, NULL, 0, TEXT("1")) == MST_BAD_KEY);
    EXPECT(puts_by(way, pass, long_bytes, 33, long_bytes, 65) == MST_BAD_KEY);
    EXPECT(puts_by(way, pass, TEXT("a"), long_bytes, 65) == MST_BAD_VALUE);
    EXPECT(removes_by(way, pass, NULL, 0) == MST_BAD_KEY);
    EXPECT(removes_by(way, pass, long_bytes, 33) == MST_BAD_KEY);
    EXPECT(mst_pin(pass) == MST_OK);
    EXPECT(puts_by(way, pass, TEXT("a"), TEXT("1")) == MST_WRONG_STATE);
    EXPECT(removes_by(way, pass, TEXT("a")) == MST_WRONG_STATE);
    EXPECT(mst_unpin(pass) == MST_OK && has_version(pass, 0));
}

/* A value of one length takes the place of one of another; each write makes a version. */
static void changes_by(const struct way *way, mst_pass *pass) {
    static const size_t of_values[] = {0, 1, 32, 64};
    static const uint8_t other_bytes[64] = {2};
    uint64_t writes = 0;
    for (int i = 0; i < 16; i++, writes += 5) {
        size_t old_length = of_values[i / 4], new_length = of_values[i % 4];
        int32_t of_old = (int32_t)old_length, of_new = (int32_t)new_length;
        EXPECT(puts_by(way, pass, TEXT("a"), other_bytes, old_length) == MST_ABSENT);
        EXPECT(puts_by(way, pass, TEXT("a"), long_bytes, new_length) == of_old);
        EXPECT(puts_by(way, pass, TEXT("a"), long_bytes, new_length) == of_new);
        EXPECT(mst_get(pass, TEXT("a"), room, 64) == of_new);
        EXPECT(memcmp(room, long_bytes, new_length) == 0);
        EXPECT(removes_by(way, pass, TEXT("a")) == of_new);
        EXPECT(mst_get(pass, TEXT("a"), room, 64) == MST_ABSENT);
        EXPECT(removes_by(way, pass, TEXT("a")) == MST_ABSENT);
        EXPECT(has_version(pass, writes + 5));
    }
}

/* Puts keys until one finds no rows: the first that is not there. */
static uint8_t fill_by(const struct way *way, mst_pass *pass) {
    uint8_t key = 'a';
    int32_t told;
    while ((told = puts_by(way, pass, &key, 1, TEXT("1"))) == MST_ABSENT)
        key++;
    EXPECT(told == MST_NO_FREE_ROWS && mst_get(pass, &key, 1, room, 64) == MST_ABSENT);
    return key;
}

static void null_rooms(void) {
    static const struct way ways[] = {
        {room, sizeof room, 0}, {room, sizeof room, 1}, {NULL, 0, 0}, {NULL, 0, 1}, {NULL, 1, 0},
        {NULL, SIZE_MAX, 1},
    };
    mst_pass pass = MST_PASS_CLOSED;
    uint8_t most = 0;
    for (size_t i = 0; i < sizeof ways / sizeof *ways; i++) {
        EXPECT(puts_by(&ways[i], &pass, TEXT("a"), TEXT("1")) == MST_CLOSED);
        EXPECT(removes_by(&ways[i], &pass, TEXT("a")) == MST_CLOSED);
        EXPECT(mst_open(1, 16, &pass, 1) == MST_OK);
        refusals_by(&ways[i], &pass);
        changes_by(&ways[i], &pass);
        uint8_t first = fill_by(&ways[i], &pass);
        EXPECT(i == 0 || first == most);
        most = first;
        EXPECT(mst_close(&pass) == MST_OK);
    }
}

int main(void) {
    mst_pass pass = MST_PASS_CLOSED;
    EXPECT(mst_open(1, 1000, &pass, 1) == MST_OK);
    longest_lengths(&pass);
    lengths(&pass);
    ranges(&pass);
    short_rooms(&pass);
    EXPECT(mst_close(&pass) == MST_OK);
    null_rooms();
    return ended("lengths");
}
