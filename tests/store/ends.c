/*
 * Each call of a store at the ends of what it takes, with ample memory: the fewest and the most rows
 * and passes, the shortest and the longest keys and values, limits below and above what is there.
 * None is refused memory, and each returns what it has to. blocks_ends.c has sharded maps.
 */
#include "tests.h"
#include <stdlib.h>

#define PAIRS 1200

static uint8_t room[MST_VALUE_LONGEST], root[MST_ROOT_LENGTH], key_room[MST_KEY_LONGEST];
static uint8_t pairs[PAIRS * MST_PAIR_LONGEST], edits[PAIRS * MST_EDIT_LONGEST];
static uint8_t proof[1 << 20];

/* The keys with the least bytes and with the greatest, of the shortest and the longest kind. */
static const uint8_t least[MST_KEY_LONGEST] = {0};
static uint8_t greatest[MST_KEY_LONGEST], value[MST_VALUE_LONGEST];

static const uint32_t limits[] = {0, 1, 1000, 1001, UINT32_MAX};

/* The key of a number: two bytes, or as many as a key can have. */
static size_t numbered(uint8_t *key, uint32_t number, size_t length) {
    memset(key, 0, length);
    key[0] = (uint8_t)(1 + number / 256);
    key[1] = (uint8_t)number;
    return length;
}

/* The bytes of a batch that puts this many keys, each a key of 2 or of 32 bytes. */
static size_t batch_of(uint32_t count) {
    uint8_t key[MST_KEY_LONGEST];
    size_t length = 0;
    for (uint32_t i = 0; i < count; i++) {
        size_t of_key = numbered(key, i, i % 2 ? MST_KEY_LONGEST : 2);
        length = mst_edit_put(edits, length, key, of_key, value, i % 3 ? 0 : MST_VALUE_LONGEST);
    }
    return length;
}

static uint32_t fewer(uint32_t a, uint32_t b) {
    return a < b ? a : b;
}

/* ---- a store ---- */

/* A put, a get and a remove of a key with a value of no byte and of the most. */
static void changes(mst_pass *pass, const uint8_t *key, size_t length) {
    for (size_t of_value = 0; of_value <= MST_VALUE_LONGEST; of_value += MST_VALUE_LONGEST) {
        int32_t stored = (int32_t)of_value;
        EXPECT(mst_put(pass, key, length, value, of_value, room, sizeof room) == MST_ABSENT);
        EXPECT(mst_get(pass, key, length, room, sizeof room) == stored);
        EXPECT(mst_get(pass, key, length, room, of_value) == stored);
        EXPECT(mst_remove(pass, key, length, room, sizeof room) == stored);
    }
}

static void reads(mst_pass *pass, uint32_t count) {
    size_t found = 0, length = 0, of_key = 0;
    for (size_t i = 0; i < sizeof limits / sizeof *limits; i++) {
        EXPECT(mst_range(pass, NULL, 0, NULL, 0, limits[i], pairs, sizeof pairs, &found,
                         &length) == MST_OK);
        EXPECT(found == fewer(limits[i], count));
    }
    EXPECT(mst_range(pass, least, 1, greatest, sizeof greatest, UINT32_MAX, pairs, sizeof pairs,
                     &found, &length) == MST_OK && found == count);
    EXPECT((mst_next(pass, NULL, 0, key_room, sizeof key_room, &of_key, room, sizeof room) >= 0)
           == (count > 0));
    EXPECT(mst_next(pass, greatest, sizeof greatest, key_room, sizeof key_room, &of_key, room,
                    sizeof room) == MST_ABSENT);
    EXPECT(mst_root(pass, root, sizeof root) == MST_ROOT_LENGTH);
    EXPECT(mst_prove(pass, least, 1, proof, sizeof proof, &length) == MST_OK);
    EXPECT(mst_prove(pass, greatest, sizeof greatest, proof, sizeof proof, &length) == MST_OK);
}

/* A batch of this many pairs, what is read of it, and its migration to the other format. */
static void batch(mst_pass *pass, uint32_t format, uint32_t count) {
    size_t place = 0, length = batch_of(count);
    EXPECT(mst_apply(pass, edits, length, &place) == MST_OK);
    reads(pass, count);
    EXPECT(mst_pin(pass) == MST_OK);
    reads(pass, count);
    EXPECT(mst_unpin(pass) == MST_OK);
    EXPECT(mst_migrate(pass, 3 - format) == (int32_t)format);
    EXPECT(mst_migrate(pass, 3 - format) == (int32_t)(3 - format));
    reads(pass, count);
}

static void store(uint32_t format, uint32_t rows, size_t count) {
    mst_pass passes[MST_PASSES_MOST] = {MST_PASS_CLOSED};
    EXPECT(mst_open(format, rows, passes, count) == MST_OK);
    mst_pass *last = &passes[count - 1];
    reads(last, 0);
    changes(last, least, 1);
    changes(last, greatest, sizeof greatest);
    batch(last, format, rows == MST_ROWS_LEAST ? 0 : PAIRS);
    for (size_t i = 0; i < count; i++)
        EXPECT(mst_close(&passes[i]) == MST_OK);
}

int main(void) {
    static const size_t passes[] = {1, 8, 9, 32};
    memset(greatest, 255, sizeof greatest);
    memset(value, 7, sizeof value);
    for (size_t i = 0; i < sizeof passes / sizeof *passes; i++) {
        for (uint32_t format = 1; format <= 2; format++) {
            store(format, MST_ROWS_LEAST, passes[i]);
            store(format, MST_ROWS_MOST, passes[i]);
        }
    }
    return ended("ends");
}
