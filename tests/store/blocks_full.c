/*
 * Shards that have too few rows for a block, each in turn: the block is refused, names the shard,
 * and changes nothing in the shards that had made their parts, in the full one, or in those behind
 * it. Smaller blocks are made after it.
 *
 * No test has a directory with too few rows: for up to 29 hands, or up to 962 shards, it is opened
 * with two for each shard in each version that may be live at once, and a version takes one for
 * each shard and one for each node, of which there are no more than shards.
 */
#include "blocks.h"

#define SHARDS 3
#define MORE 9  /* how many puts the shard gets that is to be full; the others get one */
#define LEAST 12 /* fewer rows are too few: nine pairs with a node, and the one before with its own */
#define ENOUGH 64

static mst_handle hands[2];
static mst_handle *const writer = &hands[0], *const reader = &hands[1];

/* A put of a key of a shard: the splits are b and m. */
static void puts_in(int at, uint8_t second, uint8_t value) {
    uint8_t key[2] = {(uint8_t)("alz"[at]), second};
    length = mst_edit_put(edits, length, key, 2, &value, 1);
}

static int32_t one_in_each(uint8_t value) {
    length = 0;
    for (int at = 0; at < SHARDS; at++)
        puts_in(at, 0, value);
    return made_by(writer);
}

/* A put into each shard, and more into one of them. */
static int32_t more_in(int full) {
    length = 0;
    for (int at = 0; at < SHARDS; at++)
        puts_in(at, 0, 2);
    for (uint8_t second = 1; second < MORE; second++)
        puts_in(full, second, 2);
    place = shard = 77, number = 77;
    return made_by(writer);
}

/* Whether a snapshot is of the writer's last block, with this number, and each shard has its one
 * pair, with this value. */
static int has_one_in_each(uint64_t wanted, uint8_t value) {
    uint8_t pairs[SHARDS * MST_PAIR_LONGEST];
    size_t count = 0, bytes = 0;
    int is = mst_sharded_try_snapshot(reader) == MST_OK && has_number(reader, wanted)
        && has_number(writer, wanted) && have_one_root(writer, reader)
        && mst_sharded_range(reader, NULL, 0, NULL, 0, 99, pairs, sizeof pairs, &count, &bytes)
            == MST_OK
        && count == SHARDS;
    for (int at = 0; at < SHARDS; at++) {
        uint8_t key[2] = {(uint8_t)("alz"[at]), 0};
        is = is && mst_sharded_get(reader, key, 2, room, sizeof room) == 1 && room[0] == value;
    }
    return is && mst_sharded_release(reader) == MST_OK;
}

/* Whether shards of these rows have no room for the block. */
static int is_full(uint32_t format, uint32_t rows, int full) {
    EXPECT(mst_sharded_open(format, rows, TEXT("\1b\1m"), hands, 2) == MST_OK);
    EXPECT(one_in_each(1) == MST_OK && number == 1);
    int32_t told = more_in(full);
    EXPECT(told == MST_OK || told == MST_NO_FREE_ROWS);
    if (told == MST_NO_FREE_ROWS) {
        EXPECT(shard == (size_t)full && place == 77 && number == 77 && has_one_in_each(1, 1));
        EXPECT(more_in(full) == MST_NO_FREE_ROWS && has_one_in_each(1, 1));
        EXPECT(one_in_each(3) == MST_OK && number == 2 && has_one_in_each(2, 3));
        EXPECT(one_in_each(4) == MST_OK && number == 3 && has_one_in_each(3, 4));
    }
    EXPECT(mst_sharded_close(reader) == MST_OK && mst_sharded_close(writer) == MST_OK);
    return told != MST_OK;
}

int main(void) {
    for (uint32_t format = 1; format <= 2; format++)
        for (int full = 0; full < SHARDS; full++) {
            uint32_t rows = 4;
            while (rows < ENOUGH && is_full(format, rows, full))
                rows++;
            EXPECT(rows >= LEAST && rows < ENOUGH);
        }
    return ended("blocks_full");
}
