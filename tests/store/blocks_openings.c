/*
 * Openings of sharded maps: those that are refused, hands that held something before, splits that
 * are none, and the most shards.
 */
#include "blocks.h"

static void openings(void) {
    mst_handle hands[33] = {MST_HANDLE_CLOSED};
    EXPECT(sizeof(mst_handle) == 256);
    EXPECT(mst_sharded_open(3, 3, TEXT("\0"), hands, 1) == MST_UNKNOWN_FORMAT);
    EXPECT(mst_sharded_open(1, 3, TEXT("\0"), hands, 1) == MST_BAD_SPLITS);
    EXPECT(mst_sharded_open(1, 3, NULL, 0, hands, 1) == MST_BAD_SHAPE);
    EXPECT(mst_sharded_open(1, 65536, NULL, 0, hands, 1) == MST_BAD_SHAPE);
    EXPECT(mst_sharded_open(1, 16, NULL, 0, NULL, 0) == MST_BAD_SHAPE);
    EXPECT(mst_sharded_open(1, 16, NULL, 0, hands, 33) == MST_BAD_SHAPE);
    /* of too many hands none is looked at, and the other refusals still come first */
    EXPECT(mst_sharded_open(1, 16, NULL, 0, NULL, SIZE_MAX) == MST_BAD_SHAPE);
    EXPECT(mst_sharded_open(1, 16, TEXT("\0"), NULL, 33) == MST_BAD_SPLITS);
    EXPECT(mst_sharded_open(3, 16, NULL, 0, NULL, 33) == MST_UNKNOWN_FORMAT);
    EXPECT(mst_sharded_open(2, 4, TEXT("\1b"), hands, 32) == MST_OK && hands[32].at == NULL);
    for (int i = 0; i < 32; i++)
        EXPECT(mst_sharded_shards(&hands[i]) == 2);
    EXPECT(has_number(&hands[0], 0));
    /* a second opening closes what the hands held, and so does one that is refused */
    EXPECT(mst_sharded_open(1, 16, NULL, 0, hands, 2) == MST_OK);
    EXPECT(mst_sharded_shards(&hands[1]) == 1 && mst_sharded_shards(&hands[2]) == 2);
    EXPECT(mst_sharded_open(1, 3, NULL, 0, hands, 2) == MST_BAD_SHAPE);
    EXPECT(hands[0].at == NULL && hands[1].at == NULL);
    for (int i = 2; i < 32; i++)
        EXPECT(mst_sharded_close(&hands[i]) == MST_OK);
}

/* What an opening with these splits returns. Its map is closed again. */
static int32_t opened_with(uint32_t rows, const uint8_t *splits, size_t size) {
    mst_handle hand = MST_HANDLE_CLOSED;
    int32_t told = mst_sharded_open(1, rows, splits, size, &hand, 1);
    EXPECT(mst_sharded_close(&hand) == (told == MST_OK ? MST_OK : MST_CLOSED));
    return told;
}

static void splits(void) {
    static const uint8_t long_split[34] = {33, 1};
    uint8_t one[MST_SPLIT_LONGEST];
    EXPECT(opened_with(16, NULL, 0) == MST_OK);
    EXPECT(opened_with(16, TEXT("\1b\2bb\1c")) == MST_OK);
    EXPECT(opened_with(16, TEXT("\1a\2a\0\1b")) == MST_OK);
    EXPECT(opened_with(16, TEXT("\2\0\0")) == MST_OK);
    /* a length of no key, a key cut short, and bytes left over */
    EXPECT(opened_with(16, TEXT("\0")) == MST_BAD_SPLITS);
    EXPECT(opened_with(16, TEXT("\1b\0")) == MST_BAD_SPLITS);
    EXPECT(opened_with(16, long_split, 34) == MST_BAD_SPLITS);
    EXPECT(opened_with(16, TEXT("\2b")) == MST_BAD_SPLITS);
    EXPECT(opened_with(16, TEXT("\1b\1")) == MST_BAD_SPLITS);
    EXPECT(mst_split(one, 0, long_split, 33) == 1 && opened_with(16, one, 1) == MST_BAD_SPLITS);
    /* keys that do not rise, or not from above the least */
    EXPECT(opened_with(16, TEXT("\1b\1b")) == MST_BAD_SPLITS);
    EXPECT(opened_with(16, TEXT("\1b\1a")) == MST_BAD_SPLITS);
    EXPECT(opened_with(16, TEXT("\1a\1c\1b")) == MST_BAD_SPLITS);
    EXPECT(opened_with(16, TEXT("\2bb\1b")) == MST_BAD_SPLITS);
    EXPECT(opened_with(16, TEXT("\1\0")) == MST_BAD_SPLITS);
    /* bad splits are told before a bad shape */
    EXPECT(opened_with(3, TEXT("\1b\1c")) == MST_BAD_SHAPE);
    EXPECT(opened_with(3, TEXT("\1\0")) == MST_BAD_SPLITS);
    EXPECT(opened_with(65536, TEXT("\1\0")) == MST_BAD_SPLITS);
}

static void many_shards(void) {
    static uint8_t many[1024 * 3];
    mst_handle hands[2] = {MST_HANDLE_CLOSED, MST_HANDLE_CLOSED};
    size_t end = 0;
    for (uint32_t i = 0; i < 1024; i++) {
        uint8_t key[2] = {(uint8_t)(1 + i / 256), (uint8_t)i};
        end = mst_split(many, end, key, 2);
    }
    EXPECT(mst_sharded_open(1, 4, many, end, hands, 2) == MST_BAD_SPLITS);
    EXPECT(mst_sharded_open(1, 4, many, end - 3, hands, 2) == MST_OK);
    EXPECT(mst_sharded_shards(&hands[0]) == 1024 && mst_sharded_snapshot(&hands[1]) == MST_OK);
    EXPECT(has_number(&hands[1], 0) && have_one_root(&hands[0], &hands[1]));
    EXPECT(mst_sharded_close(&hands[0]) == MST_OK && mst_sharded_close(&hands[1]) == MST_OK);
}

int main(void) {
    openings();
    splits();
    many_shards();
    return ended("blocks_openings");
}
