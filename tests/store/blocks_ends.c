/*
 * Each call of a sharded map at the ends of what it takes, with ample memory: the fewest and
 * the most shards, hands and rows, the shortest and the longest splits, keys and values, limits
 * below and above what is there. None is refused memory, and each returns what it has to.
 */
#include "blocks.h"

#define SHARDS_MOST (MST_SPLITS_MOST + 1)
#define ROWS 64

static uint8_t splits[SHARDS_MOST * MST_SPLIT_LONGEST], changes[SHARDS_MOST * MST_EDIT_LONGEST];
static uint8_t pairs[SHARDS_MOST * MST_PAIR_LONGEST], proof[1 << 20];

/* The keys with the least bytes and with the greatest, of the shortest and the longest kind. */
static const uint8_t least[1] = {0};
static uint8_t greatest[MST_KEY_LONGEST], value[MST_VALUE_LONGEST];

static const uint32_t limits[] = {0, 1, 1000, 1001, UINT32_MAX};

/* A map, and the hand that reads it, if there is one. */
struct map {
    mst_handle *writer, *reader;
    uint32_t shards, format;
    size_t of_split;
};

/* The least key of a shard: the split in front of it; of the first shard the least of all keys. */
static size_t first_key(const struct map *map, uint32_t at, uint8_t *key) {
    memset(key, 0, MST_KEY_LONGEST);
    if (at == 0)
        return sizeof least;
    key[0] = (uint8_t)(1 + (map->of_split == 1 ? at : at / 256));
    if (map->of_split > 1)
        key[1] = (uint8_t)at;
    return map->of_split;
}

/* How many bytes the value of a shard's pair has: none, or the most. */
static size_t value_length(uint32_t at) {
    return at % 2 ? 0 : MST_VALUE_LONGEST;
}

static size_t splits_of(const struct map *map) {
    uint8_t key[MST_KEY_LONGEST];
    size_t end = 0;
    for (uint32_t at = 1; at < map->shards; at++)
        end = mst_split(splits, end, key, first_key(map, at, key));
    return end;
}

/* Makes the next block, which has this number. */
static void makes(const struct map *map, size_t end, uint64_t wanted) {
    place = shard = 77, number = 77;
    EXPECT(mst_sharded_apply(map->writer, changes, end, &place, &shard, &number) == MST_OK);
    EXPECT(place == 77 && shard == 77 && number == wanted && has_number(map->writer, wanted));
}

/* A block of one edit in each shard: a put of its least key, or a remove. */
static void makes_in_each(const struct map *map, int puts, uint64_t wanted) {
    uint8_t key[MST_KEY_LONGEST];
    size_t end = 0;
    for (uint32_t at = 0; at < map->shards; at++) {
        size_t of_key = first_key(map, at, key);
        end = puts ? mst_edit_put(changes, end, key, of_key, value, value_length(at))
            : mst_edit_remove(changes, end, key, of_key);
    }
    makes(map, end, wanted);
}

/* The hand finds the pairs of the first shard and of the last, also into rooms that their values
 * fill; or none is there. */
static void finds(const struct map *map, mst_handle *by, int is_there) {
    uint8_t key[MST_KEY_LONGEST];
    uint32_t both[2] = {0, map->shards - 1};
    for (int i = 0; i < 2; i++) {
        size_t of_key = first_key(map, both[i], key), of_value = value_length(both[i]);
        int32_t wanted = is_there ? (int32_t)of_value : MST_ABSENT;
        EXPECT(mst_sharded_get(by, key, of_key, room, of_value) == wanted);
        EXPECT(mst_sharded_get(by, key, of_key, room, sizeof room) == wanted);
    }
    EXPECT(mst_sharded_get(by, greatest, sizeof greatest, room, sizeof room) == MST_ABSENT);
}

static void lists(mst_handle *snapshot, uint32_t count) {
    size_t found = 77, bytes = 77;
    for (size_t i = 0; i < sizeof limits / sizeof *limits; i++) {
        EXPECT(mst_sharded_range(snapshot, NULL, 0, NULL, 0, limits[i], pairs, sizeof pairs, &found,
                                 &bytes) == MST_OK);
        EXPECT(found == (limits[i] < count ? limits[i] : count));
    }
    EXPECT(mst_sharded_range(snapshot, least, sizeof least, greatest, sizeof greatest, UINT32_MAX,
                             pairs, sizeof pairs, &found, &bytes) == MST_OK && found == count);
    EXPECT(mst_sharded_range(snapshot, greatest, sizeof greatest, least, sizeof least, UINT32_MAX,
                             pairs, sizeof pairs, &found, &bytes) == MST_OK && found == 0);
}

static void follows(mst_handle *snapshot, uint32_t count) {
    uint8_t key[MST_KEY_LONGEST];
    size_t of_key = 77;
    int32_t first = mst_sharded_next(snapshot, NULL, 0, key, sizeof key, &of_key, room,
                                     sizeof room);
    EXPECT(first == (count ? (int32_t)value_length(0) : MST_ABSENT));
    EXPECT(mst_sharded_next(snapshot, greatest, sizeof greatest, key, sizeof key, &of_key, room,
                            sizeof room) == MST_ABSENT);
}

static void proves(const struct map *map) {
    size_t found = 77, bytes = 77;
    EXPECT(have_one_root(map->writer, map->reader));
    EXPECT(mst_sharded_directory(map->reader, pairs, sizeof pairs, &found, &bytes) == MST_OK);
    EXPECT(found == map->shards);
    EXPECT(mst_sharded_prove(map->reader, least, sizeof least, proof, sizeof proof, &bytes)
           == MST_OK);
    EXPECT(mst_sharded_prove(map->reader, greatest, sizeof greatest, proof, sizeof proof, &bytes)
           == MST_OK);
}

/* What the writer, the reader and its snapshot tell of a block, in which each shard has its pair,
 * or none has one. */
static void reads(const struct map *map, int is_there, uint64_t wanted) {
    uint32_t count = is_there ? map->shards : 0;
    finds(map, map->writer, is_there);
    if (map->reader == NULL)
        return;
    finds(map, map->reader, is_there);
    EXPECT(mst_sharded_snapshot(map->reader) == MST_OK && has_number(map->reader, wanted));
    EXPECT(mst_sharded_format(map->reader) == (int32_t)map->format);
    EXPECT(mst_sharded_shards(map->reader) == (int32_t)map->shards);
    finds(map, map->reader, is_there);
    lists(map->reader, count);
    follows(map->reader, count);
    proves(map);
    EXPECT(mst_sharded_release(map->reader) == MST_OK);
}

/* Blocks of all shards, of the greatest key alone, and of no edits. */
static void blocks(uint32_t shards, size_t of_split, uint32_t rows, size_t count) {
    mst_handle hands[MST_PASSES_MOST] = {MST_HANDLE_CLOSED};
    struct map map = {&hands[0], NULL, shards, 1 + shards % 2, of_split};
    if (count > 1)
        map.reader = &hands[count - 1];
    EXPECT(mst_sharded_open(map.format, rows, splits, splits_of(&map), hands, count) == MST_OK);
    EXPECT(mst_sharded_shards(map.writer) == (int32_t)shards);
    reads(&map, 0, 0);
    makes_in_each(&map, 1, 1);
    reads(&map, 1, 1);
    makes_in_each(&map, 0, 2);
    reads(&map, 0, 2);
    makes(&map, mst_edit_put(changes, 0, greatest, sizeof greatest, value, sizeof value), 3);
    EXPECT(mst_sharded_get(map.writer, greatest, sizeof greatest, room, sizeof room)
           == MST_VALUE_LONGEST);
    makes(&map, mst_edit_remove(changes, 0, greatest, sizeof greatest), 4);
    makes(&map, 0, 5);
    reads(&map, 0, 5);
    for (size_t i = 0; i < count; i++)
        EXPECT(mst_sharded_close(&hands[i]) == MST_OK);
}

int main(void) {
    static const uint32_t few_and_many[] = {1, 2, 64, 65, 1023, 1024};
    static const size_t hands[] = {1, 2, 8, 9, 32};
    memset(greatest, 255, sizeof greatest);
    memset(value, 7, sizeof value);
    for (size_t i = 0; i < sizeof hands / sizeof *hands; i++) {
        for (size_t j = 0; j < sizeof few_and_many / sizeof *few_and_many; j++) {
            uint32_t shards = few_and_many[j];
            blocks(shards, shards < 255 ? 1 : 2, ROWS, hands[i]);
            blocks(shards, MST_KEY_LONGEST, ROWS, hands[i]);
        }
        blocks(1, 1, MST_ROWS_LEAST, hands[i]);
        blocks(2, 1, MST_ROWS_MOST, hands[i]);
    }
    return ended("blocks_ends");
}
