/*
 * Random blocks of a sharded map against a plain array, with snapshots that keep their block while
 * the writer goes on: each answer is the array's, and the root digest is the one that the writer
 * had at that number.
 *
 *     blocks_walk [BLOCKS]
 */
#include "blocks.h"
#include "mst_verifier.h"
#include <stdlib.h>

#define HANDS 4   /* the writer, and three readers */
#define KEYS 256  /* keys are of one byte */
#define SHARDS 16 /* of the map of the random blocks */
#define PROOF_ROOM 65536

static uint8_t root[MST_ROOT_LENGTH], proof[PROOF_ROOM], key_room[MST_KEY_LONGEST];
static uint8_t pairs[KEYS * MST_PAIR_LONGEST];

static uint64_t state = 88172645463325252u;

static uint32_t random_below(uint32_t limit) {
    state ^= state << 13;
    state ^= state >> 7;
    state ^= state << 17;
    return (uint32_t)(state >> 32) % limit;
}

/* What a block leaves: the value of each key, -1 where there is no such key, and what it has. */
struct block {
    int values[KEYS];
    uint64_t number;
    uint8_t root[MST_ROOT_LENGTH];
};

static struct block now, pinned[HANDS];
static int pins[HANDS];
static mst_handle hands[HANDS];

static int is_value(int32_t told, const uint8_t *bytes, const struct block *block, int key) {
    int value = block->values[key];
    return value < 0 ? told == MST_ABSENT : told == 1 && bytes[0] == value;
}

/* An edit of a key at random, which the array makes too. */
static void random_edit(void) {
    uint8_t key = (uint8_t)random_below(KEYS), value = (uint8_t)random_below(256);
    int is_put = random_below(3) > 0;
    length = is_put ? mst_edit_put(edits, length, &key, 1, &value, 1)
        : mst_edit_remove(edits, length, &key, 1);
    now.values[key] = is_put ? value : -1;
}

/* One block, of no edits too, after which the number is one more. */
static void makes_block(void) {
    uint32_t count = random_below(MOST + 1);
    for (length = 0; count > 0; count--)
        random_edit();
    place = shard = 77;
    EXPECT(made_by(&hands[0]) == MST_OK && place == 77 && shard == 77);
    EXPECT(number == ++now.number && has_number(&hands[0], number));
    EXPECT(mst_sharded_root(&hands[0], now.root, MST_ROOT_LENGTH) == MST_ROOT_LENGTH);
}

/* All keys of the current map, each read from its shard. */
static void reads_now(mst_handle *reader) {
    for (int at = 0; at < KEYS; at++) {
        uint8_t key = (uint8_t)at;
        EXPECT(is_value(mst_sharded_get(reader, &key, 1, room, sizeof room), room, &now, at));
    }
}

/*
 * The pairs of a snapshot from a key on, below another or all, at most as many as a limit, and the
 * next one above the first key.
 */
static void lists(mst_handle *then, const struct block *block, int first) {
    size_t count = 0, bytes = 0, begins = 0, next_length = 77;
    uint8_t from = (uint8_t)first, to = (uint8_t)random_below(KEYS);
    size_t of_to = random_below(2);
    uint32_t limit = random_below(2) ? UINT32_MAX : random_below(20);
    EXPECT(mst_sharded_range(then, &from, 1, &to, of_to, limit, pairs, sizeof pairs, &count, &bytes)
           == MST_OK);
    EXPECT(count <= limit);
    for (int key = first; key < (of_to ? to : KEYS) && limit > 0; key++) {
        mst_pair pair;
        if (block->values[key] < 0)
            continue;
        limit--;
        EXPECT(begins < bytes);
        begins = mst_pair_at(pairs, begins, &pair);
        EXPECT(pair.key_length == 1 && pair.key[0] == key
               && is_value((int32_t)pair.value_length, pair.value, block, key));
        count--;
    }
    EXPECT(count == 0 && begins == bytes);
    int key = first + 1;
    while (key < KEYS && block->values[key] < 0)
        key++;
    int32_t told = mst_sharded_next(then, &from, 1, key_room, 32, &next_length, room, 64);
    EXPECT(key < KEYS ? next_length == 1 && key_room[0] == key && is_value(told, room, block, key)
           : told == MST_ABSENT && next_length == 77);
}

/* Whether a snapshot has as many pairs as its block. */
static int has_len(mst_handle *then, const struct block *block) {
    uint64_t told = 77, count = 0;
    for (int key = 0; key < KEYS; key++)
        count += block->values[key] >= 0;
    return mst_sharded_len(then, &told) == MST_OK && told == count;
}

/* Each answer of a snapshot is that of its block, with the root digest that the writer had then. */
static void audits(uint32_t format, mst_handle *then, const struct block *block) {
    size_t count = 0, bytes = 0;
    EXPECT(has_number(then, block->number) && mst_sharded_format(then) == (int32_t)format);
    EXPECT(has_len(then, block));
    EXPECT(mst_sharded_root(then, root, sizeof root) == MST_ROOT_LENGTH
           && memcmp(root, block->root, sizeof root) == 0);
    for (int at = 0; at < KEYS; at += 1 + (int)random_below(32)) {
        uint8_t key = (uint8_t)at;
        EXPECT(is_value(mst_sharded_get(then, &key, 1, room, sizeof room), room, block, at));
        EXPECT(mst_sharded_prove(then, &key, 1, proof, sizeof proof, &bytes) == MST_OK);
        int32_t told = mst_verify_sharded(format, root, sizeof root, &key, 1, proof, bytes, room,
                                          sizeof room);
        EXPECT(is_value(told, room, block, at));
    }
    EXPECT(mst_sharded_directory(then, pairs, sizeof pairs, &count, &bytes) == MST_OK);
    EXPECT(count == SHARDS);
}

/* A reader takes a snapshot of the last block, or ends one; a snapshot is looked at. */
static void reads(uint32_t format) {
    int at = 1 + (int)random_below(HANDS - 1);
    mst_handle *hand = &hands[at];
    if (!pins[at] && random_below(2)) {
        reads_now(hand);
        EXPECT(mst_sharded_try_snapshot(hand) == MST_OK);
        pinned[at] = now;
        pins[at] = 1;
    }
    if (pins[at]) {
        audits(format, hand, &pinned[at]);
        lists(hand, &pinned[at], (int)random_below(KEYS));
    }
    if (pins[at] && random_below(4) == 0) {
        EXPECT(mst_sharded_release(hand) == MST_OK);
        pins[at] = 0;
    }
}

/* A block that gives a key this value, or removes it if that is -1. */
static void sets(mst_handle *by, int key, int value) {
    uint8_t own = (uint8_t)key, byte = (uint8_t)value;
    length = value < 0 ? mst_edit_remove(edits, 0, &own, 1)
        : mst_edit_put(edits, 0, &own, 1, &byte, 1);
    EXPECT(made_by(by) == MST_OK);
}

/* The root digest is another while a key has another value, or none, and then the same again. */
static void has_a_root_of_each_pair(mst_handle *of) {
    for (int key = 0; key < KEYS; key++) {
        int value = now.values[key];
        sets(of, key, value < 0 ? 1 : key % 2 ? -1 : value ^ 1);
        EXPECT(!have_one_root(&hands[0], of));
        sets(of, key, value);
        EXPECT(have_one_root(&hands[0], of));
    }
}

/* Another map, to which other blocks have led, has the same root digest once it has these pairs. */
static void has_the_root_of_its_pairs(uint32_t format, const uint8_t *splits, size_t end) {
    mst_handle other = MST_HANDLE_CLOSED;
    EXPECT(mst_sharded_open(format, 512, splits, end, &other, 1) == MST_OK);
    for (int key = KEYS - 1; key >= 0; key -= MOST / 2) {
        length = 0;
        for (int at = key; at > key - MOST / 2; at--) {
            uint8_t own = (uint8_t)at, value = (uint8_t)now.values[at];
            length = mst_edit_put(edits, length, &own, 1, &value, 1);
            if (now.values[at] < 0)
                length = mst_edit_remove(edits, length, &own, 1);
        }
        EXPECT(made_by(&other) == MST_OK);
    }
    EXPECT(have_one_root(&hands[0], &other));
    has_a_root_of_each_pair(&other);
    EXPECT(mst_sharded_close(&other) == MST_OK);
}

static void against_an_array(uint32_t format, long blocks) {
    uint8_t splits[(SHARDS - 1) * MST_SPLIT_LONGEST];
    size_t end = 0;
    for (uint8_t at = 1; at < SHARDS; at++) {
        uint8_t key = (uint8_t)(16 * at);
        end = mst_split(splits, end, &key, 1);
    }
    now.number = 0;
    for (int at = 0; at < KEYS; at++)
        now.values[at] = -1;
    EXPECT(mst_sharded_open(format, 256, splits, end, hands, HANDS) == MST_OK);
    EXPECT(has_number(&hands[0], 0));
    EXPECT(mst_sharded_root(&hands[0], now.root, MST_ROOT_LENGTH) == MST_ROOT_LENGTH);
    for (long made = 0; made < blocks; made++) {
        reads(format);
        makes_block();
    }
    has_the_root_of_its_pairs(format, splits, end);
    for (int at = 0; at < HANDS; at++) {
        EXPECT(mst_sharded_close(&hands[at]) == MST_OK);
        pins[at] = 0;
    }
}

/* A map that was led to by other blocks has the same root digest, whatever its rows. */
static void one_root_for_one_content(void) {
    mst_handle one = MST_HANDLE_CLOSED, other = MST_HANDLE_CLOSED;
    EXPECT(mst_sharded_open(1, 16, TEXT("\1b"), &one, 1) == MST_OK);
    EXPECT(mst_sharded_open(1, 32, TEXT("\1b"), &other, 1) == MST_OK);
    length = 0;
    puts_edit("a", "1");
    puts_edit("c", "2");
    EXPECT(made_by(&one) == MST_OK);
    length = 0;
    puts_edit("c", "2");
    puts_edit("b", "3");
    EXPECT(made_by(&other) == MST_OK && !have_one_root(&one, &other));
    length = 0;
    puts_edit("a", "1");
    removes_edit("b");
    EXPECT(made_by(&other) == MST_OK && number == 2 && have_one_root(&one, &other));
    EXPECT(mst_sharded_close(&one) == MST_OK && mst_sharded_close(&other) == MST_OK);
}

int main(int count, char **words) {
    long blocks = count > 1 ? atol(words[1]) : 2000;
    one_root_for_one_content();
    against_an_array(1, blocks);
    against_an_array(2, blocks);
    return ended("blocks_walk");
}
