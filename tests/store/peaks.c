/*
 * The most memory that a call holds at any time in addition to what the store had before, at 1,000
 * and at 28,000 keys, the most of which the trees of both formats have room, that a read holds at
 * 60,000, and a proof in a node of 1,000 entries. Nothing of it stays: only mst_open takes what
 * mst_close gives back.
 */
#include "heap.h"
#include "tests.h"

#define ROWS 65535
#define ROW 600   /* bytes for each row, to open a store: its words twice, and the desk */
#define PROOF 32768
#define PAIR 256  /* bytes for each pair of a range, while its list grows */
#define MOVE 512  /* and of a migration, for that list and the tree */
#define STRIDE 97 /* how many keys are passed over from one proof to the next */
#define ENTRY 256 /* bytes for each entry of a node that is proved */
#define EDIT 600  /* bytes for each edit of a batch in the empty map */
/* For a batch in another map a byte for each row, and the less of two: */
#define TOUCH 49152 /* bytes for each edit, for the nodes from the top to it */
#define ENTRIES 400 /* bytes for each edit and each pair of the map */

static mst_pass pass = MST_PASS_CLOSED;
static uint8_t room[8 << 20];

/* The key of a number. */
static const uint8_t *key_of(uint32_t number) {
    static uint8_t key[4];
    for (int i = 0; i < 4; i++)
        key[i] = (uint8_t)(number >> (24 - 8 * i));
    return key;
}

static int32_t opens(uint32_t rows) {
    return mst_open(1, rows, &pass, 1);
}

static int32_t closes(uint32_t unused) {
    (void)unused;
    return mst_close(&pass);
}

static int32_t proves(uint32_t number) {
    size_t length = 0;
    return mst_prove(&pass, key_of(number), 4, room, sizeof room, &length);
}

static int32_t ranges(uint32_t most) {
    size_t count = 0, length = 0;
    int32_t told = mst_range(&pass, NULL, 0, NULL, 0, most, room, sizeof room, &count, &length);
    return told == MST_OK && count != most ? MST_ABSENT : told;
}

static int32_t migrates(uint32_t to) {
    return mst_try_migrate(&pass, to) < 0;
}

/* The number of the first key of the next batch, and the step to each other one. */
static uint32_t first = 0, step = 1;

/* A batch of a number of puts of new values. */
static int32_t applies(uint32_t edits) {
    static uint8_t value[32];
    size_t length = 0, place;
    value[0]++;
    for (uint32_t i = 0; i < edits; i++)
        length = mst_edit_put(room, length, key_of(first + i * step), 4, value, sizeof value);
    return mst_try_apply(&pass, room, length, &place);
}

/* Whether a call with this argument ends well and holds at most so many bytes more than before. */
static void takes(int32_t (*call)(uint32_t), uint32_t argument, size_t most, int stays) {
    size_t before = held;
    peak = held;
    EXPECT(call(argument) == MST_OK);
    EXPECT(peak - before <= most);
    EXPECT(stays || held == before);
}

static void puts_key(uint32_t number) {
    EXPECT(mst_put(&pass, key_of(number), 4, TEXT("a value of 32 bytes, as in a log"), room, 64)
           == MST_ABSENT);
}

/* No pair, some and all; and proofs of some of twice as many keys, half of which are not there. */
static void reads(uint32_t keys) {
    takes(ranges, 0, 0, 0);
    takes(ranges, 100, 100 * PAIR, 0);
    takes(ranges, keys, keys * (size_t)PAIR, 0);
    for (uint32_t number = 0; number < 2 * keys; number += STRIDE)
        takes(proves, number, PROOF, 0);
}

/* By a free pass and by a pinned one, of more keys than a migration finds room for. */
static void reads_of_many(uint32_t keys) {
    EXPECT(opens(ROWS) == MST_OK);
    for (uint32_t number = 0; number < keys; number++)
        puts_key(number);
    reads(keys);
    EXPECT(mst_pin(&pass) == MST_OK);
    reads(keys);
    EXPECT(mst_close(&pass) == MST_OK && live == 0);
}

/* Batches of a number of edits in a map of a number of keys, all over it, and side by side. */
static void batches_of(uint32_t edits, uint32_t keys) {
    size_t touch = edits * (size_t)TOUCH, all = (keys + edits) * (size_t)ENTRIES;
    size_t most = ROWS + (touch < all ? touch : all);
    uint32_t apart = keys / edits;
    for (uint32_t part = 0; part < 10; part++) {
        first = part * apart / 10, step = apart;
        takes(applies, edits, most, 0);
        first = part * (keys - edits) / 10, step = 1;
        takes(applies, edits, most, 0);
    }
    first = 0, step = 1;
}

static void batches(uint32_t keys) {
    static const uint32_t sizes[] = {2, 3, 10, 30, 100, 300, 1000};
    for (size_t i = 0; i < sizeof sizes / sizeof *sizes; i++)
        batches_of(sizes[i], keys);
}

/* Batches in the empty map, in both formats. */
static void loads_of(uint32_t keys) {
    for (uint32_t format = 1; format <= 2; format++) {
        EXPECT(mst_open(format, ROWS, &pass, 1) == MST_OK);
        takes(applies, keys, keys * (size_t)EDIT, 0);
        EXPECT(mst_close(&pass) == MST_OK && live == 0);
    }
}

/* A store with a number of keys, free and pinned, in both formats. */
static void calls(uint32_t keys) {
    takes(opens, ROWS, ROWS * (size_t)ROW, 1);
    for (uint32_t number = 0; number < keys; number++)
        puts_key(number);
    reads(keys);
    takes(migrates, 2, keys * (size_t)MOVE, 0);
    EXPECT(mst_pin(&pass) == MST_OK);
    reads(keys);
    EXPECT(mst_unpin(&pass) == MST_OK);
    batches(keys);
    takes(migrates, 1, keys * (size_t)MOVE, 0);
    batches(keys);
    takes(closes, 0, 0, 1);
    EXPECT(held == 0 && live == 0);
    loads_of(keys);
}

/* Whether the key of a number has layer 0: that of the node when it is the only key. */
static int is_low(uint32_t number) {
    size_t length = 0;
    puts_key(number);
    EXPECT(mst_prove(&pass, key_of(number), 4, room, sizeof room, &length) == MST_OK);
    int layer = room[7];
    EXPECT(mst_remove(&pass, key_of(number), 4, room, 64) == 32);
    return layer == 0;
}

/* A node of 1,000 entries: keys of layer 0 have no other key between them that stands above. */
static void wide_node(void) {
    uint32_t low[1000], number = 0;
    EXPECT(opens(4) == MST_OK);
    for (int found = 0; found < 1000; number++)
        if (is_low(number))
            low[found++] = number;
    EXPECT(mst_close(&pass) == MST_OK && opens(4096) == MST_OK);
    for (int i = 0; i < 1000; i++)
        puts_key(low[i]);
    takes(proves, low[500], 1000 * ENTRY, 0);
    EXPECT(mst_close(&pass) == MST_OK && live == 0);
}

int main(void) {
    count_from(-1);
    calls(1000);
    calls(28000);
    reads_of_many(60000);
    /* the lists of this many have just grown */
    loads_of(33);
    loads_of(1025);
    loads_of(16385);
    wide_node();
    counting = 0;
    return ended("peaks");
}
