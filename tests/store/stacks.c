/*
 * The stack that each call takes over a map of 25,000 random keys: less than the header says. Then
 * that of blocks over such a map in eight shards.
 */
#include "stack.h"
#include "tests.h"

#define KEYS 25000
#define LIMIT (16 * 1024)
#define BATCH 1000

static mst_pass pass = MST_PASS_CLOSED;
static uint8_t room[1 << 16], pairs[KEYS * MST_PAIR_LONGEST], edits[BATCH * MST_EDIT_LONGEST];
static size_t length, count, place, edits_length;
static int32_t told;

/* Spread keys: those of SplitMix64. */
static void key_bytes(uint8_t *key, uint64_t number) {
    uint64_t mixed = (number + 1) * 0x9E3779B97F4A7C15u;
    mixed = (mixed ^ (mixed >> 30)) * 0xBF58476D1CE4E5B9u;
    mixed = (mixed ^ (mixed >> 27)) * 0x94D049BB133111EBu;
    mixed ^= mixed >> 31;
    for (int i = 0; i < 8; i++)
        key[i] = (uint8_t)(mixed >> (8 * i));
}

static void *gets(void *key) {
    told = mst_get(&pass, key, 8, room, sizeof room);
    return NULL;
}

static void *nexts(void *key) {
    uint8_t found[32];
    told = mst_next(&pass, key, 8, found, sizeof found, &length, room, sizeof room);
    return NULL;
}

static void *ranges(void *unused) {
    told = mst_range(&pass, NULL, 0, NULL, 0, KEYS, pairs, sizeof pairs, &count, &length);
    return unused;
}

static void *proves(void *key) {
    told = mst_prove(&pass, key, 8, room, sizeof room, &length);
    return NULL;
}

static void *puts_one(void *key) {
    told = mst_try_put(&pass, key, 8, TEXT("2"), room, sizeof room);
    return NULL;
}

static void *removes(void *key) {
    told = mst_try_remove(&pass, key, 8, room, sizeof room);
    return NULL;
}

static void *migrates(void *unused) {
    told = mst_try_migrate(&pass, mst_format(&pass) == 1 ? 2 : 1);
    return unused;
}

static void *applies(void *unused) {
    told = mst_try_apply(&pass, edits, edits_length, &place);
    return unused;
}

/* ---- another map ---- */

static mst_pass another = MST_PASS_CLOSED;
static uint8_t root[MST_ROOT_LENGTH];

static int32_t ask(void *with, const uint8_t *key, size_t key_length, uint32_t number,
                   const uint8_t **piece, size_t *piece_length) {
    (void)with;
    int32_t made = mst_prove(&another, key, key_length, room, sizeof room, &length);
    return made != MST_OK ? made : mst_proof_piece(room, length, number, piece, piece_length);
}

static int32_t tell(void *with, const mst_difference *difference) {
    (void)with, (void)difference;
    count++;
    return MST_OK;
}

static void *differs(void *unused) {
    count = 0;
    told = mst_differing(&pass, root, sizeof root, ask, tell, NULL);
    return unused;
}

/* ---- a sharded map ---- */

static mst_handle hands[2] = {MST_HANDLE_CLOSED, MST_HANDLE_CLOSED};

static void *applies_block(void *unused) {
    size_t shard;
    uint64_t number;
    told = mst_sharded_apply(&hands[0], edits, edits_length, &place, &shard, &number);
    return unused;
}

static void *takes_and_releases(void *unused) {
    told = mst_sharded_try_snapshot(&hands[1]);
    if (told == MST_OK)
        told = mst_sharded_release(&hands[1]);
    return unused;
}

static void *gets_of_block(void *key) {
    told = mst_sharded_get(&hands[1], key, 8, room, sizeof room);
    return NULL;
}

static void *ranges_of_block(void *unused) {
    told = mst_sharded_range(&hands[1], NULL, 0, NULL, 0, KEYS, pairs, sizeof pairs, &count,
                             &length);
    return unused;
}

static void *proves_of_block(void *key) {
    told = mst_sharded_prove(&hands[1], key, 8, room, sizeof room, &length);
    return NULL;
}

static void *opens(void *unused) {
    uint8_t splits[7 * MST_SPLIT_LONGEST];
    size_t end = 0;
    for (uint8_t at = 1; at < 8; at++) {
        uint8_t key = (uint8_t)(32 * at);
        end = mst_split(splits, end, &key, 1);
    }
    told = mst_sharded_open(1, KEYS / 2, splits, end, hands, 2);
    return unused;
}

static mst_handle other = MST_HANDLE_CLOSED; /* the writer of a map of one shard */

static void *copies(void *unused) {
    size_t shard;
    uint64_t number;
    told = mst_sharded_copy(&hands[1], &other, &shard, &number);
    return unused;
}

/* ---- all calls ---- */

/* Fills a batch with new values of a number of keys, from one on. */
static void fill_batch(uint64_t first, size_t keys) {
    uint8_t key[8];
    edits_length = 0;
    for (uint64_t number = first; number < first + keys; number++) {
        key_bytes(key, number);
        edits_length = mst_edit_put(edits, edits_length, key, 8, TEXT("1"));
    }
}

/* The most that a call takes, of fifty keys. */
static void tells(const char *name, void *(*run)(void *)) {
    static uint8_t key[8];
    size_t alone = stack_of(no_call), most = 0;
    for (uint64_t number = 0; number < 50; number++) {
        key_bytes(key, number * 499);
        size_t all = stack_of_key(run, key);
        most = all > most ? all : most;
        EXPECT(told >= MST_ABSENT);
    }
    most -= alone < most ? alone : most;
    EXPECT(most < LIMIT);
    printf("%s: %zu bytes\n", name, most);
}

static void blocks(void) {
    tells("mst_sharded_open", opens);
    for (uint64_t number = 0; number < KEYS; number += BATCH) {
        fill_batch(number, BATCH);
        applies_block(NULL);
        EXPECT(told == MST_OK);
    }
    tells("a block of 1,000", applies_block);
    tells("a snapshot and its end", takes_and_releases);
    EXPECT(mst_sharded_snapshot(&hands[1]) == MST_OK);
    tells("get of a block", gets_of_block);
    tells("range of a block", ranges_of_block);
    tells("prove of a block", proves_of_block);
    EXPECT(mst_sharded_open(2, MST_ROWS_MOST, NULL, 0, &other, 1) == MST_OK);
    size_t copy = stack_of(copies) - stack_of(no_call);
    EXPECT(told == MST_OK && copy < LIMIT && mst_sharded_close(&other) == MST_OK);
    printf("copy of a block: %zu bytes\n", copy);
    EXPECT(mst_sharded_close(&hands[0]) == MST_OK && mst_sharded_close(&hands[1]) == MST_OK);
}

static void fill(mst_pass *to) {
    EXPECT(mst_open(1, MST_ROWS_MOST, to, 1) == MST_OK);
    for (uint64_t number = 0; number < KEYS; number += BATCH) {
        fill_batch(number, BATCH);
        EXPECT(mst_apply(to, edits, edits_length, &place) == MST_OK);
    }
}

int main(void) {
    fill(&pass);
    fill(&another);
    for (int formats = 0; formats < 2; formats++) {
        tells("get", gets);
        tells("next", nexts);
        tells("range", ranges);
        tells("prove", proves);
        tells("put", puts_one);
        tells("remove", removes);
        EXPECT(mst_root(&another, root, sizeof root) == MST_ROOT_LENGTH);
        tells("differing", differs);
        EXPECT(count == 50);
        fill_batch(0, 10);
        tells("a batch of 10", applies);
        fill_batch(0, BATCH);
        tells("a batch of 1,000", applies);
        migrates(NULL);
        EXPECT(told == formats + 1 && mst_migrate(&another, 2) == formats + 1);
    }
    size_t alone = stack_of(no_call), migration = stack_of(migrates) - alone;
    EXPECT(migration < LIMIT);
    printf("migrate: %zu bytes\n", migration);
    EXPECT(mst_close(&pass) == MST_OK && mst_close(&another) == MST_OK);
    blocks();
    return ended("stacks");
}
