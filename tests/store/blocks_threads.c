/*
 * Threads at a sharded map: one writer, and readers that take snapshots while it publishes.
 * Each block gives every key the block's number, so a snapshot that has two values shows two
 * blocks. Number and root digest of each snapshot are what the writer noted, and the numbers that
 * a reader sees never fall.
 *
 *     blocks_threads [BLOCKS]
 */
#include "mst_verifier.h"
#include "tests.h"
#include <pthread.h>
#include <stdlib.h>

enum { HANDS = 4, KEYS = 24, SHARDS = 8, BYTES = 4, MOST_BLOCKS = 20000, PROOF_ROOM = 65536 };

/* Eight shards: the keys begin with the bytes 1 to 8. */
#define SPLITS "\1\2\1\3\1\4\1\5\1\6\1\7\1\10"

static mst_handle hands[HANDS];
static uint8_t proofs[HANDS][PROOF_ROOM];
static uint32_t blocks = 5000;

/* What the writer notes of each block, once it is made; under the lock. */
static pthread_mutex_t lock = PTHREAD_MUTEX_INITIALIZER;
static pthread_cond_t one_more = PTHREAD_COND_INITIALIZER;
static uint8_t roots[MOST_BLOCKS + 1][MST_ROOT_LENGTH];
static uint64_t noted;
static int is_over;

static void key_of(uint32_t at, uint8_t *key) {
    key[0] = (uint8_t)(1 + at % SHARDS);
    key[1] = (uint8_t)(at / SHARDS);
}

static void value_of(uint64_t number, uint8_t *value) {
    for (int byte = 0; byte < BYTES; byte++)
        value[byte] = (uint8_t)(number >> 8 * byte);
}

/* ---- the writer ---- */

static int note(mst_handle *writer, uint64_t number) {
    uint8_t root[MST_ROOT_LENGTH];
    if (mst_sharded_root(writer, root, sizeof root) != MST_ROOT_LENGTH)
        return 0;
    pthread_mutex_lock(&lock);
    memcpy(roots[number], root, sizeof root);
    noted = number;
    pthread_cond_broadcast(&one_more);
    pthread_mutex_unlock(&lock);
    return 1;
}

static int32_t makes_block(mst_handle *writer, uint64_t number) {
    uint8_t edits[KEYS * MST_EDIT_LONGEST], key[2], value[BYTES];
    size_t length = 0, place = 77, shard = 77;
    uint64_t told = 77;
    value_of(number, value);
    for (uint32_t at = 0; at < KEYS; at++) {
        key_of(at, key);
        length = mst_edit_put(edits, length, key, sizeof key, value, sizeof value);
    }
    int32_t made = mst_sharded_apply(writer, edits, length, &place, &shard, &told);
    return made == MST_OK && told != number ? MST_ABSENT : made;
}

static void *writes(void *by) {
    void *failed = NULL;
    for (uint64_t number = 1; number <= blocks && failed == NULL; number++)
        if (makes_block(by, number) != MST_OK || !note(by, number))
            failed = by;
    pthread_mutex_lock(&lock);
    is_over = 1;
    pthread_cond_broadcast(&one_more);
    pthread_mutex_unlock(&lock);
    return failed;
}

/* ---- readers ---- */

/* Whether the writer has noted this root digest at the number. */
static int is_noted(uint64_t number, const uint8_t *root) {
    pthread_mutex_lock(&lock);
    while (noted < number && !is_over)
        pthread_cond_wait(&one_more, &lock);
    int is = noted >= number && memcmp(roots[number], root, MST_ROOT_LENGTH) == 0;
    pthread_mutex_unlock(&lock);
    return is;
}

/* Whether the snapshot has the number at each key; of one key by a proof. */
static int has_one_block(mst_handle *by, uint64_t number, const uint8_t *root) {
    uint8_t key[2], value[MST_VALUE_LONGEST], wanted[BYTES], *proof = proofs[by - hands];
    size_t length = 0;
    int32_t as = number == 0 ? MST_ABSENT : BYTES;
    value_of(number, wanted);
    for (uint32_t at = 0; at < KEYS; at++) {
        key_of(at, key);
        if (mst_sharded_get(by, key, sizeof key, value, sizeof value) != as
            || (number > 0 && memcmp(value, wanted, sizeof wanted) != 0))
            return 0;
    }
    key_of((uint32_t)(number % KEYS), key);
    return mst_sharded_prove(by, key, sizeof key, proof, PROOF_ROOM, &length) == MST_OK
        && mst_verify_sharded(1, root, MST_ROOT_LENGTH, key, sizeof key, proof, length, value,
                              sizeof value) == as
        && (number == 0 || memcmp(value, wanted, sizeof wanted) == 0);
}

static int is_last(uint64_t number) {
    pthread_mutex_lock(&lock);
    int is = is_over && number >= noted;
    pthread_mutex_unlock(&lock);
    return is;
}

static void *reads(void *by) {
    uint8_t root[MST_ROOT_LENGTH];
    uint64_t number = 0, before = 0;
    do {
        if (mst_sharded_snapshot(by) != MST_OK || mst_sharded_number(by, &number) != MST_OK
            || mst_sharded_root(by, root, sizeof root) != MST_ROOT_LENGTH || number < before)
            return by;
        if (!has_one_block(by, number, root) || !is_noted(number, root))
            return by;
        if (mst_sharded_release(by) != MST_OK)
            return by;
        before = number;
    } while (!is_last(number));
    return NULL;
}

int main(int count, char **words) {
    pthread_t threads[HANDS];
    if (count > 1)
        blocks = (uint32_t)atol(words[1]);
    if (blocks > MOST_BLOCKS)
        blocks = MOST_BLOCKS;
    EXPECT(mst_sharded_open(1, 256, TEXT(SPLITS), hands, HANDS) == MST_OK);
    EXPECT(mst_sharded_shards(&hands[0]) == SHARDS && note(&hands[0], 0));
    for (int at = 0; at < HANDS; at++)
        EXPECT(pthread_create(&threads[at], NULL, at == 0 ? writes : reads, &hands[at]) == 0);
    for (int at = 0; at < HANDS; at++) {
        void *failed = NULL;
        EXPECT(pthread_join(threads[at], &failed) == 0 && failed == NULL);
    }
    EXPECT(noted == blocks);
    for (int at = 0; at < HANDS; at++)
        EXPECT(mst_sharded_close(&hands[at]) == MST_OK);
    return ended("blocks_threads");
}
