/*
 * The sharded map: shards of equal intervals, since the keys are random. Each seat has a reader of
 * its own; all of them share the writer by a group, so that a put is in a block with what waits.
 */
#include "mst_store.h"
#include "shards.h"

#define PROOF_MOST 65536

static mst_handle hands[1 + SEATS]; /* the writer, while no group has it, and the readers */
static mst_handle *const readers = &hands[1];
static mst_sharded_group *group;
static uint8_t proofs[SEATS][PROOF_MOST];

static void open_map(size_t keys, size_t shards) {
    static uint8_t splits[SPLITS_ROOM];
    size_t length = write_splits(splits, shards);
    int32_t told = mst_sharded_open(1, rows_of(keys, shards), splits, length, hands, 1 + SEATS);
    if (told != MST_OK)
        give_up("mst_sharded_open", told);
    told = mst_sharded_group_open(&hands[0], &group);
    if (told != MST_OK)
        give_up("mst_sharded_group_open", told);
}

static void close_map(void) {
    mst_sharded_group_close(group, &hands[0]);
    for (int hand = 0; hand <= SEATS; hand++)
        mst_sharded_close(&hands[hand]);
}

static void apply(const uint8_t *edits, size_t length) {
    size_t place, shard;
    uint64_t number;
    int32_t told = mst_sharded_group_apply(group, edits, length, &place, &shard, &number);
    if (told != MST_OK)
        give_up("mst_sharded_group_apply", told);
}

static void put(int seat, const uint8_t *key, const uint8_t *value) {
    uint8_t edit[MST_EDIT_LONGEST];
    (void)seat;
    apply(edit, mst_edit_put(edit, 0, key, KEY_LENGTH, value, VALUE_LENGTH));
}

static void put_all(const uint8_t *pairs, size_t count) {
    static uint8_t edits[PAIRS_MOST * MST_EDIT_LONGEST];
    size_t length = 0;
    for (size_t pair = 0; pair < count; pair++, pairs += PAIR_LENGTH)
        length = mst_edit_put(edits, length, pairs, KEY_LENGTH, pairs + KEY_LENGTH, VALUE_LENGTH);
    apply(edits, length);
}

static void get(int seat, const uint8_t *key) {
    uint8_t room[VALUE_LENGTH];
    int32_t told = mst_sharded_get(&readers[seat], key, KEY_LENGTH, room, sizeof room);
    if (told != VALUE_LENGTH)
        give_up("mst_sharded_get", told);
}

static void begin(int seat) {
    int32_t told = mst_sharded_snapshot(&readers[seat]);
    if (told != MST_OK)
        give_up("mst_sharded_snapshot", told);
}

static void end(int seat) {
    int32_t told = mst_sharded_release(&readers[seat]);
    if (told != MST_OK)
        give_up("mst_sharded_release", told);
}

static void root(int seat) {
    uint8_t digest[MST_ROOT_LENGTH];
    int32_t told = mst_sharded_root(&readers[seat], digest, sizeof digest);
    if (told != MST_ROOT_LENGTH)
        give_up("mst_sharded_root", told);
}

static void prove(int seat, const uint8_t *key) {
    size_t length;
    int32_t told = mst_sharded_prove(&readers[seat], key, KEY_LENGTH, proofs[seat], PROOF_MOST,
                                     &length);
    if (told != MST_OK)
        give_up("mst_sharded_prove", told);
}

const struct engine sharded_engine = {"sharded", open_map, close_map, put,  put_all,
                                      get,       begin,    end,       root, prove};
