/* The store of mst_store.h. */
#include "engine.h"
#include "mst_store.h"

static mst_pass passes[SEATS];
static uint8_t rooms[SEATS][RANGE_PAIRS * MST_PAIR_LONGEST], proofs[SEATS][1 << 20];
static uint8_t edits[BATCH_MOST * MST_EDIT_LONGEST];
static size_t edits_length;

static void open_store(void) {
    int32_t told = mst_open(1, MST_ROWS_MOST, passes, SEATS);
    if (told != MST_OK)
        give_up("mst_open", told);
}

static void close_store(void) {
    for (int seat = 0; seat < SEATS; seat++)
        mst_close(&passes[seat]);
}

static void put(int seat, const uint8_t *key, const uint8_t *value) {
    int32_t told = mst_put(&passes[seat], key, KEY_LENGTH, value, VALUE_LENGTH, rooms[seat], 64);
    if (told != VALUE_LENGTH && told != MST_ABSENT)
        give_up("mst_put", told);
}

static void start(void) {
    edits_length = 0;
}

static void add(const uint8_t *key, const uint8_t *value) {
    edits_length = mst_edit_put(edits, edits_length, key, KEY_LENGTH, value, VALUE_LENGTH);
}

static void commit(void) {
    size_t place;
    int32_t told = mst_apply(&passes[0], edits, edits_length, &place);
    if (told != MST_OK)
        give_up("mst_apply", told);
}

static void get(int seat, const uint8_t *key) {
    int32_t told = mst_get(&passes[seat], key, KEY_LENGTH, rooms[seat], 64);
    if (told != VALUE_LENGTH)
        give_up("mst_get", told);
}

static void next(int seat, const uint8_t *key) {
    uint8_t next_key[MST_KEY_LONGEST];
    size_t length = 0;
    int32_t told = mst_next(&passes[seat], key, KEY_LENGTH, next_key, sizeof next_key, &length,
                            rooms[seat], 64);
    if (told != VALUE_LENGTH && told != MST_ABSENT)
        give_up("mst_next", told);
}

static void range(int seat, const uint8_t *key) {
    size_t count = 0, length = 0;
    int32_t told = mst_range(&passes[seat], key, KEY_LENGTH, NULL, 0, RANGE_PAIRS,
                             rooms[seat], sizeof rooms[seat], &count, &length);
    if (told != MST_OK || count == 0)
        give_up("mst_range", told);
}

static void pin(int seat) {
    int32_t told = mst_pin(&passes[seat]);
    if (told != MST_OK)
        give_up("mst_pin", told);
}

static void unpin(int seat) {
    mst_unpin(&passes[seat]);
}

static void prove(int seat, const uint8_t *key) {
    size_t length = 0;
    int32_t told = mst_prove(&passes[seat], key, KEY_LENGTH, proofs[seat], sizeof proofs[seat],
                             &length);
    if (told != MST_OK)
        give_up("mst_prove", told);
}

const struct engine store_engine = {
    "the store", open_store, close_store, put, start, add, commit, get, next, range, pin, unpin,
    get, prove,
};
