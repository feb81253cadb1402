/* More keys than a store has rows for: a map of three shards, with one root digest. */
#include "mst_store.h"
#include "mst_verifier.h"
#include <stdio.h>

#define TEXT(text) (const uint8_t *)(text), sizeof(text) - 1

static int refused(int32_t told) {
    fprintf(stderr, "%s\n", mst_error_text(told));
    return 1;
}

/* Puts two prices, whose keys are in two shards, as one block. */
static int32_t fill(mst_handle *writer) {
    uint8_t edits[2 * MST_EDIT_LONGEST];
    size_t length = mst_edit_put(edits, 0, TEXT("apple"), TEXT("30")), place, shard;
    uint64_t number;
    length = mst_edit_put(edits, length, TEXT("plum"), TEXT("12"));
    return mst_sharded_apply(writer, edits, length, &place, &shard, &number);
}

/* Proves an answer, as somebody finds it who has the root digest of all shards. */
static int prove(mst_handle *reader) {
    static uint8_t proof[65536];
    uint8_t root[MST_ROOT_LENGTH], value[MST_VALUE_LONGEST];
    size_t length = 0;
    int32_t told = mst_sharded_snapshot(reader); /* root digest and proof must be of one */
    if (told != MST_OK)
        return refused(told);
    mst_sharded_root(reader, root, sizeof root);
    told = mst_sharded_prove(reader, TEXT("plum"), proof, sizeof proof, &length);
    int shards = (int)mst_sharded_shards(reader);
    mst_sharded_release(reader);
    if (told == MST_OK)
        told = mst_verify_sharded(1, root, sizeof root, TEXT("plum"), proof, length,
                                  value, sizeof value);
    if (told < 0)
        return refused(told);
    printf("%d shards; proved: the price of plum is %.*s\n", shards, (int)told,
           (const char *)value);
    return 0;
}

int main(void) {
    mst_handle hands[2] = {MST_HANDLE_CLOSED, MST_HANDLE_CLOSED};
    mst_handle *writer = &hands[0], *reader = &hands[1];
    uint8_t splits[2 * MST_SPLIT_LONGEST];

    /* each split is the first key of a shard: below h, from h on, from p on */
    size_t length = mst_split(splits, 0, TEXT("h"));
    length = mst_split(splits, length, TEXT("p"));
    int32_t told = mst_sharded_open(1, 100, splits, length, hands, 2); /* rows of each shard */
    if (told == MST_OK)
        told = fill(writer);
    if (told != MST_OK)
        return refused(told);
    int failed = prove(reader);
    mst_sharded_close(writer);
    mst_sharded_close(reader);
    return failed;
}
