/* A log of blocks: a number and a root digest for each, for a reader and for an auditor. */
#include "mst_store.h"
#include "mst_verifier.h"
#include <stdio.h>
#include <string.h>

#define TEXT(text) (const uint8_t *)(text), sizeof(text) - 1

/* What the log has of a block. */
struct logged {
    uint64_t number;
    uint8_t root[MST_ROOT_LENGTH];
};

static int refused(int32_t told) {
    fprintf(stderr, "%s\n", mst_error_text(told));
    return 1;
}

/* Makes a block, and logs it. If it is refused, nothing has changed: `shard` refused its edits. */
static int apply(mst_handle *writer, int count, const uint8_t *edits, size_t length,
                 struct logged *logged) {
    size_t place, shard;
    int32_t told = mst_sharded_apply(writer, edits, length, &place, &shard, &logged->number);
    if (told != MST_OK)
        return refused(told);
    mst_sharded_root(writer, logged->root, sizeof logged->root);
    printf("block %d has %d edits\n", (int)logged->number, count);
    return 0;
}

/* Makes two blocks, each with edits of two shards, and keeps what the log has of the last. */
static int write_blocks(mst_handle *writer, struct logged *logged) {
    uint8_t edits[2 * MST_EDIT_LONGEST];
    size_t length = mst_edit_put(edits, 0, TEXT("apple"), TEXT("30"));
    length = mst_edit_put(edits, length, TEXT("plum"), TEXT("12"));
    if (apply(writer, 2, edits, length, logged) != 0)
        return 1;
    length = mst_edit_put(edits, 0, TEXT("apple"), TEXT("35"));
    length = mst_edit_remove(edits, length, TEXT("plum"));
    return apply(writer, 2, edits, length, logged);
}

/* An auditor has the log's root digest alone, and a proof from a snapshot of that block. */
static int audit(const struct logged *logged, mst_handle *snapshot) {
    static uint8_t proof[65536];
    uint8_t value[MST_VALUE_LONGEST];
    size_t length = 0;
    int32_t told = mst_sharded_prove(snapshot, TEXT("apple"), proof, sizeof proof, &length);
    if (told == MST_OK)
        told = mst_verify_sharded(1, logged->root, sizeof logged->root, TEXT("apple"), proof,
                                  length, value, sizeof value);
    if (told < 0)
        return refused(told);
    printf("proved of block %d: the price of apple is %.*s\n", (int)logged->number, (int)told,
           (const char *)value);
    return 0;
}

/* A reader finds which block it has, and that its map is the one that the log names. */
static int read_block(mst_handle *reader, const struct logged *logged) {
    uint8_t root[MST_ROOT_LENGTH];
    uint64_t number = 0;
    int32_t told = mst_sharded_snapshot(reader); /* waits while a block is being published */
    if (told != MST_OK)
        return refused(told);
    mst_sharded_number(reader, &number);
    mst_sharded_root(reader, root, sizeof root);
    int failed = number != logged->number || memcmp(root, logged->root, sizeof root) != 0;
    if (!failed)
        printf("the reader has block %d\n", (int)number);
    failed = failed || audit(logged, reader);
    mst_sharded_release(reader);
    return failed;
}

int main(void) {
    mst_handle hands[2] = {MST_HANDLE_CLOSED, MST_HANDLE_CLOSED};
    mst_handle *writer = &hands[0], *reader = &hands[1];
    uint8_t splits[2 * MST_SPLIT_LONGEST];
    struct logged logged = {0, {0}};

    /* each split is the first key of a shard: below h, from h on, from p on */
    size_t length = mst_split(splits, 0, TEXT("h"));
    length = mst_split(splits, length, TEXT("p"));
    int32_t told = mst_sharded_open(1, 100, splits, length, hands, 2); /* rows of each shard */
    if (told != MST_OK)
        return refused(told);
    int failed = write_blocks(writer, &logged) || read_block(reader, &logged);
    mst_sharded_close(writer);
    mst_sharded_close(reader);
    return failed;
}
