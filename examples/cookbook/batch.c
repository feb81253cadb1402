/* A batch of changes as one version. */
#include "mst_store.h"
#include <stdio.h>

#define TEXT(text) (const uint8_t *)(text), sizeof(text) - 1

/* Makes a block, and prints which version it is and how many keys there are. */
static int apply(mst_pass *pass, int edits, const uint8_t *block, size_t length) {
    uint8_t room[100 * MST_PAIR_LONGEST];
    size_t place = 0, count = 0, taken = 0;
    uint64_t version = 0;

    int32_t told = mst_apply(pass, block, length, &place);
    if (told != MST_OK) { /* nothing is written; a bad edit is the one at `place`, from 0 */
        fprintf(stderr, "%s\n", mst_error_text(told));
        return 1;
    }
    mst_version(pass, &version);
    mst_range(pass, NULL, 0, NULL, 0, 100, room, sizeof room, &count, &taken);
    printf("a block of %d: version %d has %zu keys\n", edits, (int)version, count);
    return 0;
}

int main(void) {
    mst_pass pass = MST_PASS_CLOSED;
    uint8_t block[3 * MST_EDIT_LONGEST];

    if (mst_open(1, 100, &pass, 1) != MST_OK)
        return 1;
    size_t length = mst_edit_put(block, 0, TEXT("apple"), TEXT("30"));
    length = mst_edit_put(block, length, TEXT("plum"), TEXT("12"));
    length = mst_edit_put(block, length, TEXT("pear"), TEXT("20"));
    int failed = apply(&pass, 3, block, length);
    length = mst_edit_put(block, 0, TEXT("apple"), TEXT("35"));
    length = mst_edit_remove(block, length, TEXT("plum"));
    failed = failed || apply(&pass, 2, block, length);
    mst_close(&pass);
    return failed;
}
