/* Opens a store for 1,000 keys, puts them, and asks how many rows they take. */
#include "mst_store.h"
#include <stdio.h>

enum {
    KEYS = 1000,
    MAP_ROWS = KEYS * 17 / 16, /* one for each key, in format 1 some 1/16 more for the nodes */
    PINNED = 1,                /* versions at a time, each of which may keep as many rows */
    PATH_ROWS = 400,           /* for two writes, (1 + S) * W: W = 200 of one put, S = 1 read */
    ROWS = (PINNED + 1) * MAP_ROWS + PATH_ROWS
};

int main(void) {
    mst_pass passes[2] = {MST_PASS_CLOSED, MST_PASS_CLOSED};
    uint32_t taken = 0;
    char name[16];

    int32_t told = mst_open(1, ROWS, passes, 2);
    for (int number = 0; told >= MST_ABSENT && number < KEYS; number++) {
        size_t length = (size_t)snprintf(name, sizeof name, "user %d", number);
        told = mst_put(&passes[0], (const uint8_t *)name, length, (const uint8_t *)"new", 3,
                       NULL, 0);
    }
    if (told >= MST_ABSENT)
        told = mst_rows(&passes[0], &taken);
    if (told == MST_OK)
        printf("%d keys take %u rows of %d\n", KEYS, taken, ROWS);
    else
        fprintf(stderr, "%s\n", mst_error_text(told));
    mst_close(&passes[0]);
    mst_close(&passes[1]);
    return told != MST_OK;
}
