/*
 * The shortest use: two passes of one store, an old version that stays, and a proof of it.
 *
 *     make -C ../bindings && cc -I../include store.c ../bindings/out/libmst_store.a -o store
 *
 * It needs the library: that of a release (there is none yet), or the kit, by which make makes it.
 */
#include "mst_store.h"
#include <stdio.h>

#define TEXT(text) (const uint8_t *)(text), sizeof(text) - 1

int main(void) {
    mst_pass passes[2] = {MST_PASS_CLOSED, MST_PASS_CLOSED};
    uint8_t room[MST_VALUE_LONGEST], proof[4096];
    size_t length = 0;

    if (mst_open(1, 1000, passes, 2) != MST_OK)
        return 1;
    int32_t told = mst_put(&passes[0], TEXT("apple"), TEXT("30"), room, sizeof room);
    if (told != MST_ABSENT) /* it would be the old value's length, or a refusal */
        return 1;
    mst_pin(&passes[1]);
    told = mst_put(&passes[0], TEXT("apple"), TEXT("35"), room, sizeof room);
    if (told < 0) /* no old value, or a refusal */
        return 1;

    told = mst_get(&passes[1], TEXT("apple"), room, sizeof room);
    if (told >= 0)
        printf("the pinned value: %.*s\n", (int)told, (const char *)room);
    if (mst_prove(&passes[1], TEXT("apple"), proof, sizeof proof, &length) == MST_OK)
        printf("its proof: %zu bytes\n", length);
    mst_unpin(&passes[1]);
    told = mst_get(&passes[1], TEXT("apple"), room, sizeof room);
    if (told >= 0)
        printf("the value now: %.*s\n", (int)told, (const char *)room);

    mst_close(&passes[0]);
    mst_close(&passes[1]);
    return 0;
}
