/*
 * Pages through 10,000 digests of 32 bytes: each page begins behind the last key of the one before.
 * All pages are of one version, since the reader pins it; meanwhile another pass takes keys out.
 *
 *     make -C ../bindings && cc -I../include paging.c ../bindings/out/libmst_store.a -o paging
 *
 * It needs the library: that of a release (there is none yet), or the kit, by which make makes it.
 */
#include "mst_store.h"
#include <stdio.h>
#include <stdlib.h>
#include <string.h>

#define DIGESTS 10000
#define PAGE 256

/* What stands here for a hash function: 32 bytes that look like those of one (SplitMix64). */
static void digest_of(uint64_t number, uint8_t *digest) {
    for (int word = 0; word < 4; word++) {
        uint64_t mixed = (4 * number + (uint64_t)word) * 0x9E3779B97F4A7C15u;
        mixed = (mixed ^ (mixed >> 30)) * 0xBF58476D1CE4E5B9u;
        mixed = (mixed ^ (mixed >> 27)) * 0x94D049BB133111EBu;
        mixed ^= mixed >> 31;
        memcpy(digest + 8 * word, &mixed, 8);
    }
}

/* Makes all puts as one version. */
static int32_t load(mst_pass *writer) {
    uint8_t *edits = malloc(DIGESTS * MST_EDIT_LONGEST), digest[32];
    size_t length = 0, place;
    if (edits == NULL)
        return MST_MEMORY;
    for (uint64_t number = 0; number < DIGESTS; number++) {
        digest_of(number, digest);
        length = mst_edit_put(edits, length, digest, 32, (const uint8_t *)&number, sizeof number);
    }
    int32_t told = mst_apply(writer, edits, length, &place);
    free(edits);
    return told;
}

/* Reads all pairs by pages. Returns MST_OK or the refusal of a call. */
static int32_t read_pages(mst_pass *reader, mst_pass *writer) {
    uint8_t room[PAGE * MST_PAIR_LONGEST], last[MST_KEY_LONGEST];
    size_t last_length = 0, count, length, pages = 0, pairs = 0;
    for (;;) {
        int32_t told = mst_page_after(reader, last, last_length, NULL, 0, PAGE,
                                      room, sizeof room, &count, &length);
        if (told != MST_OK)
            return told;
        if (count == 0)
            break;
        mst_pair pair = {NULL, NULL, 0, 0};
        for (size_t at = 0; at < length;)
            at = mst_pair_at(room, at, &pair);
        last_length = pair.key_length;
        memcpy(last, pair.key, last_length);
        pages++;
        pairs += count;
        told = mst_remove(writer, last, last_length, NULL, 0);
        if (told < 0)
            return told;
    }
    printf("%zu digests on %zu pages\n", pairs, pages);
    return MST_OK;
}

int main(void) {
    mst_pass passes[2] = {MST_PASS_CLOSED, MST_PASS_CLOSED};
    int32_t told = mst_open(2, MST_ROWS_MOST, passes, 2);
    if (told == MST_OK)
        told = load(&passes[0]);
    if (told == MST_OK)
        told = mst_pin(&passes[1]);
    if (told == MST_OK)
        told = read_pages(&passes[1], &passes[0]);
    mst_close(&passes[0]);
    mst_close(&passes[1]);
    if (told != MST_OK)
        printf("%s\n", mst_error_text(told));
    return told != MST_OK;
}
