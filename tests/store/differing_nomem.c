/*
 * Where two maps differ, by a malloc that refuses its n-th call: each refusal is told, our pass is
 * free and has its map, and nothing is leaked.
 */
#include "heap.h"
#include "tests.h"

#define PAIRS 200  /* of nodes in several layers */
#define ROWS 1000
#define TRIES 1000 /* more growths than the call has */
#define ROOM (1 << 16)

static mst_pass ours = MST_PASS_CLOSED, theirs = MST_PASS_CLOSED;
static uint8_t edits[PAIRS * MST_EDIT_LONGEST], root[MST_ROOT_LENGTH], room[ROOM];

/* A map with all numbers but one as keys. */
static void fill(mst_pass *pass, uint32_t format, uint32_t left_out) {
    size_t length = 0, place = 0;
    for (uint32_t number = 0; number < PAIRS; number++) {
        const uint8_t key[] = {(uint8_t)(number >> 8), (uint8_t)number};
        if (number != left_out)
            length = mst_edit_put(edits, length, key, sizeof key, key, sizeof key);
    }
    EXPECT(mst_open(format, ROWS, pass, 1) == MST_OK);
    EXPECT(mst_apply(pass, edits, length, &place) == MST_OK);
}

static int32_t ask(void *with, const uint8_t *key, size_t key_length, uint32_t number,
                   const uint8_t **piece, size_t *length) {
    size_t proof = 0;
    (void)with;
    int32_t told = mst_prove(&theirs, key, key_length, room, sizeof room, &proof);
    return told != MST_OK ? told : mst_proof_piece(room, proof, number, piece, length);
}

static int32_t tell(void *with, const mst_difference *difference) {
    (void)difference;
    ++*(int *)with;
    return MST_OK;
}

static void refused(uint32_t format) {
    long n = 0;
    fill(&ours, format, 7);
    fill(&theirs, format, 150);
    EXPECT(mst_root(&theirs, root, sizeof root) == MST_ROOT_LENGTH);
    for (int32_t told = MST_MEMORY; told == MST_MEMORY && n < TRIES; n++) {
        int differing = 0;
        long before = live;
        count_from(n);
        told = mst_differing(&ours, root, sizeof root, ask, tell, &differing);
        count_on();
        EXPECT(live == before && (told == MST_MEMORY || told == MST_OK));
        EXPECT(told == MST_OK ? differing == 2 : differing <= 2);
        EXPECT(mst_unpin(&ours) == MST_WRONG_STATE);
    }
    EXPECT(n > 3 && n < TRIES);
    EXPECT(mst_close(&ours) == MST_OK && mst_close(&theirs) == MST_OK);
}

int main(void) {
    count_from(-1);
    refused(1);
    refused(2);
    EXPECT(live == 0);
    return ended("differing_nomem");
}
