/* A replica that was away takes over what it lacks of another, by one batch. */
#include "mst_store.h"
#include <stdio.h>
#include <stdlib.h>
#include <string.h>

/* The other replica, of which the root digest is trusted, and the edits that make ours its equal.
   On another machine `ask` sends the key and the number, and has the piece from the answer. */
struct other {
    mst_pass *pass; /* pinned, so that the root digest and all pieces are of one version */
    uint8_t *proof, *edits;
    size_t proof_room, edits_room, length;
    unsigned asked, count;
};

/* Sees that the room has so many bytes; what was in it stays. */
static int32_t grow(uint8_t **room, size_t *length, size_t wanted) {
    uint8_t *grown = *length < wanted ? realloc(*room, 2 * wanted) : *room;

    if (grown == NULL)
        return MST_MEMORY;
    *length = *length < wanted ? 2 * wanted : *length;
    *room = grown;
    return MST_OK;
}

/* Asks for one text of a node, as a piece of the proof of a key. */
static int32_t ask(void *with, const uint8_t *key, size_t key_length, uint32_t number,
                   const uint8_t **piece, size_t *length) {
    struct other *it = with;
    size_t proof = 0;

    it->asked++;
    int32_t told = mst_prove(it->pass, key, key_length, it->proof, it->proof_room, &proof);
    if (told == MST_SHORT_ROOM && grow(&it->proof, &it->proof_room, proof) == MST_OK)
        told = mst_prove(it->pass, key, key_length, it->proof, it->proof_room, &proof);
    return told != MST_OK ? told : mst_proof_piece(it->proof, proof, number, piece, length);
}

/* Adds an edit for a key at which the two differ. */
static int32_t add_edit(void *with, const mst_difference *at) {
    struct other *it = with;

    int32_t told = grow(&it->edits, &it->edits_room, it->length + MST_EDIT_LONGEST);
    if (told != MST_OK)
        return told;
    it->length = at->theirs == NULL
        ? mst_edit_remove(it->edits, it->length, at->key, at->key_length)
        : mst_edit_put(it->edits, it->length, at->key, at->key_length, at->theirs,
                       at->theirs_length);
    it->count++;
    return MST_OK;
}

/* Makes our map that of the root digest: our readers see the one or the other, and nothing between.
   Nobody else may write ours meanwhile. */
static int32_t catch_up(mst_pass *ours, const uint8_t *root, struct other *other) {
    size_t place;

    int32_t told = mst_differing(ours, root, MST_ROOT_LENGTH, ask, add_edit, other);
    if (told == MST_OK)
        told = mst_apply(ours, other->edits, other->length, &place);
    return told;
}

/* Whether our map has this root digest now. */
static int has_root(mst_pass *ours, const uint8_t *root) {
    uint8_t own[MST_ROOT_LENGTH];

    mst_root(ours, own, sizeof own);
    return memcmp(own, root, sizeof own) == 0;
}

/* Opens a store with the keys of the numbers from one up to below another. */
static int32_t fill(mst_pass *pass, int from, int to) {
    char name[16];

    int32_t told = mst_open(1, 10000, pass, 1);
    for (int number = from; told >= MST_ABSENT && number < to; number++) {
        size_t length = (size_t)snprintf(name, sizeof name, "user %d", number);
        told = mst_put(pass, (const uint8_t *)name, length, (const uint8_t *)"new", 3, NULL, 0);
    }
    return told < MST_ABSENT ? told : MST_OK;
}

int main(void) {
    mst_pass ours = MST_PASS_CLOSED, theirs = MST_PASS_CLOSED;
    struct other other = {&theirs, NULL, NULL, 0, 0, 0, 0, 0};
    uint8_t root[MST_ROOT_LENGTH];
    uint64_t keys = 0;

    int32_t told = fill(&ours, 0, 5000);
    if (told == MST_OK)
        told = fill(&theirs, 10, 5030);
    if (told == MST_OK)
        told = mst_pin(&theirs);
    mst_root(&theirs, root, sizeof root);
    mst_len(&theirs, &keys);
    if (told == MST_OK)
        told = catch_up(&ours, root, &other);
    if (told == MST_OK)
        printf("%u edits, then the roots %s\n"
               "%u texts of nodes were asked for, of a map of %u keys\n",
               other.count, has_root(&ours, root) ? "are equal" : "differ", other.asked,
               (unsigned)keys);
    else
        fprintf(stderr, "%s\n", mst_error_text(told));
    free(other.proof);
    free(other.edits);
    mst_close(&ours);
    mst_close(&theirs); /* ends the pin too */
    return told != MST_OK;
}
