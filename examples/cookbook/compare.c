/* Two replicas: whether their maps are equal, and at which keys they differ. */
#include "mst_store.h"
#include <stdio.h>
#include <stdlib.h>
#include <string.h>

#define TEXT(text) (const uint8_t *)(text), sizeof(text) - 1

/* The other replica. It may be on another machine: then `ask` sends the key and the number there,
   and has the piece from the answer. */
struct other {
    mst_pass *pass; /* pinned, so that all pieces are of one version */
    uint8_t *proof;
    size_t room;
    unsigned asked;
};

/* Asks for one text of a node, as a piece of the proof of a key. */
static int32_t ask(void *with, const uint8_t *key, size_t key_length, uint32_t number,
                   const uint8_t **piece, size_t *length) {
    struct other *other = with;
    size_t proof = 0;
    int32_t told;

    other->asked++;
    while ((told = mst_prove(other->pass, key, key_length, other->proof, other->room, &proof))
           == MST_SHORT_ROOM) {
        free(other->proof);
        other->room = proof;
        other->proof = malloc(proof);
        if (other->proof == NULL)
            return MST_MEMORY;
    }
    return told != MST_OK ? told : mst_proof_piece(other->proof, proof, number, piece, length);
}

/* A value that is null is none. */
static int32_t tell(void *with, const mst_difference *it) {
    const char *how = it->ours == NULL     ? "is theirs alone"
                      : it->theirs == NULL ? "is ours alone"
                                           : "has two values";

    (void)with;
    printf("%.*s %s\n", (int)it->key_length, (const char *)it->key, how);
    return MST_OK;
}

/* Compares replicas of one format: first their root digests, which are enough if they agree. */
static int32_t compare(mst_pass *ours, mst_pass *theirs) {
    uint8_t roots[2][MST_ROOT_LENGTH];
    struct other other = {theirs, NULL, 0, 0};
    uint64_t keys = 0;

    mst_root(ours, roots[0], MST_ROOT_LENGTH);
    mst_root(theirs, roots[1], MST_ROOT_LENGTH);
    if (memcmp(roots[0], roots[1], MST_ROOT_LENGTH) == 0) {
        printf("equal: yes\n");
        return MST_OK;
    }
    printf("equal: no\n");
    int32_t told = mst_differing(ours, roots[1], MST_ROOT_LENGTH, ask, tell, &other);
    mst_len(theirs, &keys);
    printf("%u texts of nodes were asked for, of a map of %u keys\n", other.asked, (unsigned)keys);
    free(other.proof);
    return told;
}

/* Opens a store with so many keys. */
static int32_t fill(mst_pass *pass, int keys) {
    char name[16];

    int32_t told = mst_open(1, 10000, pass, 1);
    for (int number = 0; told >= MST_ABSENT && number < keys; number++) {
        size_t length = (size_t)snprintf(name, sizeof name, "user %d", number);
        told = mst_put(pass, (const uint8_t *)name, length, TEXT("old"), NULL, 0);
    }
    return told < MST_ABSENT ? told : MST_OK;
}

int main(void) {
    mst_pass ours = MST_PASS_CLOSED, theirs = MST_PASS_CLOSED;

    if (fill(&ours, 5000) != MST_OK || fill(&theirs, 5000) != MST_OK)
        return 1;
    int32_t told = compare(&ours, &theirs);
    mst_put(&theirs, TEXT("user 42"), TEXT("new"), NULL, 0);
    mst_remove(&theirs, TEXT("user 99"), NULL, 0);
    mst_put(&theirs, TEXT("user 5000"), TEXT("new"), NULL, 0);
    mst_pin(&ours); /* so that neither changes on the way */
    mst_pin(&theirs);
    if (told == MST_OK)
        told = compare(&ours, &theirs);
    if (told != MST_OK) /* a piece was not that of the root digest, or memory was refused */
        fprintf(stderr, "%s\n", mst_error_text(told));
    mst_close(&ours); /* ends its pin too */
    mst_close(&theirs);
    return told != MST_OK;
}
