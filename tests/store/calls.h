/* Calls of passes with texts as keys and values: whether each answers what it is to. */
#ifndef CALLS_H
#define CALLS_H

#include "tests.h"

#define PAIR_ROOM (8 * MST_PAIR_LONGEST)
#define BATCH_ROOM (8 * MST_EDIT_LONGEST)

/* The bytes of a text, which may be NULL. */
#define BYTES(text) (const uint8_t *)(text), ((text) == NULL ? 0 : strlen(text))

/* An edit of a batch; without a value it removes the key. */
struct edit {
    const char *key, *value;
};

/*
 * The map of abc with x and a with 1: its root digest is the SHA-256 of the 17 bytes 01 00 0002 00
 * 01 61 01 31 00 03 616263 01 78 00, the text of its one node, and each proof of a key of it has
 * the format, the number of texts, the length of this text, and the text.
 */
static const uint8_t root_of_both[MST_ROOT_LENGTH] = {
    0xD4, 0xA8, 0xA9, 0xFC, 0x55, 0x05, 0x84, 0x27, 0x16, 0x3B, 0xD8, 0xA1, 0xF0, 0x9C, 0xA5, 0xEC,
    0x54, 0x2D, 0xE1, 0xCD, 0xAF, 0x28, 0xDF, 0x10, 0x0B, 0xE5, 0x47, 0x2E, 0x47, 0xB7, 0x25, 0x03,
};
static const uint8_t proof_of_both[] = {
    1, 1, 0, 0, 0, 17, 1, 0, 0, 2, 0, 1, 'a', 1, '1', 0, 3, 'a', 'b', 'c', 1, 'x', 0,
};

/* The root digest of the empty map: the SHA-256 of no bytes. */
static const uint8_t root_of_none[MST_ROOT_LENGTH] = {
    0xE3, 0xB0, 0xC4, 0x42, 0x98, 0xFC, 0x1C, 0x14, 0x9A, 0xFB, 0xF4, 0xC8, 0x99, 0x6F, 0xB9, 0x24,
    0x27, 0xAE, 0x41, 0xE4, 0x64, 0x9B, 0x93, 0x4C, 0xA4, 0x95, 0x99, 0x1B, 0x78, 0x52, 0xB8, 0x55,
};

/* Whether a call told this value, or that there is none if none is wanted. */
static inline int is_value(int32_t told, const uint8_t *room, const char *wanted) {
    if (wanted == NULL)
        return told == MST_ABSENT;
    return told == (int32_t)strlen(wanted) && memcmp(room, wanted, strlen(wanted)) == 0;
}

static inline int has(mst_pass *pass, const char *key, const char *value) {
    uint8_t room[MST_VALUE_LONGEST];
    return is_value(mst_get(pass, BYTES(key), room, sizeof room), room, value);
}

/* Whether a put goes through, at a key that had the old value. */
static inline int puts_at(mst_pass *pass, const char *key, const char *value, const char *old) {
    uint8_t room[MST_VALUE_LONGEST];
    return is_value(mst_try_put(pass, BYTES(key), BYTES(value), room, sizeof room), room, old);
}

static inline int removes(mst_pass *pass, const char *key, const char *old) {
    uint8_t room[MST_VALUE_LONGEST];
    return is_value(mst_try_remove(pass, BYTES(key), room, sizeof room), room, old);
}

/* Up to eight edits as the bytes of a batch, of which this is the length. */
static inline size_t batch_of(uint8_t *bytes, const struct edit *edits, size_t count) {
    size_t length = 0;
    for (size_t i = 0; i < count; i++)
        length = edits[i].value == NULL ? mst_edit_remove(bytes, length, BYTES(edits[i].key))
            : mst_edit_put(bytes, length, BYTES(edits[i].key), BYTES(edits[i].value));
    return length;
}

/* What a batch of these edits returns. */
static inline int32_t applies(mst_pass *pass, const struct edit *edits, size_t count) {
    uint8_t bytes[BATCH_ROOM];
    size_t place, length = batch_of(bytes, edits, count);
    return mst_try_apply(pass, bytes, length, &place);
}

static inline int has_version(mst_pass *pass, uint64_t wanted) {
    uint64_t version = 0;
    return mst_version(pass, &version) == MST_OK && version == wanted;
}

static inline int takes_rows(mst_pass *pass, uint32_t wanted) {
    uint32_t rows = 0;
    return mst_rows(pass, &rows) == MST_OK && rows == wanted;
}

static inline int has_root(mst_pass *pass, const uint8_t *wanted) {
    uint8_t root[MST_ROOT_LENGTH];
    return mst_root(pass, root, sizeof root) == (int32_t)sizeof root
        && memcmp(root, wanted, sizeof root) == 0;
}

/* Whether the first pair has this key. */
static inline int begins_with(mst_pass *pass, const char *wanted) {
    uint8_t key[MST_KEY_LONGEST], room[MST_VALUE_LONGEST];
    size_t length = 0;
    return mst_next(pass, NULL, 0, key, sizeof key, &length, room, sizeof room) >= 0
        && length == strlen(wanted) && memcmp(key, wanted, length) == 0;
}

/* What a range of all pairs returns, which are to be so many; if they are others, MST_ABSENT. */
static inline int32_t lists(mst_pass *pass, size_t wanted) {
    uint8_t room[PAIR_ROOM];
    size_t count = 0, length;
    int32_t told = mst_range(pass, NULL, 0, NULL, 0, UINT32_MAX, room, sizeof room, &count,
                             &length);
    return told == MST_OK && count != wanted ? MST_ABSENT : told;
}

/* What a proof of abc returns, which is to be that of both pairs; if it is another, MST_ABSENT. */
static inline int32_t proves_both(mst_pass *pass) {
    uint8_t proof[2 * sizeof proof_of_both];
    size_t length = 0;
    int32_t told = mst_prove(pass, TEXT("abc"), proof, sizeof proof, &length);
    int is_it = length == sizeof proof_of_both && memcmp(proof, proof_of_both, length) == 0;
    return told == MST_OK && !is_it ? MST_ABSENT : told;
}

#endif
