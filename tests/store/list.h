/* A map as a plain sorted list of pairs, and what a new store says that is filled with them. */
#ifndef LIST_H
#define LIST_H

#include "tests.h"
#include "pairs.h"

#define TWIN_ROWS (3 * KEYS) /* for all keys, their nodes and what a put writes beside them */

/* What depends on the pairs and the format alone. */
struct whole {
    uint8_t root[MST_ROOT_LENGTH];
    uint32_t rows;
};

struct list {
    struct pair pairs[KEYS]; /* by rising keys */
    size_t count;
    uint32_t format;
    uint64_t changes;   /* how many changes led to it */
    int is_whole_known; /* whether `whole` is that of these pairs in this format */
    struct whole whole;
};

/* Whether the key is there, and its place, or the one where it would be. */
static inline int find(const struct list *list, const struct pair *key, size_t *place) {
    size_t low = 0, high = list->count;
    while (low < high) {
        size_t middle = (low + high) / 2;
        if (order(&list->pairs[middle], key) < 0)
            low = middle + 1;
        else
            high = middle;
    }
    *place = low;
    return low < list->count && order(&list->pairs[low], key) == 0;
}

/* Whether this is the list's answer for the key: what a call told, and what stands in its room. */
static inline int is_answer(const struct list *list, const struct pair *key, int32_t told,
                            const uint8_t *room) {
    size_t place;
    return find(list, key, &place) ? is_value(told, room, &list->pairs[place])
                                   : told == MST_ABSENT;
}

/* Puts the pair, or takes its key out. */
static inline void edit(struct list *list, const struct pair *pair, int is_put) {
    size_t place;
    int is_there = find(list, pair, &place);
    struct pair *at = &list->pairs[place];
    size_t behind = list->count - place;
    if (is_put && !is_there) {
        memmove(at + 1, at, behind * sizeof *at);
        list->count++;
    }
    if (is_put)
        *at = *pair;
    else if (is_there) {
        memmove(at, at + 1, (behind - 1) * sizeof *at);
        list->count--;
    }
}

/* Counts a change, of one edit or more, or of the format; returns the number of all changes. */
static inline uint64_t count_change(struct list *list) {
    list->is_whole_known = 0;
    return ++list->changes;
}

static inline size_t write_edit(uint8_t *edits, size_t at, const struct pair *pair, int is_put) {
    return is_put ? mst_edit_put(edits, at, pair->key, pair->key_length, pair->value,
                                 pair->value_length)
                  : mst_edit_remove(edits, at, pair->key, pair->key_length);
}

/* Fills a new store with the pairs by a load: one batch of them in their order. */
static inline void load(mst_pass *twin, const struct list *list) {
    static uint8_t edits[KEYS * MST_EDIT_LONGEST];
    size_t length = 0, place = 0;
    for (size_t i = 0; i < list->count; i++)
        length = write_edit(edits, length, &list->pairs[i], 1);
    EXPECT(mst_apply(twin, edits, length, &place) == MST_OK);
}

/* Fills a new store with the pairs by puts, the last one first. */
static inline void put_backwards(mst_pass *twin, const struct list *list) {
    for (size_t i = list->count; i > 0; i--) {
        const struct pair *pair = &list->pairs[i - 1];
        EXPECT(mst_put(twin, pair->key, pair->key_length, pair->value, pair->value_length, NULL, 0)
               == MST_ABSENT);
    }
}

/* What a new store in the format says that is filled by a load. */
static inline struct whole whole_in(const struct list *list, uint32_t format) {
    struct whole whole = {{0}, 0};
    mst_pass twin = MST_PASS_CLOSED;
    EXPECT(mst_open(format, TWIN_ROWS, &twin, 1) == MST_OK);
    load(&twin, list);
    EXPECT(mst_root(&twin, whole.root, MST_ROOT_LENGTH) == MST_ROOT_LENGTH);
    EXPECT(mst_rows(&twin, &whole.rows) == MST_OK && whole.rows >= list->count);
    EXPECT(mst_close(&twin) == MST_OK);
    return whole;
}

/* The same in the list's format, which is asked for once after each change. */
static inline const struct whole *whole_of(struct list *list) {
    if (!list->is_whole_known)
        list->whole = whole_in(list, list->format);
    list->is_whole_known = 1;
    return &list->whole;
}

#endif
