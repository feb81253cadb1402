/*
 * Where two maps differ, of random maps of both formats: against the list of their pairs, with how
 * little is asked for, and nothing twice; and pieces that are cut short, changed, or others.
 */
#include "mst_verifier.h"
#include "pairs.h"
#include "tests.h"
#include <stdlib.h>

#define ROWS 4000
#define ROOM (1 << 18)
#define ASKED_MOST 4096
#define NEVER SIZE_MAX

enum { OURS, THEIRS };

/* All keys in their order; and which value each has in a map: 0 is none, and 65 an empty one. */
static struct pair keys[KEYS];
static size_t key_count;
static uint8_t values[2][KEYS];

static mst_pass passes[2] = {MST_PASS_CLOSED, MST_PASS_CLOSED};
static uint8_t edits[KEYS * MST_EDIT_LONGEST], root[MST_ROOT_LENGTH], room[ROOM];
static uint64_t chance = 1;

/* The other side of a walk: what was asked for, and what was told. */
struct other {
    uint8_t *piece; /* of just its length, so that memcheck sees a read behind it */
    size_t texts, tails;
    uint64_t seen[ASKED_MOST]; /* hashes of the texts */
    size_t twice;
    size_t spoiled; /* the number of the piece that is spoiled */
    int is_spoiled, is_tail;
    size_t next, told, wrong; /* the next key to look at, and how many were told, and wrongly */
};

static struct other nothing_asked(size_t spoiled) {
    static const struct other none;
    struct other other = none;
    other.spoiled = spoiled;
    return other;
}

/* ---- the maps ---- */

static int by_keys(const void *one, const void *other) {
    return order(one, other);
}

static void make_keys(void) {
    size_t kept = 0;
    for (uint32_t number = 0; number < KEYS; number++)
        keys[number] = pair_of(number);
    qsort(keys, KEYS, sizeof keys[0], by_keys);
    for (size_t at = 0; at < KEYS; at++)
        if (kept == 0 || order(&keys[kept - 1], &keys[at]) != 0)
            keys[kept++] = keys[at];
    key_count = kept;
}

/* No two of the 65 values are equal. */
static size_t value_length(uint8_t value) {
    return (size_t)value * 7 % 65;
}

static uint8_t choose_value(void) {
    return (uint8_t)(1 + number_below(&chance, 65));
}

/* One key in so many has a value; with 0 none has. */
static void choose_map(int map, uint32_t one_in) {
    for (size_t at = 0; at < key_count; at++)
        values[map][at] = one_in > 0 && number_below(&chance, one_in) == 0 ? choose_value() : 0;
}

/* The other map is the same, but for some changes, each of which may take a key out. */
static void change_map(int map, uint32_t changes) {
    memcpy(values[!map], values[map], sizeof values[map]);
    for (uint32_t change = 0; change < changes; change++) {
        uint8_t *value = &values[!map][number_below(&chance, (uint32_t)key_count)];
        *value = number_below(&chance, 3) == 0 ? 0 : choose_value();
    }
}

/* The other map has some of the same pairs, and no others. */
static void choose_within(int map, uint32_t one_in) {
    for (size_t at = 0; at < key_count; at++)
        values[!map][at] = number_below(&chance, one_in) == 0 ? values[map][at] : 0;
}

static void load(int map, uint32_t format) {
    uint8_t value[MST_VALUE_LONGEST];
    size_t length = 0, place;
    for (size_t at = 0; at < key_count; at++) {
        size_t bytes = value_length(values[map][at]);
        memset(value, values[map][at], sizeof value);
        if (values[map][at] != 0)
            length = mst_edit_put(edits, length, keys[at].key, keys[at].key_length, value, bytes);
    }
    EXPECT(mst_open(format, ROWS, &passes[map], 1) == MST_OK);
    EXPECT(mst_apply(&passes[map], edits, length, &place) == MST_OK);
}

static size_t count_differing(void) {
    size_t count = 0;
    for (size_t at = 0; at < key_count; at++)
        count += values[OURS][at] != values[THEIRS][at];
    return count;
}

/* ---- what is asked for, and told ---- */

static uint64_t hash_of(const uint8_t *bytes, size_t length) {
    uint64_t hash = 0xcbf29ce484222325u;
    for (size_t at = 0; at < length; at++)
        hash = (hash ^ bytes[at]) * 0x100000001b3u;
    return hash;
}

static void count_text(struct other *other, const uint8_t *text, size_t length) {
    uint64_t hash = hash_of(text, length);
    for (size_t at = 0; at < other->texts; at++)
        other->twice += other->seen[at] == hash;
    if (other->texts < ASKED_MOST)
        other->seen[other->texts] = hash;
    other->texts++;
}

/* Cuts the piece short, makes it longer, or changes a byte of it. */
static void spoil(struct other *other, size_t *length) {
    uint32_t way = number_below(&chance, 4), bytes = (uint32_t)*length;
    uint8_t *old = other->piece;
    size_t longer = way == 0 ? number_below(&chance, bytes) : way == 1 ? *length + 1 : *length;
    other->is_spoiled = 1;
    other->piece = calloc(longer > 0 ? longer : 1, 1);
    memcpy(other->piece, old, longer < *length ? longer : *length);
    if (way > 1)
        other->piece[number_below(&chance, bytes)] ^= (uint8_t)(1 + number_below(&chance, 255));
    *length = longer;
    free(old);
}

static int32_t ask(void *with, const uint8_t *key, size_t key_length, uint32_t number,
                   const uint8_t **piece, size_t *length) {
    struct other *other = with;
    const uint8_t *found = NULL;
    size_t proof = 0, asked = other->texts + other->tails;
    int32_t told = mst_prove(&passes[THEIRS], key, key_length, room, sizeof room, &proof);
    if (told == MST_OK)
        told = mst_proof_piece(room, proof, number, &found, length);
    if (told != MST_OK)
        return told;
    other->is_tail = number == room[1];
    if (other->is_tail)
        other->tails++;
    else
        count_text(other, found, *length);
    free(other->piece);
    other->piece = malloc(*length);
    memcpy(other->piece, found, *length);
    if (asked == other->spoiled)
        spoil(other, length);
    *piece = other->piece;
    return MST_OK;
}

static int has_value(const uint8_t *bytes, size_t length, uint8_t value) {
    if (value == 0 || bytes == NULL)
        return value == 0 && bytes == NULL;
    for (size_t at = 0; at < length; at++)
        if (bytes[at] != value)
            return 0;
    return length == value_length(value);
}

/* The next key at which the lists differ is the one that is told. */
static int32_t tell(void *with, const mst_difference *it) {
    struct other *other = with;
    while (other->next < key_count && values[OURS][other->next] == values[THEIRS][other->next])
        other->next++;
    size_t at = other->next++;
    other->told++;
    other->wrong += at >= key_count || !is_key(it->key, it->key_length, &keys[at])
        || !has_value(it->ours, it->ours_length, values[OURS][at])
        || !has_value(it->theirs, it->theirs_length, values[THEIRS][at]);
    return MST_OK;
}

static int32_t differ(struct other *other) {
    int32_t told = mst_differing(&passes[OURS], root, sizeof root, ask, tell, other);
    free(other->piece);
    return told;
}

/* ---- maps ---- */

/* The most texts of a proof of their map. */
static size_t depth(void) {
    size_t most = 0, length;
    for (size_t at = 0; at < key_count; at++) {
        EXPECT(mst_prove(&passes[THEIRS], keys[at].key, keys[at].key_length, room, sizeof room,
                         &length) == MST_OK);
        most = room[1] > most ? room[1] : most;
    }
    return most;
}

static size_t nodes(void) {
    uint32_t rows = 0;
    uint64_t count = 0;
    EXPECT(mst_rows(&passes[THEIRS], &rows) == MST_OK);
    EXPECT(mst_len(&passes[THEIRS], &count) == MST_OK);
    return rows - (size_t)count;
}

/* How many values are asked for: in format 2 those of theirs that are told. */
static size_t values_asked(uint32_t format) {
    size_t count = 0;
    for (size_t at = 0; at < key_count; at++)
        count += values[OURS][at] != values[THEIRS][at] && values[THEIRS][at] != 0;
    return format == 2 ? count : 0;
}

/* A change of one key changes the nodes on its way, and may cut a subtree in two: on both sides of
 * the cut are new nodes. */
static void all_are_told(uint32_t format) {
    struct other other = nothing_asked(NEVER);
    size_t differing = count_differing(), all = nodes(), most = 2 * differing * depth();
    EXPECT(differ(&other) == MST_OK);
    EXPECT(other.wrong == 0 && other.told == differing);
    EXPECT(other.twice == 0 && other.tails == values_asked(format));
    EXPECT(other.texts <= all && other.texts <= most);
    if (other.texts > most)
        printf("%zu texts for %zu keys, depth %zu\n", other.texts, differing, depth());
}

/* One of the pieces is spoiled: it is refused, and what was told before is so. */
static void spoiled_are_refused(unsigned times) {
    struct other whole = nothing_asked(NEVER);
    EXPECT(differ(&whole) == MST_OK);
    size_t asked = whole.texts + whole.tails;
    for (unsigned at = 0; asked > 0 && at < times; at++) {
        struct other other = nothing_asked(number_below(&chance, (uint32_t)asked));
        int32_t told = differ(&other);
        EXPECT(other.is_spoiled && other.wrong == 0);
        if (other.is_tail)
            EXPECT(told == MST_P2_CUT_SHORT || told == MST_P3_LEFT_OVER
                   || told == MST_P10_OTHER_VALUE);
        else
            EXPECT(told == MST_P4_NO_NODE || told == MST_P5_OTHER_DIGEST);
    }
}

static void close_both(void) {
    EXPECT(mst_close(&passes[OURS]) == MST_OK && mst_close(&passes[THEIRS]) == MST_OK);
}

/* The maps that were chosen, in a format: by a free pass, which stays free, or by a pinned one. */
static void try_maps(uint32_t format) {
    int is_pinned = number_below(&chance, 2) == 0;
    load(OURS, format);
    load(THEIRS, format);
    EXPECT(mst_root(&passes[THEIRS], root, sizeof root) == MST_ROOT_LENGTH);
    if (is_pinned)
        EXPECT(mst_pin(&passes[OURS]) == MST_OK);
    all_are_told(format);
    spoiled_are_refused(3);
    EXPECT(mst_unpin(&passes[OURS]) == (is_pinned ? MST_OK : MST_WRONG_STATE));
    close_both();
}

static void choose_maps(uint32_t kind) {
    static const uint32_t changes[] = {0, 1, 1, 2, 3, 10, 100};
    int map = number_below(&chance, 2) == 0 ? OURS : THEIRS;
    choose_map(map, number_below(&chance, 5));
    if (kind < 7)
        change_map(map, changes[kind]);
    else if (kind == 7)
        choose_within(map, 2 + number_below(&chance, 100));
    else
        choose_map(!map, number_below(&chance, 5));
}

/* ---- what is refused ---- */

static int32_t refuse(void *with, const uint8_t *key, size_t key_length, uint32_t number,
                      const uint8_t **piece, size_t *length) {
    (void)with, (void)key, (void)key_length, (void)number, (void)piece, (void)length;
    return MST_BUSY;
}

static int32_t stop(void *with, const mst_difference *it) {
    (void)it;
    return ++*(int *)with == 3 ? 77 : MST_OK;
}

/* The other one is empty, so all is told, and nothing asked. */
static void callbacks_end_it(void) {
    struct other other = nothing_asked(NEVER);
    int told = 0;
    choose_map(OURS, 1);
    choose_map(THEIRS, 0);
    load(OURS, 1);
    load(THEIRS, 1);
    EXPECT(mst_root(&passes[THEIRS], root, sizeof root) == MST_ROOT_LENGTH);
    EXPECT(mst_differing(&passes[OURS], root, sizeof root, refuse, stop, &told) == 77);
    EXPECT(told == 3 && mst_unpin(&passes[OURS]) == MST_WRONG_STATE);
    EXPECT(mst_root(&passes[OURS], root, sizeof root) == MST_ROOT_LENGTH);
    EXPECT(mst_differing(&passes[THEIRS], root, sizeof root, refuse, stop, &told) == MST_BUSY);
    EXPECT(mst_differing(&passes[OURS], root, sizeof root, refuse, stop, &told) == MST_OK);
    EXPECT(mst_differing(&passes[OURS], root, 31, refuse, stop, &told) == MST_BAD_ROOT);
    EXPECT(mst_differing(&passes[OURS], NULL, 0, refuse, stop, &told) == MST_BAD_ROOT);
    /* the other has no proof by which this is the root digest */
    root[31] ^= 1;
    EXPECT(differ(&other) != MST_OK && other.told == 0);
    close_both();
    EXPECT(mst_differing(&passes[OURS], root, 31, refuse, stop, &told) == MST_CLOSED && told == 3);
}

/* A root digest of the other format. */
static void formats_differ(void) {
    struct other other = nothing_asked(NEVER);
    choose_map(OURS, 2);
    change_map(OURS, 0);
    load(OURS, 1);
    load(THEIRS, 2);
    EXPECT(mst_root(&passes[THEIRS], root, sizeof root) == MST_ROOT_LENGTH);
    EXPECT(differ(&other) == MST_P4_NO_NODE && other.texts == 1 && other.told == 0);
    close_both();
}

int main(int count, char **words) {
    unsigned times = count > 1 ? (unsigned)atoi(words[1]) : 300;
    make_keys();
    for (unsigned at = 0; at < times; at++) {
        choose_maps(at % 9);
        try_maps(1 + at / 9 % 2);
    }
    callbacks_end_it();
    formats_differ();
    return ended("differing");
}
