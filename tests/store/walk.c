/*
 * Random calls by eight hands of one store, in one thread: each answer has to be that of a plain
 * sorted list (list.h), and a pinned hand goes on to read the list of its pin. Proofs are judged
 * by the verifier's library. Each 1,000 calls, and at the end, the root digest of each hand is
 * compared with that of a new store, loaded with the pairs that the hand has to read; around each
 * migration the root digest and a proof with those of one that got the pairs by puts.
 *
 *     walk [CALLS [FILE]]        100,000 calls
 *
 * It prints how many calls of each kind there were, how many answers were not the list's, and the
 * list's root digest. The status is 1 if an answer was not the list's. It writes lists to the file,
 * each with its format and its root digest, which walk_roots.py computes anew.
 */
#include "hands.h"
#include <stdlib.h>

#define CALLS 100000
#define BETWEEN_ROOTS 1000  /* how many calls are made between two looks at all root digests */
#define BETWEEN_LISTS 10000 /* and between two lists in the file */
#define ROWS 3000 /* for twice the map, and some pinned versions: at times a write has no room */
#define BETWEEN_MIGRATIONS 8 /* of how many chances of a migration one is taken */
#define MOST_EDITS 20
#define MOST_WRONG 10

static const char *const names[KINDS] = {
    [PUT] = "puts", [REMOVE] = "removes", [BATCH] = "batches", [MIGRATION] = "migrations",
    [WITHOUT_ROOM] = "writes without room", [GET] = "gets", [NEXT] = "nexts", [RANGE] = "ranges",
    [PAGE] = "pages", [PROOF] = "proofs", [VERSION] = "versions", [MADE] = "versions made",
    [LENGTH] = "lengths", [FORMAT] = "formats", [TAKEN_ROWS] = "rows", [FREE_ROWS] = "free rows",
    [PINNED] = "pinned versions", [PIN] = "pins", [UNPIN] = "unpins",
    [WRONG_STATE] = "calls in a wrong state", [ROOT] = "roots",
};

static unsigned long counts[KINDS];

/* ---- counts of rows, and pinned versions ---- */

/* The rows of the map: counted exactly if no version is pinned. */
static enum kind ask_rows(int hand) {
    uint32_t rows = UNTOUCHED;
    int32_t told = mst_rows(&passes[hand], &rows);
    if (told == MST_OK)
        EXPECT(pins == 0 && rows == whole_of(&now)->rows);
    else
        EXPECT(told == (hands[hand].is_pinned ? MST_WRONG_STATE : MST_ROWS_PINNED)
               && pins > 0 && rows == UNTOUCHED);
    return hands[hand].is_pinned ? WRONG_STATE : TAKEN_ROWS;
}

/* Those that the map leaves free, or fewer if a version is pinned. */
static enum kind ask_free_rows(int hand) {
    uint32_t rows = UNTOUCHED;
    int32_t told = mst_free_rows(&passes[hand], &rows);
    if (hands[hand].is_pinned) {
        EXPECT(told == MST_WRONG_STATE && rows == UNTOUCHED);
        return WRONG_STATE;
    }
    EXPECT(told == MST_OK);
    EXPECT(pins > 0 ? rows <= ROWS - now.count : rows == ROWS - whole_of(&now)->rows);
    return FREE_ROWS;
}

/* The versions that hands pin, in rising order, each once. */
static size_t list_pinned(uint64_t *versions) {
    size_t count = 0;
    for (int hand = 0; hand < HANDS; hand++) {
        uint64_t version = hands[hand].pinned.changes;
        size_t at = 0;
        while (at < count && versions[at] < version)
            at++;
        if (!hands[hand].is_pinned || (at < count && versions[at] == version))
            continue;
        memmove(&versions[at + 1], &versions[at], (count - at) * sizeof *versions);
        versions[at] = version;
        count++;
    }
    return count;
}

static enum kind ask_pinned(int hand) {
    uint64_t versions[MST_PASSES_MOST] = {UNTOUCHED}, wanted[HANDS];
    size_t found = UNTOUCHED, count = list_pinned(wanted);
    int32_t told = mst_pinned_versions(&passes[hand], versions, MST_PASSES_MOST, &found);
    if (hands[hand].is_pinned) {
        EXPECT(told == MST_WRONG_STATE && found == UNTOUCHED && versions[0] == UNTOUCHED);
        return WRONG_STATE;
    }
    EXPECT(told == MST_OK && found == count);
    EXPECT(memcmp(versions, wanted, count * sizeof *wanted) == 0);
    return PINNED;
}

/* ---- writes ---- */

/* What a write is that told this: of this kind, or refused. Only beside a pin there is no room. */
static enum kind kind_of(enum kind kind, int hand, int32_t told) {
    if (hands[hand].is_pinned) {
        EXPECT(told == MST_WRONG_STATE);
        return WRONG_STATE;
    }
    EXPECT(told != MST_NO_FREE_ROWS || pins > 0);
    return told == MST_NO_FREE_ROWS ? WITHOUT_ROOM : kind;
}

static enum kind change_once(int hand, int is_put) {
    struct pair pair = choose_pair(&chance);
    uint8_t room[MST_VALUE_LONGEST];
    int32_t told = is_put
        ? mst_try_put(&passes[hand], pair.key, pair.key_length, pair.value, pair.value_length,
                      room, sizeof room)
        : mst_try_remove(&passes[hand], pair.key, pair.key_length, room, sizeof room);
    enum kind kind = kind_of(is_put ? PUT : REMOVE, hand, told);
    if (kind != PUT && kind != REMOVE)
        return kind;
    EXPECT(is_answer(&now, &pair, told, room));
    edit(&now, &pair, is_put);
    hands[hand].made = count_change(&now);
    return kind;
}

/* A pair with the key of one of these or, more often, with any. */
static struct pair choose_edited(const struct pair *before, uint32_t count) {
    struct pair pair = choose_pair(&chance);
    uint32_t place = choose(3 * MOST_EDITS);
    if (place < count) {
        memcpy(pair.key, before[place].key, MST_KEY_LONGEST);
        pair.key_length = before[place].key_length;
    }
    return pair;
}

/* Some edits, at times none, and some of a key twice, as one version. */
static enum kind apply_once(int hand) {
    struct pair pairs[MOST_EDITS];
    int are_puts[MOST_EDITS];
    uint8_t edits[MOST_EDITS * MST_EDIT_LONGEST];
    uint32_t count = choose(MOST_EDITS + 1);
    size_t length = 0, place = UNTOUCHED;
    for (uint32_t i = 0; i < count; i++) {
        pairs[i] = choose_edited(pairs, i);
        are_puts[i] = choose(3) > 0;
        length = write_edit(edits, length, &pairs[i], are_puts[i]);
    }
    int32_t told = mst_try_apply(&passes[hand], edits, length, &place);
    enum kind kind = kind_of(BATCH, hand, told);
    EXPECT(place == UNTOUCHED);
    if (kind != BATCH)
        return kind;
    EXPECT(told == MST_OK);
    for (uint32_t i = 0; i < count; i++)
        edit(&now, &pairs[i], are_puts[i]);
    hands[hand].made = count_change(&now);
    for (uint32_t i = 0; i < count; i++)
        expect_value(hand, &pairs[i]);
    return BATCH;
}

/* Root digest and proof, as of a new store with the pairs that the hand has to read. */
static void compare_with_twin(int hand) {
    static uint8_t proof[PROOF_ROOM], twin_proof[PROOF_ROOM];
    const struct list *list = list_of(hand);
    struct pair key = choose_pair(&chance);
    uint8_t root[MST_ROOT_LENGTH], twin_root[MST_ROOT_LENGTH];
    size_t length = 0, twin_length = 1;
    mst_pass twin = MST_PASS_CLOSED;
    EXPECT(mst_open(list->format, TWIN_ROWS, &twin, 1) == MST_OK);
    put_backwards(&twin, list);
    EXPECT(mst_root(&passes[hand], root, sizeof root) == MST_ROOT_LENGTH);
    EXPECT(mst_root(&twin, twin_root, sizeof twin_root) == MST_ROOT_LENGTH);
    EXPECT(memcmp(root, twin_root, sizeof root) == 0);
    EXPECT(mst_prove(&passes[hand], key.key, key.key_length, proof, PROOF_ROOM, &length)
           == MST_OK);
    EXPECT(mst_prove(&twin, key.key, key.key_length, twin_proof, PROOF_ROOM, &twin_length)
           == MST_OK);
    EXPECT(length == twin_length && memcmp(proof, twin_proof, length) == 0);
    EXPECT(mst_close(&twin) == MST_OK);
}

/* To either format. There is no room exactly if fewer rows are free than the new tree has. */
static enum kind migrate_once(int hand) {
    uint32_t to = 1 + choose(2), rows = 0;
    uint32_t needed = to == now.format ? 0 : whole_in(&now, to).rows;
    compare_with_twin(hand);
    int is_counted = mst_free_rows(&passes[hand], &rows) == MST_OK;
    int32_t told = mst_try_migrate(&passes[hand], to);
    enum kind kind = kind_of(MIGRATION, hand, told);
    EXPECT(is_counted == !hands[hand].is_pinned);
    EXPECT(!is_counted || (told == MST_NO_FREE_ROWS) == (rows < needed));
    if (kind != MIGRATION)
        return kind;
    EXPECT(told == (int32_t)now.format);
    now.format = to;
    hands[hand].made = count_change(&now);
    compare_with_twin(hand);
    return MIGRATION;
}

/* ---- pins ---- */

static enum kind pin_once(int hand) {
    EXPECT(mst_unpin(&passes[hand]) == MST_WRONG_STATE);
    EXPECT(mst_pin(&passes[hand]) == MST_OK);
    hands[hand].pinned = now;
    hands[hand].is_pinned = 1;
    pins++;
    return PIN;
}

static enum kind unpin_once(int hand) {
    EXPECT(mst_pin(&passes[hand]) == MST_WRONG_STATE);
    EXPECT(mst_unpin(&passes[hand]) == MST_OK);
    hands[hand].is_pinned = 0;
    pins--;
    return UNPIN;
}

/* ---- the walk ---- */

/* Now and then, since a migration makes the whole tree anew, and so do its comparisons. */
static enum kind migrate_or_read(int hand) {
    return choose(BETWEEN_MIGRATIONS) == 0 ? migrate_once(hand) : read_once(hand);
}

/* A call that a pinned hand is refused. */
static enum kind refused_once(int hand) {
    switch (choose(7)) {
    case 0: return change_once(hand, 0);
    case 1: return change_once(hand, 1);
    case 2: return apply_once(hand);
    case 3: return migrate_or_read(hand);
    case 4: return ask_rows(hand);
    case 5: return ask_pinned(hand);
    default: return ask_free_rows(hand);
    }
}

static enum kind step_pinned(int hand) {
    uint32_t choice = choose(64);
    if (choice < 2)
        return unpin_once(hand);
    return choice < 4 ? refused_once(hand) : read_once(hand);
}

static enum kind step_free(int hand) {
    uint32_t choice = choose(64);
    if (choice < 25)
        return change_once(hand, 1);
    if (choice < 38)
        return change_once(hand, 0);
    switch (choice) {
    case 38: return pin_once(hand);
    case 39: return ask_rows(hand);
    case 40: return ask_free_rows(hand);
    case 41: return migrate_or_read(hand);
    case 42: return ask_pinned(hand);
    default: return choice < 45 ? apply_once(hand) : read_once(hand);
    }
}

static void look_at_all(void) {
    for (int hand = 0; hand < HANDS; hand++) {
        uint8_t root[MST_ROOT_LENGTH];
        EXPECT(mst_root(&passes[hand], root, sizeof root) == MST_ROOT_LENGTH);
        EXPECT(memcmp(root, whole_of(list_of(hand))->root, sizeof root) == 0);
        counts[ROOT]++;
        counts[ask_made(hand)]++;
    }
}

/* ---- the report ---- */

static void write_bytes(FILE *to, const uint8_t *bytes, size_t length) {
    for (size_t i = 0; i < length; i++)
        fprintf(to, "%02x", bytes[i]);
    fputc('\n', to);
}

/* The list: its format, its root digest, then each key and value, and a line with no byte. */
static void write_list(FILE *to) {
    fprintf(to, "%u\n", (unsigned)now.format);
    write_bytes(to, whole_of(&now)->root, MST_ROOT_LENGTH);
    for (size_t i = 0; i < now.count; i++) {
        write_bytes(to, now.pairs[i].key, now.pairs[i].key_length);
        write_bytes(to, now.pairs[i].value, now.pairs[i].value_length);
    }
    fputc('\n', to);
}

static void report(unsigned long calls) {
    printf("calls %lu\n", calls);
    for (int kind = 0; kind < KINDS; kind++)
        printf("%s %lu\n", names[kind], counts[kind]);
    printf("differences %d\nkeys %zu\nroot ", wrong, now.count);
    write_bytes(stdout, whole_of(&now)->root, MST_ROOT_LENGTH);
}

static void walk(unsigned long calls, FILE *lists) {
    for (unsigned long i = 0; i < calls && wrong < MOST_WRONG; i++) {
        int hand = (int)choose(HANDS);
        if (i % BETWEEN_ROOTS == 0)
            look_at_all();
        if (lists != NULL && i % BETWEEN_LISTS == 0)
            write_list(lists);
        counts[hands[hand].is_pinned ? step_pinned(hand) : step_free(hand)]++;
    }
    look_at_all();
}

int main(int argc, char **argv) {
    unsigned long calls = argc > 1 ? strtoul(argv[1], NULL, 10) : CALLS;
    FILE *lists = argc > 2 ? fopen(argv[2], "w") : NULL;
    if (calls == 0 || argc > 3 || (argc > 2 && lists == NULL)) {
        fputs("walk [CALLS [FILE]]\n", stderr);
        return 2;
    }
    now.format = 1;
    EXPECT(mst_open(now.format, ROWS, passes, HANDS) == MST_OK);
    walk(calls, lists);
    for (int hand = 0; hand < HANDS; hand++)
        EXPECT(mst_close(&passes[hand]) == MST_OK);
    EXPECT(lists == NULL || fclose(lists) == 0);
    report(calls);
    return wrong != 0;
}
