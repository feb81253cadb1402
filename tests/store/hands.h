/* The hands of one store, the list that each has to read, and random reads beside it. */
#ifndef HANDS_H
#define HANDS_H

#include "list.h"
#include "mst_verifier.h"

#define HANDS 8
#define SEED 2019
#define MOST_PAIRS 32
#define PROOF_ROOM 65536
#define UNTOUCHED 77 /* what stands where a call has to write nothing */

/* What a call was. */
enum kind {
    PUT, REMOVE, BATCH, MIGRATION, WITHOUT_ROOM, GET, NEXT, RANGE, PAGE, PROOF, VERSION, MADE,
    LENGTH, FORMAT, TAKEN_ROWS, FREE_ROWS, PINNED, PIN, UNPIN, WRONG_STATE, ROOT, KINDS
};

struct hand {
    int is_pinned;
    struct list pinned; /* the list as it was at the pin */
    uint64_t made;      /* the version that the last write of the hand made; none: 0 */
};

static uint64_t chance = SEED;
static struct list now;
static struct hand hands[HANDS];
static mst_pass passes[HANDS];
static int pins; /* of how many hands */

static uint32_t choose(uint32_t bound) {
    return number_below(&chance, bound);
}

static struct list *list_of(int hand) {
    return hands[hand].is_pinned ? &hands[hand].pinned : &now;
}

/* A key to begin or to end with or, one time of eight, none. */
static struct pair choose_bound(void) {
    struct pair bound = choose_pair(&chance);
    if (choose(8) == 0)
        bound.key_length = 0;
    return bound;
}

static void expect_value(int hand, const struct pair *key) {
    uint8_t room[MST_VALUE_LONGEST];
    int32_t told = mst_get(&passes[hand], key->key, key->key_length, room, sizeof room);
    EXPECT(is_answer(list_of(hand), key, told, room));
}

static enum kind get_once(int hand) {
    struct pair key = choose_pair(&chance);
    expect_value(hand, &key);
    return GET;
}

static enum kind next_once(int hand) {
    const struct list *list = list_of(hand);
    uint8_t key[MST_KEY_LONGEST], room[MST_VALUE_LONGEST];
    struct pair after = choose_bound();
    size_t length = UNTOUCHED, place;
    if (find(list, &after, &place))
        place++;
    int32_t told = mst_next(&passes[hand], after.key, after.key_length, key, sizeof key, &length,
                            room, sizeof room);
    if (place == list->count)
        EXPECT(told == MST_ABSENT && length == UNTOUCHED);
    else
        EXPECT(is_value(told, room, &list->pairs[place])
               && is_key(key, length, &list->pairs[place]));
    return NEXT;
}

/* Whether these pairs, and no more bytes, stand in the room. */
static int has_pairs(const uint8_t *room, size_t length, const struct pair *pairs, size_t count) {
    size_t at = 0;
    for (size_t i = 0; i < count; i++) {
        mst_pair found;
        at = mst_pair_at(room, at, &found);
        if (!is_key(found.key, found.key_length, &pairs[i])
            || !is_value((int32_t)found.value_length, found.value, &pairs[i]))
            return 0;
    }
    return at == length;
}

/* The length of a room for so many bytes: any or, one time of four, no more than they need. */
static size_t choose_room(size_t bytes, size_t longest) {
    if (bytes > 0 && choose(4) == 0)
        return bytes - choose(2);
    return choose((uint32_t)longest + 1);
}

/* A range or a page by random bounds and a random limit, into a room that may be too short. */
static enum kind pairs_once(int hand, int is_page) {
    const struct list *list = list_of(hand);
    struct pair from = choose_bound(), to = choose_bound();
    uint8_t room[MOST_PAIRS * MST_PAIR_LONGEST];
    uint32_t limit = choose(MOST_PAIRS + 1);
    size_t count = 0, length = 0, bytes = 0, first, behind = list->count;
    if (find(list, &from, &first) && is_page)
        first++;
    if (to.key_length > 0)
        find(list, &to, &behind);
    size_t pairs = behind <= first ? 0 : behind - first < limit ? behind - first : limit;
    for (size_t i = first; i < first + pairs; i++)
        bytes += 4 + list->pairs[i].key_length + list->pairs[i].value_length;
    size_t room_length = choose_room(bytes, sizeof room);
    int32_t told = (is_page ? mst_page_after : mst_range)(
        &passes[hand], from.key, from.key_length, to.key, to.key_length, limit, room, room_length,
        &count, &length);
    EXPECT(told == (room_length < bytes ? MST_SHORT_ROOM : MST_OK));
    EXPECT(count == pairs && length == bytes);
    EXPECT(told != MST_OK || has_pairs(room, length, &list->pairs[first], pairs));
    return is_page ? PAGE : RANGE;
}

/* A proof, by which the verifier finds the list's answer under the list's root digest. */
static enum kind prove_once(int hand) {
    static uint8_t proof[PROOF_ROOM];
    struct list *list = list_of(hand);
    struct pair key = choose_pair(&chance);
    uint8_t value[MST_VALUE_ROOM];
    size_t length = 0;
    EXPECT(mst_prove(&passes[hand], key.key, key.key_length, proof, PROOF_ROOM, &length)
           == MST_OK);
    int32_t told = mst_verify(list->format, whole_of(list)->root, MST_ROOT_LENGTH, key.key,
                              key.key_length, proof, length, value, sizeof value);
    EXPECT(is_answer(list, &key, told, value));
    return PROOF;
}

static enum kind ask_version(int hand) {
    uint64_t version = UNTOUCHED;
    EXPECT(mst_version(&passes[hand], &version) == MST_OK);
    EXPECT(version == list_of(hand)->changes);
    return VERSION;
}

static enum kind ask_made(int hand) {
    uint64_t version = UNTOUCHED, made = hands[hand].made;
    int32_t told = mst_made(&passes[hand], &version);
    EXPECT(made == 0 ? told == MST_ABSENT && version == UNTOUCHED
                     : told == MST_OK && version == made);
    return MADE;
}

static enum kind ask_len(int hand) {
    uint64_t count = UNTOUCHED;
    EXPECT(mst_len(&passes[hand], &count) == MST_OK);
    EXPECT(count == list_of(hand)->count);
    return LENGTH;
}

static enum kind ask_format(int hand) {
    EXPECT(mst_format(&passes[hand]) == (int32_t)list_of(hand)->format);
    return FORMAT;
}

/* One of the reads that free and pinned hands have. */
static enum kind read_once(int hand) {
    uint32_t choice = choose(64);
    if (choice < 8)
        return pairs_once(hand, choice % 2);
    switch (choice) {
    case 8: return prove_once(hand);
    case 9: return ask_version(hand);
    case 10: return ask_made(hand);
    case 11: return ask_format(hand);
    case 12: return ask_len(hand);
    default: return choice < 32 ? next_once(hand) : get_once(hand);
    }
}

#endif
