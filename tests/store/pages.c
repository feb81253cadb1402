/*
 * Pages behind a key: against mst_next and a whole range, over keys that few others lie between, by
 * free and by pinned passes; and what mst_page_after refuses.
 */
#include "tests.h"
#include <stdlib.h>

#define KEYS 3000
#define ROOM (64 * MST_PAIR_LONGEST)

struct key {
    uint8_t bytes[MST_KEY_LONGEST];
    size_t length;
};

static uint64_t state = 88172645463325252u;
static mst_pass passes[2];
static uint8_t all[KEYS * MST_PAIR_LONGEST], room[ROOM], old[MST_VALUE_LONGEST];
static size_t count, length;

static uint32_t random_below(uint32_t limit) {
    state ^= state << 13;
    state ^= state >> 7;
    state ^= state << 17;
    return (uint32_t)(state >> 32) % limit;
}

/*
 * A key of which many are near others: mostly of 31 and 32 bytes, the first ones equal, the last
 * ones zero or 255.
 */
static struct key random_key(void) {
    static const uint8_t ends[] = {0, 0, 1, 0x7F, 0xFE, 0xFF, 0xFF, 0xFF};
    static const size_t lengths[] = {1, 2, 3, 30, 31, 31, 32, 32, 32, 32};
    struct key key = {{0}, lengths[random_below(10)]};
    uint8_t first = ends[random_below(8)];
    for (size_t i = 0; i < key.length; i++)
        key.bytes[i] = i < 28 && random_below(100) ? first : ends[random_below(8)];
    return key;
}

static int32_t page(mst_pass *pass, const uint8_t *after, size_t after_length, uint32_t limit) {
    return mst_page_after(pass, after, after_length, NULL, 0, limit, room, sizeof room, &count,
                          &length);
}

/* A page of one pair has what mst_next finds. */
static void is_next(mst_pass *pass, const struct key *key) {
    uint8_t next[MST_KEY_LONGEST], value[MST_VALUE_LONGEST];
    size_t next_length = 0;
    mst_pair pair;
    int32_t told = mst_next(pass, key->bytes, key->length, next, sizeof next, &next_length,
                            value, sizeof value);
    EXPECT(page(pass, key->bytes, key->length, 1) == MST_OK);
    EXPECT(count == (told >= 0));
    if (told < 0 || count == 0) {
        EXPECT(told == MST_ABSENT && length == 0);
        return;
    }
    EXPECT(mst_pair_at(room, 0, &pair) == length && pair.key_length == next_length);
    EXPECT(memcmp(pair.key, next, next_length) == 0);
    EXPECT(pair.value_length == (size_t)told && memcmp(pair.value, value, (size_t)told) == 0);
}

/* The pages, one after the other, are the range of all pairs. Returns the number of pairs. */
static size_t are_all(mst_pass *pass, uint32_t limit) {
    uint8_t last[MST_KEY_LONGEST];
    size_t last_length = 0, at = 0, pairs = 0, full = 0;
    EXPECT(mst_range(pass, NULL, 0, NULL, 0, KEYS, all, sizeof all, &pairs, &full) == MST_OK);
    for (;;) {
        mst_pair pair = {NULL, NULL, 0, 0};
        EXPECT(page(pass, last, last_length, limit) == MST_OK && count <= limit);
        if (count == 0)
            break;
        EXPECT(at + length <= full && memcmp(all + at, room, length) == 0);
        at += length;
        for (size_t in = 0; in < length;)
            in = mst_pair_at(room, in, &pair);
        last_length = pair.key_length;
        memcpy(last, pair.key, last_length);
    }
    EXPECT(at == full);
    return pairs;
}

static void fill(void) {
    for (size_t i = 0; i < KEYS; i++) {
        struct key key = random_key();
        int32_t told = mst_put(&passes[0], key.bytes, key.length, key.bytes, i % 33, old, 64);
        EXPECT(told == MST_ABSENT || told >= 0);
    }
}

/* Any keys, those of the map among them, and the greatest of all. */
static void each_is_next(mst_pass *pass) {
    struct key key = {{0}, MST_KEY_LONGEST};
    memset(key.bytes, 0xFF, sizeof key.bytes);
    is_next(pass, &key);
    key.bytes[31] = 0xFE;
    is_next(pass, &key);
    key.length = 31;
    is_next(pass, &key);
    for (int i = 0; i < 3 * KEYS; i++) {
        key = random_key();
        is_next(pass, &key);
    }
    EXPECT(page(pass, NULL, 0, 1) == MST_OK && count == 1);
}

/* The upper bound is outside, and the lower one too. */
static void bounds(void) {
    EXPECT(mst_page_after(&passes[0], TEXT("a"), TEXT("c"), 9, room, sizeof room, &count, &length)
           == MST_OK);
    size_t between = count;
    EXPECT(mst_put(&passes[0], TEXT("a"), TEXT("1"), old, 64) == MST_ABSENT);
    EXPECT(mst_put(&passes[0], TEXT("b"), TEXT("2"), old, 64) == MST_ABSENT);
    EXPECT(mst_put(&passes[0], TEXT("c"), TEXT("3"), old, 64) == MST_ABSENT);
    EXPECT(mst_page_after(&passes[0], TEXT("a"), TEXT("c"), 9, room, sizeof room, &count, &length)
           == MST_OK && count == between + 1);
    EXPECT(mst_page_after(&passes[0], TEXT("c"), TEXT("c"), 9, NULL, 0, &count, &length) == MST_OK
           && count == 0 && length == 0);
}

static void refusals(void) {
    static const uint8_t bytes[33] = {1};
    uint8_t top[MST_KEY_LONGEST];
    mst_pass closed = MST_PASS_CLOSED;
    memset(top, 0xFF, sizeof top);
    count = length = 77;
    EXPECT(page(&closed, bytes, 33, 9) == MST_CLOSED && page(&closed, top, 32, 9) == MST_CLOSED);
    EXPECT(page(&passes[0], bytes, 33, 9) == MST_BAD_KEY);
    EXPECT(page(&passes[0], bytes, SIZE_MAX, 9) == MST_BAD_KEY);
    EXPECT(mst_page_after(&passes[0], top, 32, bytes, 33, 9, room, ROOM, &count, &length)
           == MST_BAD_KEY);
    EXPECT(mst_page_after(&passes[0], bytes, 1, bytes, SIZE_MAX, 9, room, ROOM, &count, &length)
           == MST_BAD_KEY);
    EXPECT(count == 77 && length == 77);
    EXPECT(mst_page_after(&passes[0], NULL, 0, NULL, 0, 2, NULL, 0, &count, &length)
           == MST_SHORT_ROOM && count == 2 && length >= 2 * 5);
    EXPECT(page(&passes[0], NULL, 0, 0) == MST_OK && count == 0 && length == 0);
}

int main(void) {
    EXPECT(mst_open(1, MST_ROWS_MOST, passes, 2) == MST_OK);
    EXPECT(page(&passes[0], NULL, 0, 9) == MST_OK && count == 0 && length == 0);
    fill();
    EXPECT(mst_pin(&passes[1]) == MST_OK);
    size_t pairs = are_all(&passes[1], 64);
    EXPECT(pairs > KEYS / 3 && are_all(&passes[0], 7) == pairs);
    each_is_next(&passes[1]);
    bounds();
    EXPECT(are_all(&passes[0], 1) == pairs + 3 && are_all(&passes[1], 63) == pairs);
    refusals();
    EXPECT(mst_close(&passes[0]) == MST_OK && mst_close(&passes[1]) == MST_OK);
    return ended("pages");
}
