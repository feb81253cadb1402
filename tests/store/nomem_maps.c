/*
 * A malloc that refuses its n-th call, over a map of many nodes: a range of all its pairs, the
 * proof of a key that it lacks, and batches in the empty map. What is refused leaves the map, the
 * free rows and what was to be told as they were, and nothing is ever leaked.
 */
#include "heap.h"
#include "tests.h"

#define PAIRS 200       /* of nodes in several layers */
#define ROWS 1000
#define LOAD_ROWS 15    /* of a store whose batches are made in the empty map */
#define TRIES 1000      /* more growths than any call has */
#define ROOM (PAIRS * MST_PAIR_LONGEST)
#define BEFORE ((size_t)7) /* stands where a length is to be told */

static mst_pass pass = MST_PASS_CLOSED;
static uint8_t edits[PAIRS * MST_EDIT_LONGEST], wanted[ROOM], room[ROOM];

/* The bytes of a range as the header gives them: the pairs of rising numbers, two bytes each. */
static size_t pairs_of(uint32_t count, uint8_t *bytes) {
    size_t length = 0;
    for (uint32_t number = 0; number < count; number++) {
        const uint8_t pair[] = {0, 2, 0, 1, (uint8_t)(number >> 8), (uint8_t)number,
                                (uint8_t)(number % 251)};
        memcpy(bytes + length, pair, sizeof pair);
        length += sizeof pair;
    }
    return length;
}

/* One batch that puts these pairs in the empty map. */
static void fills(uint32_t count) {
    size_t length = 0, place = 0;
    for (uint32_t number = 0; number < count; number++) {
        const uint8_t key[] = {(uint8_t)(number >> 8), (uint8_t)number};
        const uint8_t value = (uint8_t)(number % 251);
        length = mst_edit_put(edits, length, key, sizeof key, &value, 1);
    }
    EXPECT(mst_apply(&pass, edits, length, &place) == MST_OK);
}

/* Whether a range of at most so many pairs answers them. */
static int32_t ranges(uint32_t most, size_t *count, size_t *length) {
    return mst_range(&pass, NULL, 0, NULL, 0, most, room, sizeof room, count, length);
}

static void has_first_three(void) {
    size_t count = 0, length = 0;
    EXPECT(ranges(3, &count, &length) == MST_OK && count == 3);
    EXPECT(length == pairs_of(3, wanted) && memcmp(room, wanted, length) == 0);
}

/* How many ranges of all pairs were refused before one was not. */
static long refused_ranges(void) {
    for (long n = 0; n < TRIES; n++) {
        size_t count = BEFORE, length = BEFORE;
        long before = live;
        count_from(n);
        int32_t told = ranges(PAIRS, &count, &length);
        count_on();
        EXPECT(live == before);
        if (told == MST_OK) {
            EXPECT(count == PAIRS && length == pairs_of(PAIRS, wanted));
            EXPECT(memcmp(room, wanted, length) == 0);
            return n;
        }
        EXPECT(told == MST_MEMORY && count == BEFORE && length == BEFORE);
        has_first_three();
    }
    return -1;
}

/* How many proofs that the map has no such key were refused before one was not. */
static long refused_proofs(void) {
    size_t size = 0;
    EXPECT(mst_prove(&pass, TEXT("no key of the map"), wanted, sizeof wanted, &size) == MST_OK);
    for (long n = 0; n < TRIES; n++) {
        size_t length = BEFORE;
        long before = live;
        count_from(n);
        int32_t told = mst_prove(&pass, TEXT("no key of the map"), room, sizeof room, &length);
        count_on();
        EXPECT(live == before);
        if (told == MST_OK) {
            EXPECT(length == size && memcmp(room, wanted, size) == 0);
            return n;
        }
        EXPECT(told == MST_MEMORY && length == BEFORE);
    }
    return -1;
}

/* Seven edits of keys of several layers, one of them twice, and one that is not there. */
static size_t seven_edits(void) {
    size_t length = mst_edit_put(edits, 0, TEXT("b"), TEXT("1"));
    length = mst_edit_put(edits, length, TEXT("a"), TEXT("2"));
    length = mst_edit_put(edits, length, TEXT("8"), TEXT("3"));
    length = mst_edit_put(edits, length, TEXT("4l"), TEXT("4"));
    length = mst_edit_remove(edits, length, TEXT("c"));
    length = mst_edit_put(edits, length, TEXT("05f"), TEXT(""));
    return mst_edit_put(edits, length, TEXT("8"), TEXT("5"));
}

static uint32_t free_rows(void) {
    uint32_t rows = 0;
    EXPECT(mst_free_rows(&pass, &rows) == MST_OK);
    return rows;
}

/* How many batches in the empty map were refused before one was not. None takes a row before. */
static long refused_loads(size_t length) {
    for (long n = 0; n < TRIES; n++) {
        size_t place = BEFORE;
        long before = live;
        count_from(n);
        int32_t told = mst_try_apply(&pass, edits, length, &place);
        count_on();
        EXPECT(live == before && place == BEFORE);
        if (told == MST_OK) {
            EXPECT(free_rows() == LOAD_ROWS - 8); /* of five pairs in three nodes */
            return n;
        }
        EXPECT(told == MST_MEMORY && free_rows() == LOAD_ROWS);
    }
    return -1;
}

int main(void) {
    live = 0;
    count_from(-1);
    EXPECT(mst_open(1, ROWS, &pass, 1) == MST_OK);
    fills(PAIRS);
    long ranged = refused_ranges(), proved = refused_proofs();
    EXPECT(ranged > 4 && proved > 1);
    EXPECT(mst_close(&pass) == MST_OK && mst_open(1, LOAD_ROWS, &pass, 1) == MST_OK);
    long loads = refused_loads(seven_edits());
    EXPECT(loads > 3);
    EXPECT(mst_close(&pass) == MST_OK);
    counting = 0;
    EXPECT(live == 0);
    printf("%ld ranges, %ld proofs and %ld loads refused\n", ranged, proved, loads);
    return ended("nomem_maps");
}
