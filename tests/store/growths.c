/*
 * Memory that is refused to calls of two passes of a small store, each in heaps of ever more bytes:
 * it returns MST_MEMORY, gives all back and leaves all as it was, until a heap suffices; then its
 * answer is right. And shapes, which are looked at before any memory is asked for.
 */
#include "heap.h"
#include "calls.h"

#define UNIT 16 /* how many bytes a heap has more than the one before */
#define MOST_HEAPS 1024
#define ROWS 8
#define LEAST_WORDS 2048 /* the bytes that the words of a small store's table take at least */

static mst_pass passes[2] = {MST_PASS_CLOSED, MST_PASS_CLOSED};
static mst_pass *one = &passes[0], *other = &passes[1];

/* Of a with 1 and abc with x, in an order that is not that of the keys, by way of others. */
static const struct edit edits[] = {
    {"b", "2"}, {"abc", "y"}, {"a", "1"}, {"b", NULL}, {"abc", "x"}, {"z", NULL},
};

static void opens(void) {
    EXPECT(mst_open(1, ROWS, passes, 2) == MST_OK);
}

static void closes(void) {
    EXPECT(mst_close(one) == MST_OK && mst_close(other) == MST_OK);
    EXPECT(live == 0 && held == 0);
}

/* Makes the call in a heap of so many bytes, of which it keeps none. */
static int32_t told_in(size_t bytes, int32_t (*call)(void)) {
    size_t before = held;
    grant(bytes);
    int32_t told = call();
    grant_all();
    EXPECT(held == before);
    return told;
}

/* How many heaps were too small for the call, after each of which all is as it was. */
static long refused_heaps(int32_t (*call)(void), int (*is_as_it_was)(void)) {
    for (long units = 1; units < MOST_HEAPS; units++) {
        int32_t told = told_in((size_t)units * UNIT, call);
        if (told != MST_MEMORY) {
            EXPECT(told == MST_OK);
            return units - 1;
        }
        EXPECT(is_as_it_was());
    }
    EXPECT(!"refused with ample memory");
    return 0;
}

/* ---- opening */

static int32_t opens_and_closes(void) {
    int32_t told = mst_open(1, ROWS, passes, 2);
    int32_t closed = told == MST_OK ? MST_OK : MST_CLOSED;
    EXPECT(mst_close(one) == closed && mst_close(other) == closed);
    return told;
}

/* Once a store is opened, it is in each larger heap too. */
static void openings(void) {
    long refused = 0;
    for (long units = 1; units < MOST_HEAPS; units++) {
        int32_t told = told_in((size_t)units * UNIT, opens_and_closes);
        EXPECT(told == MST_OK || (told == MST_MEMORY && refused == units - 1));
        refused += told == MST_MEMORY;
        EXPECT(live == 0);
    }
    /* the words are not all: growths beyond the first are refused too */
    EXPECT(LEAST_WORDS / UNIT <= refused && refused < MOST_HEAPS - 1);
}

/* A store of this shape, in a heap of so many bytes. */
static int32_t shape_in(size_t bytes, uint32_t rows, size_t count) {
    mst_pass hands[MST_PASSES_MOST + 1];
    memset(hands, 0, sizeof hands);
    size_t before = held;
    grant(bytes);
    int32_t told = mst_open(1, rows, hands, count);
    grant_all();
    for (size_t i = 0; i < count; i++)
        EXPECT(mst_close(&hands[i]) == (told == MST_OK ? MST_OK : MST_CLOSED));
    EXPECT(held == before);
    return told;
}

static void shapes(void) {
    static const struct {
        uint32_t rows;
        size_t count;
        int32_t told; /* with little memory; with ample memory MST_OK where that is MST_MEMORY */
    } cases[] = {
        {MST_ROWS_LEAST - 1, 1, MST_BAD_SHAPE},
        {MST_ROWS_MOST + 1, 1, MST_BAD_SHAPE},
        {MST_ROWS_LEAST, 0, MST_BAD_SHAPE},
        {MST_ROWS_LEAST, MST_PASSES_MOST + 1, MST_BAD_SHAPE},
        {MST_ROWS_LEAST, 1, MST_MEMORY},
        {MST_ROWS_LEAST, MST_PASSES_MOST, MST_MEMORY},
        {MST_ROWS_MOST, 1, MST_MEMORY},
    };
    for (size_t i = 0; i < sizeof cases / sizeof *cases; i++) {
        int32_t ample = cases[i].told == MST_MEMORY ? MST_OK : MST_BAD_SHAPE;
        EXPECT(shape_in(4 * UNIT, cases[i].rows, cases[i].count) == cases[i].told);
        EXPECT(shape_in((size_t)1 << 30, cases[i].rows, cases[i].count) == ample);
    }
}

/* ---- reads */

static int32_t ranges(void) {
    return lists(one, 2);
}

static int32_t proves(void) {
    return proves_both(one);
}

static int as_ever(void) {
    return 1;
}

static int still_gets(void) {
    return has(one, "a", "1");
}

static void puts_both(void) {
    EXPECT(puts_at(one, "abc", "x", NULL) && puts_at(one, "a", "1", NULL));
}

static void reads(void) {
    opens();
    puts_both();
    EXPECT(refused_heaps(ranges, as_ever) > 0);
    EXPECT(refused_heaps(proves, as_ever) > 0 && takes_rows(one, 3));
    closes();
}

/* While the other pass writes; the rows that the pin kept are free after it. */
static void pinned_reads(void) {
    opens();
    EXPECT(puts_at(other, "a", "1", NULL) && puts_at(one, "abc", "x", NULL));
    EXPECT(mst_pin(one) == MST_OK && puts_at(other, "a", "2", "1"));
    EXPECT(refused_heaps(ranges, still_gets) > 0 && refused_heaps(proves, still_gets) > 0);
    EXPECT(mst_unpin(one) == MST_OK && takes_rows(one, 3) && has(one, "a", "2"));
    closes();
}

/* Neither a range nor a proof has enough in the least heap. */
static int are_starved(void) {
    return told_in(UNIT, ranges) == MST_MEMORY && told_in(UNIT, proves) == MST_MEMORY;
}

/* The pins of refused reads are over: a version can be published, and read. */
static void reads_again(void) {
    opens();
    EXPECT(puts_at(one, "abc", "x", NULL));
    for (int i = 0; i < 3; i++)
        EXPECT(are_starved() && has(one, "abc", "x"));
    EXPECT(takes_rows(one, 2) && puts_at(one, "a", "1", NULL));
    EXPECT(ranges() == MST_OK && proves() == MST_OK);
    closes();
}

static int reads_both(mst_pass *pass) {
    return has_version(pass, 2) && has_root(pass, root_of_both) && has(pass, "a", "1")
        && has(pass, "b", NULL) && begins_with(pass, "a") && lists(pass, 2) == MST_OK
        && proves_both(pass) == MST_OK;
}

/* A pinned pass keeps its pin. */
static void pinned_reads_again(void) {
    opens();
    EXPECT(puts_at(other, "a", "1", NULL) && puts_at(other, "abc", "x", NULL));
    EXPECT(mst_pin(one) == MST_OK && are_starved());
    EXPECT(puts_at(other, "a", "2", "1") && reads_both(one));
    EXPECT(mst_unpin(one) == MST_OK && !has_root(one, root_of_both) && has(one, "a", "2"));
    closes();
}

/* ---- migrations */

static uint32_t format; /* before the migration */
static uint64_t version;
static uint32_t rows;
static uint8_t root[MST_ROOT_LENGTH];

static int32_t migrates(void) {
    int32_t told = mst_try_migrate(one, 3 - format);
    return told == (int32_t)format ? MST_OK : told;
}

static int stays(mst_pass *pass) {
    return has_version(pass, version) && has_root(pass, root) && takes_rows(pass, rows)
        && mst_format(pass) == (int32_t)format && has(pass, "9", "1");
}

/* Both passes see the map as before, and the turn can be had. */
static int both_stay(void) {
    return stays(other) && stays(one);
}

/* From this format, in which the map of 1 with a and 9 with 1 takes so many rows. */
static void migrations_from(uint32_t from, uint32_t taken) {
    format = from;
    rows = taken;
    EXPECT(mst_version(one, &version) == MST_OK && mst_root(one, root, sizeof root) == 32);
    EXPECT(refused_heaps(migrates, both_stay) > 2);
    EXPECT(has_version(other, version + 1) && mst_format(other) == (int32_t)(3 - from));
}

/* In format 2 the key 9 stands in a node above that of 1. */
static void migrations(void) {
    uint8_t first[MST_ROOT_LENGTH];
    opens();
    EXPECT(puts_at(one, "1", "a", NULL) && puts_at(one, "9", "1", NULL));
    EXPECT(mst_root(one, first, sizeof first) == 32);
    migrations_from(1, 3);
    EXPECT(!has_root(other, first));
    migrations_from(2, 4);
    EXPECT(has_root(other, first) && has_version(other, 4));
    closes();
}

/* ---- batches */

static int32_t applies_edits(void) {
    return applies(one, edits, sizeof edits / sizeof *edits);
}

static int have_one_pair(void) {
    return has_version(other, 1) && takes_rows(other, 2) && has(other, "abc", "x")
        && has_version(one, 1) && takes_rows(one, 2) && has(one, "abc", "x");
}

static void batches(void) {
    opens();
    EXPECT(puts_at(one, "abc", "x", NULL));
    EXPECT(refused_heaps(applies_edits, have_one_pair) > 2);
    EXPECT(has_root(other, root_of_both) && has_version(other, 2));
    closes();
}

int main(void) {
    count_from(-1);
    openings();
    shapes();
    reads();
    pinned_reads();
    reads_again();
    pinned_reads_again();
    migrations();
    batches();
    counting = 0;
    return ended("growths");
}
