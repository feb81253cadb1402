/*
 * Threads at one store: two that write, by tries and by calls that wait; one that reads a pinned
 * version while another puts; and some that make batches and migrate, beside others that pin, and
 * see all edits of a batch or none.
 */
#include "racing.h"
#include <sched.h>

#define TRIES 100000000 /* how often a write is tried at most, before each time others go first */
#define VALUES 100
#define MIGRATES_EACH 10 /* how many puts a thread makes before each migration */
#define PUTS 1000
#define BATCHES 500
#define READS 1000
#define KEYS 4

static mst_pass passes[5];

static void opens(uint32_t rows, size_t count) {
    EXPECT(mst_open(1, rows, passes, count) == MST_OK);
}

static void closes(size_t count) {
    for (size_t i = 0; i < count; i++)
        EXPECT(mst_close(&passes[i]) == MST_OK);
}

/* ---- two threads that write, each at a key of its own */

static const char *const own_keys[] = {"a", "b"};

/* Whether another pass has the turn, or holds the rows for a moment: it goes first. */
static int is_to_be_tried_again(int32_t told) {
    return (told == MST_BUSY || told == MST_NO_FREE_ROWS) && sched_yield() == 0;
}

static int puts_by_tries(mst_pass *pass, const char *key, uint8_t value) {
    uint8_t room[MST_VALUE_LONGEST];
    int32_t told = MST_BUSY;
    for (int i = 0; i < TRIES && is_to_be_tried_again(told); i++)
        told = mst_try_put(pass, BYTES(key), &value, 1, room, sizeof room);
    return told == 1 || told == MST_ABSENT;
}

static int moves_by_tries(mst_pass *pass, uint32_t to) {
    int32_t told = MST_BUSY;
    for (int i = 0; i < TRIES && is_to_be_tried_again(told); i++)
        told = mst_try_migrate(pass, to);
    return told == 1 || told == 2;
}

/* Puts all values, and migrates to and fro after every tenth, at last to format 1. */
static int puts_and_moves(mst_pass *pass, int number) {
    for (uint8_t value = 0; value < VALUES; value++) {
        if (!puts_by_tries(pass, own_keys[number], value))
            return 0;
        uint32_t to = value % (2 * MIGRATES_EACH) == MIGRATES_EACH - 1 ? 2 : 1;
        if (value % MIGRATES_EACH == MIGRATES_EACH - 1 && !moves_by_tries(pass, to))
            return 0;
    }
    return 1;
}

static int has_last_value(mst_pass *pass, const char *key) {
    uint8_t room[MST_VALUE_LONGEST];
    return mst_get(pass, BYTES(key), room, sizeof room) == 1 && room[0] == VALUES - 1;
}

static void two_that_try(void) {
    struct work work[] = {
        {puts_and_moves, &passes[0], 0, 0}, {puts_and_moves, &passes[1], 1, 0},
    };
    opens(8, 2);
    EXPECT(all_work(work, 2));
    for (int i = 0; i < 2; i++)
        EXPECT(has_last_value(&passes[i], "a") && has_last_value(&passes[i], "b"));
    EXPECT(has_version(&passes[0], 2 * (VALUES + VALUES / MIGRATES_EACH)));
    EXPECT(mst_format(&passes[1]) == 1 && takes_rows(&passes[1], 3));
    closes(2);
}

/* Whether each write that waits finds what the one before it left. */
static int puts_and_removes(mst_pass *pass, int number) {
    uint8_t room[MST_VALUE_LONGEST];
    const char *key = own_keys[number];
    for (uint8_t value = 0; value < VALUES; value++)
        if (mst_put(pass, BYTES(key), &value, 1, room, sizeof room) != MST_ABSENT
            || mst_remove(pass, BYTES(key), room, sizeof room) != 1 || room[0] != value)
            return 0;
    return 1;
}

static void two_that_wait(void) {
    struct work work[] = {
        {puts_and_removes, &passes[0], 0, 0}, {puts_and_removes, &passes[1], 1, 0},
    };
    opens(16, 2);
    EXPECT(all_work(work, 2));
    EXPECT(has_root(&passes[0], root_of_none) && has_root(&passes[1], root_of_none));
    EXPECT(has_version(&passes[0], 4 * VALUES));
    closes(2);
}

/* ---- a pinned version, read while another thread puts */

static int puts_on(mst_pass *pass, int unused) {
    uint8_t room[MST_VALUE_LONGEST], old = '1';
    (void)unused;
    for (int i = 1; i <= PUTS; i++) {
        uint8_t value = (uint8_t)i;
        if (mst_try_put(pass, TEXT("a"), &value, 1, room, sizeof room) != 1 || room[0] != old)
            return 0;
        old = value;
    }
    return 1;
}

static int reads_on(mst_pass *pass, int unused) {
    (void)unused;
    for (int i = 0; i < READS; i++)
        if (!has(pass, "a", "1"))
            return 0;
    return 1;
}

static void one_that_is_pinned(void) {
    struct work work[] = {{reads_on, &passes[0], 0, 0}, {puts_on, &passes[1], 0, 0}};
    opens(8, 2);
    EXPECT(puts_at(&passes[1], "a", "1", NULL) && mst_pin(&passes[0]) == MST_OK);
    EXPECT(all_work(work, 2));
    closes(2);
}

/* ---- batches that are seen whole or not at all */

/* In format 1 the key 39 stands above the others, and in format 2 also 9 above 1 and a. */
static const char *const keys[KEYS] = {"1", "39", "9", "a"};

/* Batches that leave one value at each of the keys, another, or none. */
static const struct edit one_value[KEYS] = {{"a", "1"}, {"9", "1"}, {"39", "1"}, {"1", "1"}};
static const struct edit other_value[KEYS] = {{"1", "2"}, {"39", "2"}, {"9", "2"}, {"a", "2"}};
static const struct edit no_value[KEYS] = {{"39", NULL}, {"1", NULL}, {"a", NULL}, {"9", NULL}};

/* What the two threads make, in turns. */
static const struct edit *const turns[2][2] = {{one_value, no_value}, {other_value, one_value}};

static int applies_in_turns(mst_pass *pass, int number) {
    uint8_t bytes[BATCH_ROOM];
    for (int i = 0; i < BATCHES; i++) {
        size_t place, length = batch_of(bytes, turns[number][i % 2], KEYS);
        if (mst_apply(pass, bytes, length, &place) != MST_OK)
            return 0;
    }
    return 1;
}

static int moves(mst_pass *pass, int unused) {
    (void)unused;
    return moves_to_and_fro(pass, BATCHES / 2);
}

/* Whether all keys have one value in the pinned version, or none has any. */
static int is_whole(mst_pass *pass) {
    uint8_t first[MST_VALUE_LONGEST], room[MST_VALUE_LONGEST];
    int32_t wanted = mst_get(pass, BYTES(keys[0]), first, sizeof first);
    if (wanted != 1 && wanted != MST_ABSENT)
        return 0;
    for (int i = 1; i < KEYS; i++)
        if (mst_get(pass, BYTES(keys[i]), room, sizeof room) != wanted
            || (wanted == 1 && room[0] != first[0]))
            return 0;
    return 1;
}

static int reads_whole(mst_pass *pass, int unused) {
    (void)unused;
    for (int i = 0; i < READS; i++)
        if (mst_pin(pass) != MST_OK || !is_whole(pass) || mst_unpin(pass) != MST_OK)
            return 0;
    return 1;
}

/* Each pass holds the rows of one version at most, and a version takes at most eight. */
static void batches_are_whole(void) {
    struct work work[] = {
        {applies_in_turns, &passes[0], 0, 0}, {applies_in_turns, &passes[1], 1, 0},
        {moves, &passes[2], 0, 0},            {reads_whole, &passes[3], 0, 0},
        {reads_whole, &passes[4], 0, 0},
    };
    opens(64, 5);
    EXPECT(all_work(work, 5));
    EXPECT(mst_format(&passes[2]) == 1 && has_version(&passes[2], 3 * BATCHES));
    closes(5);
}

int main(void) {
    two_that_try();
    two_that_wait();
    one_that_is_pinned();
    batches_are_whole();
    return ended("races");
}
