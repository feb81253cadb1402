/*
 * Calls of two passes of a store when the heap is full, of a small one and of 1,000 and 20,000 rows:
 * those that take no memory go on, and ask for none; the others return MST_MEMORY, and leave all as
 * it was.
 */
#include "heap.h"
#include "calls.h"

static uint32_t rows; /* of the store */
static mst_pass passes[2] = {MST_PASS_CLOSED, MST_PASS_CLOSED};
static mst_pass *one = &passes[0], *other = &passes[1];
static uint8_t room[MST_VALUE_LONGEST];
static size_t before;

/* Opens a store, and takes what is left of the heap. */
static void opens(void) {
    EXPECT(mst_open(1, rows, passes, 2) == MST_OK);
    before = held;
    grant(0);
}

/* Nothing of the heap was taken, or given back. */
static void closes(void) {
    EXPECT(held == before);
    grant_all();
    EXPECT(mst_close(one) == MST_OK && mst_close(other) == MST_OK && live == 0);
}

static void calls_go_on(void) {
    opens();
    asked = 0;
    EXPECT(puts_at(one, "a", "1", NULL) && puts_at(other, "abc", "x", NULL));
    EXPECT(has(one, "abc", "x") && begins_with(other, "a") && has_root(one, root_of_both));
    EXPECT(takes_rows(other, 3) && removes(one, "abc", "x") && has_version(other, 3));
    EXPECT(asked == 0);
    EXPECT(lists(one, 1) == MST_MEMORY && proves_both(one) == MST_MEMORY);
    EXPECT(has_version(one, 3) && has(one, "a", "1"));
    closes();
}

/* While the other pass writes. */
static void a_pinned_pass_goes_on(void) {
    uint8_t root[MST_ROOT_LENGTH];
    opens();
    asked = 0;
    EXPECT(puts_at(other, "a", "1", NULL) && mst_root(other, root, sizeof root) == 32);
    EXPECT(mst_pin(one) == MST_OK && puts_at(other, "a", "2", "1"));
    EXPECT(has(one, "a", "1") && begins_with(one, "a") && asked == 0);
    EXPECT(lists(one, 1) == MST_MEMORY);
    EXPECT(has_root(one, root) && has_version(one, 1));
    EXPECT(mst_unpin(one) == MST_OK && has_version(one, 2) && has(one, "a", "2"));
    closes();
}

static void writes_that_wait_go_on(void) {
    opens();
    asked = 0;
    EXPECT(mst_put(one, TEXT("a"), TEXT("1"), room, sizeof room) == MST_ABSENT);
    EXPECT(mst_remove(one, TEXT("a"), room, sizeof room) == 1 && room[0] == '1');
    EXPECT(has_root(one, root_of_none) && has_version(one, 2));
    EXPECT(asked == 0);
    closes();
}

/* A migration finds no memory, but to the format that stands. */
static void a_migration_finds_none(void) {
    opens();
    EXPECT(puts_at(one, "1", "a", NULL));
    EXPECT(mst_try_migrate(other, 2) == MST_MEMORY);
    asked = 0;
    EXPECT(mst_try_migrate(other, 1) == 1 && asked == 0);
    EXPECT(has_version(one, 2) && mst_format(one) == 1);
    closes();
}

/* Nor does a batch, but one of no edits. */
static void a_batch_finds_none(void) {
    static const struct edit edits[] = {{"a", "1"}, {"abc", "x"}};
    opens();
    EXPECT(applies(one, edits, 2) == MST_MEMORY);
    asked = 0;
    EXPECT(applies(other, NULL, 0) == MST_OK && asked == 0);
    EXPECT(has_version(one, 1));
    closes();
}

/* What takes memory finds none in a map of many nodes either, and leaves it as it was. */
static void much_finds_none(uint64_t version) {
    static const struct edit edits[] = {{"a", "1"}, {"abc", "x"}};
    uint8_t root[MST_ROOT_LENGTH];
    EXPECT(mst_root(one, root, sizeof root) == MST_ROOT_LENGTH);
    EXPECT(lists(one, 2) == MST_MEMORY && proves_both(other) == MST_MEMORY);
    EXPECT(applies(one, edits, 2) == MST_MEMORY && mst_try_migrate(other, 2) == MST_MEMORY);
    EXPECT(has_root(other, root) && has_version(other, version) && mst_format(one) == 1);
}

/* Puts at so many keys, or each seventh time a remove, by the passes in turns. */
static void many_writes(uint32_t its_rows, uint32_t keys, uint32_t writes) {
    rows = its_rows;
    opens();
    asked = 0;
    for (uint32_t number = 0; number < writes; number++) {
        mst_pass *pass = number % 2 == 0 ? one : other;
        uint32_t at = number % keys;
        uint8_t key[2] = {(uint8_t)(at >> 8), (uint8_t)at};
        uint8_t value[2] = {(uint8_t)(number >> 8), (uint8_t)number};
        int32_t told = number % 7 == 0 ? mst_try_remove(pass, key, 2, room, sizeof room)
            : mst_try_put(pass, key, 2, value, sizeof value, room, sizeof room);
        EXPECT(told == MST_ABSENT || told == sizeof value);
        EXPECT(asked == 0 && held == before);
    }
    EXPECT(has_version(one, writes));
    much_finds_none(writes);
    closes();
}

int main(void) {
    static const uint32_t sizes[] = {8, 1000, 20000};
    count_from(-1);
    for (size_t i = 0; i < sizeof sizes / sizeof *sizes; i++) {
        rows = sizes[i];
        calls_go_on();
        a_pinned_pass_goes_on();
        writes_that_wait_go_on();
        a_migration_finds_none();
        a_batch_finds_none();
    }
    many_writes(64, 20, 1000); /* for each key and each node, twice */
    many_writes(1000, 600, 6000);
    many_writes(20000, 16000, 50000);
    counting = 0;
    return ended("full_heap");
}
