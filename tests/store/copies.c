/*
 * Copies of a snapshot into another sharded map: from each format to each, with other splits and
 * other rows, after which it has the root digest of a map that was filled directly; and what is
 * refused, by a full map too, which changes nothing.
 */
#include "blocks.h"

#define PAIRS 400
#define ROWS 2000
#define FOUR "\1\10\2\40\1\3\100\2\1"

static uint8_t listed[2][PAIRS * MST_PAIR_LONGEST];

/* The key and the value of a number, of each length that they can have. */
static size_t put_of(size_t at, uint32_t pair) {
    uint8_t key[MST_KEY_LONGEST] = {0}, value[MST_VALUE_LONGEST];
    key[0] = (uint8_t)(pair % 128);
    key[1] = (uint8_t)(pair / 128);
    size_t of_key = pair < 128 ? 1 : 2 + pair % 31;
    memset(value, (int)(pair % 251), sizeof value);
    return mst_edit_put(edits, at, key, of_key, value, pair % 65);
}

/* Puts all pairs, in as few blocks as there is room for. */
static void fill(mst_handle *writer) {
    for (uint32_t pair = 0; pair < PAIRS;) {
        for (length = 0; pair < PAIRS && length < sizeof edits - MST_EDIT_LONGEST; pair++)
            length = put_of(length, pair);
        EXPECT(made_by(writer) == MST_OK);
    }
}

/* All pairs of a snapshot. Returns how many bytes they take. */
static size_t list_all(mst_handle *snapshot, uint8_t *room_for_all) {
    size_t count = 0, bytes = 0;
    EXPECT(mst_sharded_range(snapshot, NULL, 0, NULL, 0, UINT32_MAX, room_for_all,
                             sizeof listed[0], &count, &bytes) == MST_OK);
    return bytes;
}

static int have_one_list(mst_handle *one, mst_handle *other) {
    size_t bytes = list_all(one, listed[0]);
    return bytes == list_all(other, listed[1]) && memcmp(listed[0], listed[1], bytes) == 0;
}

static int32_t copied(mst_handle *snapshot, mst_handle *writer) {
    shard = 77, number = 77;
    return mst_sharded_copy(snapshot, writer, &shard, &number);
}

static void close_all(mst_handle *hands, size_t count) {
    for (size_t at = 0; at < count; at++)
        EXPECT(mst_sharded_close(&hands[at]) == MST_OK);
}

/* ---- copies that are made ---- */

/* Whether a map of these splits has the same root digest and pairs, if it is filled directly. */
static int is_as_filled(uint32_t format, const uint8_t *splits, size_t end, mst_handle *snapshot) {
    mst_handle hands[2] = {MST_HANDLE_CLOSED, MST_HANDLE_CLOSED};
    EXPECT(mst_sharded_open(format, ROWS, splits, end, hands, 2) == MST_OK);
    fill(&hands[0]);
    EXPECT(mst_sharded_snapshot(&hands[1]) == MST_OK);
    int is = have_one_root(snapshot, &hands[1]) && have_one_list(snapshot, &hands[1]);
    close_all(hands, 2);
    return is;
}

/* While a map is copied to others, its readers and its writer go on. */
static void copies(uint32_t from, uint32_t to, const uint8_t *splits, size_t end, uint32_t rows) {
    mst_handle old[3] = {MST_HANDLE_CLOSED}, new[2] = {MST_HANDLE_CLOSED, MST_HANDLE_CLOSED};
    EXPECT(mst_sharded_open(from, ROWS, TEXT("\1\40\1\100"), old, 3) == MST_OK);
    EXPECT(mst_sharded_open(to, rows, splits, end, new, 2) == MST_OK);
    fill(&old[0]);
    EXPECT(mst_sharded_snapshot(&old[1]) == MST_OK);
    /* a block that is made after the snapshot is not copied */
    length = mst_edit_put(edits, 0, TEXT("later"), TEXT("1"));
    EXPECT(made_by(&old[0]) == MST_OK);
    EXPECT(copied(&old[1], &new[0]) == MST_OK && number == 1 && shard == 77);
    EXPECT(has_number(&new[0], 1) && mst_sharded_snapshot(&new[1]) == MST_OK);
    EXPECT(have_one_list(&old[1], &new[1]) && is_as_filled(to, splits, end, &new[1]));
    EXPECT(has(&old[2], "later", "1") && has(&new[0], "later", NULL));
    EXPECT(mst_sharded_format(&old[1]) == (int32_t)from);
    EXPECT(mst_sharded_format(&new[1]) == (int32_t)to);
    /* once more is another block, of the same map */
    EXPECT(copied(&old[1], &new[0]) == MST_OK && number == 2 && have_one_root(&new[0], &new[1]));
    close_all(old, 3);
    close_all(new, 2);
}

static void an_empty_map(void) {
    mst_handle old[2] = {MST_HANDLE_CLOSED, MST_HANDLE_CLOSED};
    mst_handle new[2] = {MST_HANDLE_CLOSED, MST_HANDLE_CLOSED};
    EXPECT(mst_sharded_open(1, 16, NULL, 0, old, 2) == MST_OK);
    EXPECT(mst_sharded_open(2, 16, TEXT("\1b"), new, 2) == MST_OK);
    EXPECT(mst_sharded_snapshot(&old[1]) == MST_OK && mst_sharded_snapshot(&new[1]) == MST_OK);
    EXPECT(copied(&old[1], &new[0]) == MST_OK && number == 1 && shard == 77);
    EXPECT(have_one_root(&new[0], &new[1]));
    close_all(old, 2);
    close_all(new, 2);
}

/* Other keys keep their values, in a map of others and in the map of the snapshot itself. */
static void other_keys_stay(void) {
    mst_handle old[2] = {MST_HANDLE_CLOSED, MST_HANDLE_CLOSED}, new = MST_HANDLE_CLOSED;
    EXPECT(mst_sharded_open(1, 16, TEXT("\1m"), old, 2) == MST_OK);
    EXPECT(mst_sharded_open(1, 16, TEXT("\1b"), &new, 1) == MST_OK);
    length = 0;
    puts_edit("a", "1");
    puts_edit("z", "");
    EXPECT(made_by(&old[0]) == MST_OK && mst_sharded_snapshot(&old[1]) == MST_OK);
    length = 0;
    puts_edit("a", "2");
    puts_edit("c", "2");
    EXPECT(made_by(&old[0]) == MST_OK && made_by(&new) == MST_OK);
    EXPECT(copied(&old[1], &new) == MST_OK && number == 2);
    EXPECT(has(&new, "a", "1") && has(&new, "c", "2") && has(&new, "z", ""));
    EXPECT(copied(&old[1], &old[0]) == MST_OK && number == 3);
    EXPECT(has(&old[0], "a", "1") && has(&old[0], "c", "2") && has(&old[0], "z", ""));
    EXPECT(has_number(&old[1], 1) && has(&old[1], "c", NULL));
    close_all(old, 2);
    EXPECT(mst_sharded_close(&new) == MST_OK);
}

/* ---- copies that are refused ---- */

static void wrong_hands(void) {
    mst_handle hands[3] = {MST_HANDLE_CLOSED}, closed = MST_HANDLE_CLOSED;
    mst_handle *writer = &hands[0], *reader = &hands[1], *snapshot = &hands[2];
    EXPECT(mst_sharded_open(1, 16, TEXT("\1b"), hands, 3) == MST_OK);
    length = 0;
    puts_edit("a", "1");
    EXPECT(made_by(writer) == MST_OK && mst_sharded_snapshot(snapshot) == MST_OK);
    EXPECT(copied(&closed, writer) == MST_CLOSED);
    EXPECT(copied(reader, writer) == MST_WRONG_STATE);
    EXPECT(copied(writer, reader) == MST_WRONG_STATE);
    EXPECT(copied(snapshot, &closed) == MST_CLOSED);
    EXPECT(copied(snapshot, reader) == MST_WRONG_STATE && shard == 77 && number == 77);
    EXPECT(has_number(writer, 1) && has_number(snapshot, 1) && closed.at == NULL);
    close_all(hands, 3);
}

/* The second shard of the other map has too few rows, until there are enough. */
static void a_full_map(uint32_t format) {
    mst_handle old[2] = {MST_HANDLE_CLOSED, MST_HANDLE_CLOSED};
    mst_handle new[2] = {MST_HANDLE_CLOSED, MST_HANDLE_CLOSED};
    uint32_t rows = 4;
    int32_t told = MST_NO_FREE_ROWS;
    EXPECT(mst_sharded_open(3 - format, ROWS, NULL, 0, old, 2) == MST_OK);
    fill(&old[0]);
    EXPECT(mst_sharded_snapshot(&old[1]) == MST_OK);
    for (; told == MST_NO_FREE_ROWS && rows < ROWS; rows *= 2) {
        EXPECT(mst_sharded_open(format, rows, TEXT("\1\1"), new, 2) == MST_OK);
        EXPECT(mst_sharded_snapshot(&new[1]) == MST_OK);
        told = copied(&old[1], &new[0]);
        if (told == MST_NO_FREE_ROWS) {
            EXPECT(shard < 2 && number == 77 && has_number(&new[0], 0));
            EXPECT(have_one_root(&new[0], &new[1]) && list_all(&new[1], listed[0]) == 0);
        }
    }
    EXPECT(told == MST_OK && rows / 2 > PAIRS && has_number(&new[0], 1));
    close_all(old, 2);
    close_all(new, 2);
}

int main(void) {
    for (uint32_t from = 1; from <= 2; from++)
        for (uint32_t to = 1; to <= 2; to++) {
            copies(from, to, TEXT("\1\40\1\100"), ROWS);
            copies(from, to, NULL, 0, ROWS / 2);
            copies(from, to, TEXT(FOUR), ROWS / 4);
        }
    an_empty_map();
    other_keys_stay();
    wrong_hands();
    a_full_map(1);
    a_full_map(2);
    return ended("copies");
}
