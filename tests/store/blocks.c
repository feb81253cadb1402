/*
 * Blocks of a sharded map: each order of closing, closed hands and wrong states, free rows, and
 * blocks that are refused and leave all as it was.
 */
#include "blocks.h"

#define PROOF_ROOM 65536

static uint8_t root[MST_ROOT_LENGTH], proof[PROOF_ROOM], key_room[MST_KEY_LONGEST];
static uint8_t pairs[8 * MST_PAIR_LONGEST];
static const uint8_t long_bytes[70000] = {1};

/* ---- closing ---- */

/* The map is there for as long as one of its hands, whichever is closed last. */
static void each_order_of_closing(void) {
    for (int order = 0; order < 6; order++) {
        static const int orders[6][3] = {{0, 1, 2}, {0, 2, 1}, {1, 0, 2}, {1, 2, 0}, {2, 0, 1},
                                         {2, 1, 0}};
        mst_handle hands[3] = {MST_HANDLE_CLOSED};
        EXPECT(mst_sharded_open(1, 16, TEXT("\1b"), hands, 3) == MST_OK);
        length = 0;
        puts_edit("a", "1");
        puts_edit("b", "2");
        EXPECT(made_by(&hands[0]) == MST_OK && mst_sharded_snapshot(&hands[2]) == MST_OK);
        for (int i = 0; i < 3; i++) {
            if (hands[1].at != NULL)
                EXPECT(has(&hands[1], "a", "1") && has(&hands[1], "b", "2"));
            if (hands[2].at != NULL)
                EXPECT(has(&hands[2], "a", "1") && has_number(&hands[2], 1));
            if (hands[0].at != NULL)
                EXPECT(has_number(&hands[0], 1));
            mst_handle *next = &hands[orders[order][i]];
            EXPECT(mst_sharded_close(next) == MST_OK && next->at == NULL);
            EXPECT(mst_sharded_close(next) == MST_CLOSED);
        }
    }
}

/* ---- closed hands, wrong states, lengths ---- */

static void closed_hands(void) {
    mst_handle hand = MST_HANDLE_CLOSED;
    uint8_t before[64];
    size_t told = 77;
    uint32_t rows = 77;
    memset(room, 0xA5, sizeof room);
    memcpy(before, room, sizeof room);
    length = 0, place = shard = 77, number = 77;
    puts_edit("", "1");
    EXPECT(made_by(&hand) == MST_CLOSED && place == 77 && shard == 77);
    EXPECT(mst_sharded_number(&hand, &number) == MST_CLOSED && number == 77);
    EXPECT(mst_sharded_len(&hand, &number) == MST_CLOSED && number == 77);
    EXPECT(mst_sharded_free_rows(&hand, 0, &rows) == MST_CLOSED && rows == 77);
    EXPECT(mst_sharded_shards(&hand) == MST_CLOSED);
    EXPECT(mst_sharded_try_snapshot(&hand) == MST_CLOSED);
    EXPECT(mst_sharded_snapshot(&hand) == MST_CLOSED);
    EXPECT(mst_sharded_release(&hand) == MST_CLOSED);
    EXPECT(mst_sharded_get(&hand, TEXT("a"), room, 64) == MST_CLOSED);
    EXPECT(mst_sharded_next(&hand, TEXT("a"), room, 64, &told, room, 64) == MST_CLOSED);
    EXPECT(mst_sharded_range(&hand, NULL, 0, NULL, 0, 9, room, 64, &told, &told) == MST_CLOSED);
    EXPECT(mst_sharded_format(&hand) == MST_CLOSED);
    EXPECT(mst_sharded_root(&hand, room, 64) == MST_CLOSED);
    EXPECT(mst_sharded_prove(&hand, TEXT("a"), room, 64, &told) == MST_CLOSED);
    EXPECT(mst_sharded_directory(&hand, room, 64, &told, &told) == MST_CLOSED);
    EXPECT(mst_sharded_close(&hand) == MST_CLOSED && hand.at == NULL);
    EXPECT(told == 77 && memcmp(before, room, sizeof room) == 0);
}

/* What only a snapshot answers. */
static void answers_nothing(mst_handle *hand) {
    size_t told = 77;
    uint64_t pairs_told = 77;
    EXPECT(mst_sharded_release(hand) == MST_WRONG_STATE);
    EXPECT(mst_sharded_len(hand, &pairs_told) == MST_WRONG_STATE && pairs_told == 77);
    EXPECT(mst_sharded_next(hand, TEXT("a"), key_room, 32, &told, room, 64) == MST_WRONG_STATE);
    EXPECT(mst_sharded_next(hand, long_bytes, 33, key_room, 32, &told, room, 64) == MST_BAD_KEY);
    EXPECT(mst_sharded_range(hand, NULL, 0, NULL, 0, 9, room, 64, &told, &told)
           == MST_WRONG_STATE);
    EXPECT(mst_sharded_range(hand, NULL, 0, long_bytes, 33, 9, room, 64, &told, &told)
           == MST_BAD_KEY);
    EXPECT(mst_sharded_format(hand) == MST_WRONG_STATE);
    EXPECT(mst_sharded_prove(hand, TEXT("a"), proof, 64, &told) == MST_WRONG_STATE);
    EXPECT(mst_sharded_prove(hand, NULL, 0, proof, 64, &told) == MST_BAD_KEY);
    EXPECT(mst_sharded_directory(hand, room, 64, &told, &told) == MST_WRONG_STATE && told == 77);
}

/* A hand that does not hold the writer makes no block, and counts no rows. */
static void makes_nothing(mst_handle *hand) {
    uint32_t rows = 77;
    EXPECT(mst_sharded_free_rows(hand, 0, &rows) == MST_WRONG_STATE);
    EXPECT(mst_sharded_free_rows(hand, SIZE_MAX, &rows) == MST_WRONG_STATE && rows == 77);
    length = 0, place = shard = 77, number = 77;
    puts_edit("a", "9");
    EXPECT(made_by(hand) == MST_WRONG_STATE && place == 77 && shard == 77 && number == 77);
    EXPECT(mst_sharded_apply(hand, NULL, 0, &place, &shard, &number) == MST_WRONG_STATE);
    puts_edit("", "9");
    EXPECT(made_by(hand) == MST_BAD_KEY && place == 1 && shard == 77 && number == 77);
}

static void wrong_states(void) {
    mst_handle hands[2] = {MST_HANDLE_CLOSED, MST_HANDLE_CLOSED};
    mst_handle *writer = &hands[0], *reader = &hands[1];
    size_t told = 77;
    EXPECT(mst_sharded_open(2, 16, TEXT("\1m"), hands, 2) == MST_OK);
    length = 0;
    puts_edit("a", "12345");
    EXPECT(made_by(writer) == MST_OK && number == 1);
    /* the writer */
    answers_nothing(writer);
    EXPECT(mst_sharded_try_snapshot(writer) == MST_WRONG_STATE);
    EXPECT(mst_sharded_snapshot(writer) == MST_WRONG_STATE);
    EXPECT(has(writer, "a", "12345") && mst_sharded_get(writer, TEXT("b"), room, 64) == MST_ABSENT);
    EXPECT(mst_sharded_get(writer, TEXT("a"), room, 4) == MST_SHORT_ROOM);
    EXPECT(mst_sharded_get(writer, NULL, 0, room, 64) == MST_BAD_KEY);
    EXPECT(mst_sharded_root(writer, root, 31) == MST_SHORT_ROOM);
    EXPECT(mst_sharded_root(writer, root, 32) == 32 && mst_sharded_shards(writer) == 2);
    /* a reader */
    answers_nothing(reader);
    makes_nothing(reader);
    number = 77;
    EXPECT(mst_sharded_number(reader, &number) == MST_WRONG_STATE && number == 77);
    EXPECT(mst_sharded_root(reader, root, 31) == MST_WRONG_STATE);
    EXPECT(mst_sharded_get(reader, long_bytes, 33, room, 64) == MST_BAD_KEY);
    EXPECT(mst_sharded_get(reader, TEXT("a"), room, 4) == MST_SHORT_ROOM);
    EXPECT(has(reader, "a", "12345") && mst_sharded_shards(reader) == 2);
    /* a snapshot */
    EXPECT(mst_sharded_try_snapshot(reader) == MST_OK);
    EXPECT(mst_sharded_try_snapshot(reader) == MST_WRONG_STATE);
    EXPECT(mst_sharded_snapshot(reader) == MST_WRONG_STATE);
    makes_nothing(reader);
    EXPECT(mst_sharded_format(reader) == 2 && mst_sharded_shards(reader) == 2);
    EXPECT(mst_sharded_root(reader, root, 31) == MST_SHORT_ROOM);
    EXPECT(mst_sharded_next(reader, NULL, 0, NULL, 0, &told, room, 64) == MST_SHORT_ROOM);
    EXPECT(mst_sharded_get(reader, TEXT("a"), room, 4) == MST_SHORT_ROOM && told == 77);
    EXPECT(mst_sharded_prove(reader, TEXT("a"), proof, 8, &told) == MST_SHORT_ROOM && told > 8);
    EXPECT(mst_sharded_prove(reader, TEXT("a"), proof, told, &told) == MST_OK);
    EXPECT(mst_sharded_directory(reader, pairs, 0, &told, &told) == MST_SHORT_ROOM);
    EXPECT(mst_sharded_release(reader) == MST_OK && mst_sharded_release(reader) == MST_WRONG_STATE);
    EXPECT(has_number(writer, 1) && has(reader, "a", "12345"));
    EXPECT(mst_sharded_close(writer) == MST_OK && mst_sharded_close(reader) == MST_OK);
}

/* ---- blocks that are made ---- */

/* Of the edits of one key the last decides, in whatever shard. */
static void edits_of_one_key(void) {
    mst_handle hand = MST_HANDLE_CLOSED;
    EXPECT(mst_sharded_open(1, 16, TEXT("\1b\1c\1d"), &hand, 1) == MST_OK);
    length = 0, place = shard = 77;
    puts_edit("d", "1");
    puts_edit("a", "1");
    puts_edit("dd", "2");
    removes_edit("a");
    puts_edit("b", "3");
    removes_edit("none");
    puts_edit("a", "4");
    puts_edit("d", "5");
    removes_edit("b");
    EXPECT(made_by(&hand) == MST_OK && place == 77 && shard == 77 && number == 1);
    EXPECT(has(&hand, "a", "4") && has(&hand, "b", NULL) && has(&hand, "none", NULL));
    EXPECT(has(&hand, "d", "5") && has(&hand, "dd", "2"));
    EXPECT(mst_sharded_apply(&hand, NULL, 0, &place, &shard, &number) == MST_OK && number == 2);
    EXPECT(has(&hand, "a", "4") && mst_sharded_close(&hand) == MST_OK);
}

/* Each listing has the shard's bounds, with its root digest before the upper one. */
static void directories(void) {
    mst_handle hands[2] = {MST_HANDLE_CLOSED, MST_HANDLE_CLOSED};
    size_t count = 0, bytes = 0, begins = 0;
    mst_pair pair;
    EXPECT(mst_sharded_open(2, 16, TEXT("\1b\2xy"), hands, 2) == MST_OK);
    length = 0;
    puts_edit("c", "1");
    EXPECT(made_by(&hands[0]) == MST_OK && mst_sharded_snapshot(&hands[1]) == MST_OK);
    EXPECT(mst_sharded_directory(&hands[1], pairs, 0, &count, &bytes) == MST_SHORT_ROOM);
    EXPECT(count == 3 && bytes == 3 * (4 + 32) + 1 + 1 + 2 + 1 + 2);
    EXPECT(mst_sharded_directory(&hands[1], pairs, bytes, &count, &bytes) == MST_OK);
    begins = mst_pair_at(pairs, begins, &pair);
    EXPECT(pair.key_length == 1 && pair.key[0] == 0 && pair.value_length == 33
           && pair.value[32] == 'b');
    begins = mst_pair_at(pairs, begins, &pair);
    EXPECT(pair.key_length == 1 && pair.key[0] == 'b' && pair.value_length == 34
           && memcmp(pair.value + 32, "xy", 2) == 0);
    begins = mst_pair_at(pairs, begins, &pair);
    EXPECT(pair.key_length == 2 && pair.value_length == 32 && begins == bytes);
    EXPECT(mst_sharded_close(&hands[0]) == MST_OK && mst_sharded_close(&hands[1]) == MST_OK);
}

/* ---- free rows ---- */

static int has_free(mst_handle *writer, size_t of, uint32_t wanted) {
    uint32_t rows = 77;
    return mst_sharded_free_rows(writer, of, &rows) == MST_OK && rows == wanted;
}

/* A block of one put, of a key of one shard. */
static void puts_one(mst_handle *writer, const char *key, const char *value) {
    length = 0;
    puts_edit(key, value);
    EXPECT(made_by(writer) == MST_OK);
}

/*
 * The splits are b and m. A lone pair takes two rows in its shard, and two more while a snapshot
 * keeps those of another value; the other shards are as they were. The directory holds one version,
 * and beside a snapshot some rows of another.
 */
static void free_rows(uint32_t format) {
    mst_handle hands[2] = {MST_HANDLE_CLOSED, MST_HANDLE_CLOSED};
    mst_handle *writer = &hands[0], *reader = &hands[1];
    uint32_t of_directory = 0, beside = 77;
    EXPECT(mst_sharded_open(format, 64, TEXT("\1b\1m"), hands, 2) == MST_OK);
    EXPECT(has_free(writer, 0, 64) && has_free(writer, 1, 64) && has_free(writer, 2, 64));
    EXPECT(mst_sharded_free_rows(writer, 3, &of_directory) == MST_OK && of_directory > 0);
    puts_one(writer, "c", "1");
    EXPECT(has_free(writer, 0, 64) && has_free(writer, 1, 62) && has_free(writer, 2, 64));
    EXPECT(has_free(writer, 3, of_directory) && has_number(writer, 1) && has(writer, "c", "1"));
    EXPECT(mst_sharded_snapshot(reader) == MST_OK && has_free(writer, 1, 62));
    puts_one(writer, "c", "2");
    puts_one(writer, "z", "1");
    EXPECT(has_free(writer, 0, 64) && has_free(writer, 1, 60) && has_free(writer, 2, 62));
    EXPECT(mst_sharded_free_rows(writer, 3, &beside) == MST_OK && beside < of_directory);
    EXPECT(has_number(reader, 1) && has(reader, "c", "1") && has(reader, "z", NULL));
    EXPECT(mst_sharded_release(reader) == MST_OK);
    EXPECT(has_free(writer, 1, 62) && has_free(writer, 3, of_directory));
    EXPECT(mst_sharded_free_rows(writer, 4, &beside) == MST_ABSENT);
    EXPECT(mst_sharded_free_rows(writer, SIZE_MAX, &beside) == MST_ABSENT && beside < of_directory);
    EXPECT(has_number(writer, 3) && has(writer, "c", "2") && has(writer, "z", "1"));
    EXPECT(mst_sharded_snapshot(reader) == MST_OK && have_one_root(writer, reader));
    EXPECT(mst_sharded_close(writer) == MST_OK && mst_sharded_close(reader) == MST_OK);
}

/* ---- blocks that are refused ---- */

/* The third of four shards has too few rows. */
static void a_shard_without_rows(void) {
    mst_handle hands[3] = {MST_HANDLE_CLOSED};
    mst_handle *writer = &hands[0], *reader = &hands[1], *then = &hands[2];
    EXPECT(mst_sharded_open(2, 12, TEXT("\1b\1c\1d"), hands, 3) == MST_OK);
    length = 0;
    puts_edit("a", "old");
    puts_edit("c", "old");
    EXPECT(made_by(writer) == MST_OK && number == 1 && mst_sharded_snapshot(then) == MST_OK);
    length = 0;
    puts_edit("d", "1");
    for (char last = 'a'; last < 'm'; last++)
        puts_edit((char[]){'c', last, 0}, "1");
    puts_edit("a", "1");
    puts_edit("b", "1");
    for (int again = 0; again < 3; again++) {
        place = shard = 77, number = 77;
        EXPECT(made_by(writer) == MST_NO_FREE_ROWS && shard == 2 && place == 77 && number == 77);
        EXPECT(has(reader, "a", "old") && has(reader, "b", NULL) && has(reader, "d", NULL));
        EXPECT(has(reader, "c", "old") && has(reader, "ca", NULL));
        EXPECT(has_number(writer, 1) && have_one_root(writer, then));
        EXPECT(mst_sharded_snapshot(reader) == MST_OK && has_number(reader, 1));
        EXPECT(have_one_root(reader, then) && mst_sharded_release(reader) == MST_OK);
    }
    /* the writer goes on with the next number */
    length = 0, shard = 77;
    puts_edit("a", "new");
    puts_edit("d", "new");
    EXPECT(made_by(writer) == MST_OK && number == 2 && shard == 77);
    EXPECT(has(then, "a", "old") && has(then, "d", NULL) && has_number(then, 1));
    EXPECT(mst_sharded_release(then) == MST_OK && mst_sharded_snapshot(then) == MST_OK);
    EXPECT(has(then, "a", "new") && has(then, "c", "old") && has_number(then, 2));
    for (int i = 0; i < 3; i++)
        EXPECT(mst_sharded_close(&hands[i]) == MST_OK);
}

/* Whether the block is refused by this number, for the edit at this place, and nothing is made. */
static int is_refused(mst_handle *hands, int32_t wanted, size_t at) {
    place = shard = 77, number = 77;
    int is = made_by(&hands[0]) == wanted && place == at && shard == 77 && number == 77;
    length = 0;
    return is && has_number(&hands[0], 0) && has(&hands[1], "a", NULL) && has(&hands[1], "z", NULL);
}

static void bad_edits(void) {
    static const size_t keys[] = {0, 33, 256, 257, 65535, 65536, 65537};
    static const size_t values[] = {65, 256, 65535, 65536, 65600};
    static uint8_t long_edits[4 * 65536];
    mst_handle hands[2] = {MST_HANDLE_CLOSED, MST_HANDLE_CLOSED};
    EXPECT(mst_sharded_open(1, 16, TEXT("\1b"), hands, 2) == MST_OK);
    length = 0;
    for (size_t at = 0; at < sizeof keys / sizeof *keys; at++) {
        puts_edit("a", "1");
        puts_edit("z", "1");
        length = mst_edit_put(edits, length, long_bytes, keys[at], long_bytes, 64);
        EXPECT(is_refused(hands, MST_BAD_KEY, 2));
        length = mst_edit_remove(edits, length, long_bytes, keys[at]);
        EXPECT(is_refused(hands, MST_BAD_KEY, 0));
    }
    for (size_t at = 0; at < sizeof values / sizeof *values; at++) {
        puts_edit("z", "1");
        length = mst_edit_put(edits, length, long_bytes, 32, long_bytes, values[at]);
        puts_edit("a", "1");
        EXPECT(is_refused(hands, MST_BAD_VALUE, 1));
    }
    for (size_t cut = 1; cut < 15; cut++) {
        puts_edit("a", "1");
        puts_edit("zz", "12");
        length = cut;
        if (cut != 7)
            EXPECT(is_refused(hands, MST_BAD_BATCH, cut < 7 ? 0 : 1));
    }
    for (int kind = 0; kind < 256; kind++) {
        length = 0;
        removes_edit("z");
        size_t begins = length;
        puts_edit("a", "1");
        edits[begins] = (uint8_t)kind;
        if (kind != 1)
            EXPECT(is_refused(hands, MST_BAD_BATCH, 1));
    }
    memset(long_edits, 0, sizeof long_edits);
    EXPECT(mst_sharded_apply(&hands[0], long_edits, sizeof long_edits, &place, &shard, &number)
           == MST_BAD_KEY && place == 0);
    EXPECT(mst_sharded_close(&hands[0]) == MST_OK && mst_sharded_close(&hands[1]) == MST_OK);
}

int main(void) {
    each_order_of_closing();
    closed_hands();
    wrong_states();
    edits_of_one_key();
    directories();
    free_rows(1);
    free_rows(2);
    a_shard_without_rows();
    bad_edits();
    return ended("blocks");
}
