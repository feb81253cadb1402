/*
 * A malloc that counts, and that refuses its n-th call: mst_open leaves all hands empty, a proof
 * leaves the pass as it was, a migration the format, a batch the map, and nothing is ever leaked.
 */
#include "heap.h"
#include "tests.h"

/* How many openings were refused before one was not. */
static long openings(void) {
    for (long n = 0; n < 4000; n++) {
        mst_pass passes[5] = {MST_PASS_CLOSED};
        live = 0;
        count_from(n);
        int32_t told = mst_open(1, 64, passes, 5);
        count_on();
        for (int i = 0; i < 5; i++) {
            int32_t closed = mst_close(&passes[i]);
            EXPECT(closed == (told == MST_OK ? MST_OK : MST_CLOSED) && passes[i].at == NULL);
        }
        counting = 0;
        EXPECT(live == 0);
        EXPECT(told == MST_OK || told == MST_MEMORY);
        if (told == MST_OK)
            return n;
    }
    return -1;
}

/* How many proofs were refused before one was not. The pass goes on after each. */
static long proofs(mst_pass *pass) {
    uint8_t room[64], proof[4096];
    for (long n = 0; n < 100; n++) {
        size_t length = 7;
        long before = live;
        count_from(n);
        int32_t told = mst_prove(pass, TEXT("key"), proof, sizeof proof, &length);
        count_on();
        EXPECT(live == before);
        EXPECT(mst_get(pass, TEXT("key"), room, sizeof room) == 5);
        if (told == MST_OK)
            return n;
        EXPECT(told == MST_MEMORY && length == 7);
    }
    return -1;
}

/* How many ranges were refused before one was not. The pass goes on after each. */
static long ranges(mst_pass *pass) {
    uint8_t room[MST_PAIR_LONGEST], value[64];
    for (long n = 0; n < 100; n++) {
        size_t count = 7, length = 7;
        long before = live;
        count_from(n);
        int32_t told = mst_range(pass, TEXT("k"), NULL, 0, 9, room, sizeof room, &count, &length);
        count_on();
        EXPECT(live == before);
        EXPECT(mst_get(pass, TEXT("key"), value, sizeof value) == 5);
        if (told == MST_OK) {
            EXPECT(count == 1 && length == 12 && memcmp(room, "\0\3\0\5keyvalue", 12) == 0);
            return n;
        }
        EXPECT(told == MST_MEMORY && count == 7 && length == 7);
    }
    return -1;
}

/* How many migrations were refused before one was not. Format and root stay after each refusal. */
static long migrations(mst_pass *pass, uint32_t from, uint32_t to) {
    uint8_t root[32], after[32];
    EXPECT(mst_root(pass, root, 32) == 32);
    for (long n = 0; n < 100; n++) {
        long before = live;
        count_from(n);
        int32_t told = mst_try_migrate(pass, to);
        count_on();
        EXPECT(live == before);
        EXPECT(mst_root(pass, after, 32) == 32 && (memcmp(root, after, 32) == 0) == (told < 0));
        if (told == (int32_t)from) {
            EXPECT(mst_format(pass) == (int32_t)to);
            return n;
        }
        EXPECT(told == MST_MEMORY && mst_format(pass) == (int32_t)from);
    }
    return -1;
}

/*
 * How many batches were refused before one was not. The map stays after each refusal, and no place
 * is told.
 */
static long batches(mst_pass *pass, const uint8_t *edits, size_t length) {
    uint8_t root[32], after[32];
    EXPECT(mst_root(pass, root, 32) == 32);
    for (long n = 0; n < 1000; n++) {
        size_t place = 7;
        long before = live;
        count_from(n);
        int32_t told = mst_try_apply(pass, edits, length, &place);
        count_on();
        EXPECT(live == before && place == 7);
        EXPECT(mst_root(pass, after, 32) == 32 && (memcmp(root, after, 32) == 0) == (told < 0));
        if (told == MST_OK)
            return n;
        EXPECT(told == MST_MEMORY);
    }
    return -1;
}

/* Puts of ten keys or removes of them, and a put of "key" that changes nothing. */
static size_t ten_edits(uint8_t *edits, int are_puts) {
    size_t length = 0;
    for (uint8_t key = 0; key < 10; key++)
        length = are_puts ? mst_edit_put(edits, length, &key, 1, TEXT("other"))
            : mst_edit_remove(edits, length, &key, 1);
    return mst_edit_put(edits, length, TEXT("key"), TEXT("value"));
}

/* Whether the map has this value of one byte at "1", or none, and this pair behind it. */
static void has_behind(mst_pass *pass, int value, const char *next, char next_value) {
    uint8_t room[64], key[32];
    size_t length = 0;
    int32_t told = mst_get(pass, TEXT("1"), room, sizeof room);
    EXPECT(value < 0 ? told == MST_ABSENT : told == 1 && room[0] == value);
    EXPECT(mst_next(pass, TEXT("1"), key, 32, &length, room, 64) == 1 && room[0] == next_value);
    EXPECT(length == strlen(next) && memcmp(key, next, length) == 0);
}

/*
 * Changes of nodes in two layers, with room and without. The key 39 stands above 1 and a, so its
 * put splits their node, and its removal joins the two. Five keys in one node leave six of 12 rows,
 * and a sixth key needs seven.
 */
static void changes_without_memory(void) {
    mst_pass pass = MST_PASS_CLOSED;
    uint8_t room[64];
    EXPECT(mst_open(1, 12, &pass, 1) == MST_OK);
    asked = 0;
    EXPECT(mst_try_put(&pass, TEXT("1"), TEXT("x"), room, 64) == MST_ABSENT);
    EXPECT(mst_try_put(&pass, TEXT("a"), TEXT("z"), room, 64) == MST_ABSENT);
    EXPECT(mst_try_put(&pass, TEXT("39"), TEXT("y"), room, 64) == MST_ABSENT);
    has_behind(&pass, 'x', "39", 'y');
    EXPECT(mst_try_put(&pass, TEXT("1"), TEXT("z"), room, 64) == 1 && room[0] == 'x');
    EXPECT(mst_pin(&pass) == MST_OK);
    has_behind(&pass, 'z', "39", 'y');
    EXPECT(mst_unpin(&pass) == MST_OK);
    EXPECT(mst_try_remove(&pass, TEXT("39"), room, 64) == 1 && room[0] == 'y');
    EXPECT(mst_try_remove(&pass, TEXT("39"), room, 64) == MST_ABSENT);
    EXPECT(mst_try_remove(&pass, TEXT("1"), room, 64) == 1 && room[0] == 'z');
    has_behind(&pass, -1, "a", 'z');
    for (uint8_t key = 'b'; key <= 'd'; key++)
        EXPECT(mst_try_put(&pass, &key, 1, TEXT(""), room, 64) == MST_ABSENT);
    EXPECT(mst_try_put(&pass, TEXT("e"), TEXT(""), room, 64) == MST_ABSENT);
    EXPECT(mst_try_put(&pass, TEXT("g"), TEXT(""), room, 64) == MST_NO_FREE_ROWS);
    EXPECT(asked == 0 && mst_close(&pass) == MST_OK);
}

/* Whether these calls ask for no memory, not even to give it back at once. */
static void without_memory(mst_pass *pass) {
    uint8_t room[64], key[32] = {0};
    size_t length = 0, place = 0;
    uint64_t version = 0;
    uint32_t rows = 0;
    asked = 0;
    EXPECT(mst_try_apply(pass, NULL, 0, &place) == MST_OK);
    EXPECT(mst_try_apply(pass, key, 4, &place) == MST_BAD_BATCH);
    EXPECT(mst_try_put(pass, TEXT("other"), TEXT("1"), room, sizeof room) == MST_ABSENT);
    EXPECT(mst_get(pass, TEXT("other"), room, sizeof room) == 1);
    EXPECT(mst_next(pass, TEXT("key"), key, 32, &length, room, 64) == 1 && length == 5);
    EXPECT(mst_root(pass, key, 32) == 32);
    EXPECT(mst_version(pass, &version) == MST_OK && version > 0);
    EXPECT(mst_rows(pass, &rows) == MST_OK && rows > 0);
    EXPECT(mst_format(pass) == 1 && mst_try_migrate(pass, 1) == 1);
    EXPECT(mst_pin(pass) == MST_OK && mst_get(pass, TEXT("other"), room, sizeof room) == 1);
    EXPECT(mst_next(pass, TEXT("key"), key, 32, &length, room, 64) == 1 && length == 5);
    EXPECT(mst_root(pass, key, 32) == 32 && mst_format(pass) == 1);
    EXPECT(mst_version(pass, &version) == MST_OK && mst_unpin(pass) == MST_OK);
    EXPECT(mst_try_remove(pass, TEXT("other"), room, sizeof room) == 1);
    EXPECT(asked == 0);
}

int main(void) {
    mst_pass pass = MST_PASS_CLOSED;
    uint8_t room[64], edits[11 * MST_EDIT_LONGEST];
    long opened = openings();
    EXPECT(opened > 0);
    live = 0;
    count_from(-1);
    EXPECT(mst_open(1, 64, &pass, 1) == MST_OK);
    EXPECT(mst_put(&pass, TEXT("key"), TEXT("value"), room, sizeof room) == MST_ABSENT);
    long proved = proofs(&pass);
    EXPECT(proved > 0);
    long ranged = ranges(&pass);
    EXPECT(ranged > 0 && mst_pin(&pass) == MST_OK);
    EXPECT(ranges(&pass) == ranged && proofs(&pass) == proved && mst_unpin(&pass) == MST_OK);
    long migrated = migrations(&pass, 1, 2);
    EXPECT(migrated > 0 && proofs(&pass) > 0 && migrations(&pass, 2, 1) > 0);
    long made = batches(&pass, edits, ten_edits(edits, 1));
    EXPECT(made > 0 && batches(&pass, edits, ten_edits(edits, 0)) > 0);
    without_memory(&pass);
    changes_without_memory();
    EXPECT(mst_close(&pass) == MST_OK);
    counting = 0;
    EXPECT(live == 0);
    printf("%ld openings, %ld proofs, %ld ranges, %ld migrations and %ld batches refused\n",
           opened, proved, ranged, migrated, made);
    return ended("nomem");
}
