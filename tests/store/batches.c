/*
 * Batches of edits: what they leave, that they are one version, each way in which bytes are no
 * batch, and that nothing of a batch that is refused is made.
 */
#include "tests.h"

static mst_pass passes[2] = {MST_PASS_CLOSED, MST_PASS_CLOSED};
static mst_pass *pass = &passes[0], *other = &passes[1];
static uint8_t edits[8 * MST_EDIT_LONGEST], room[MST_VALUE_LONGEST];
static size_t length, place;
static const uint8_t long_bytes[70000] = {1};

static void puts_edit(const char *key, const char *value) {
    length = mst_edit_put(edits, length, (const uint8_t *)key, strlen(key),
                          (const uint8_t *)value, strlen(value));
}

static void removes_edit(const char *key) {
    length = mst_edit_remove(edits, length, (const uint8_t *)key, strlen(key));
}

/* Makes the edits so far by this pass, and begins the next batch. */
static int32_t made_by(mst_pass *by) {
    int32_t told = mst_apply(by, edits, length, &place);
    length = 0;
    return told;
}

static int has(mst_pass *by, const char *key, const char *value) {
    int32_t told = mst_get(by, (const uint8_t *)key, strlen(key), room, sizeof room);
    return value == NULL ? told == MST_ABSENT
        : told == (int32_t)strlen(value) && memcmp(room, value, strlen(value)) == 0;
}

static uint64_t version_of(mst_pass *by) {
    uint64_t version = 0;
    EXPECT(mst_version(by, &version) == MST_OK);
    return version;
}

/* The bytes that the header gives for each edit. */
static void forms(void) {
    static const uint8_t wanted[] = {
        1, 0, 1, 0, 2, 'a', '1', '2', 1, 0, 2, 0, 0, 'b', 'c', 2, 0, 1, 0, 0, 'd',
    };
    puts_edit("a", "12");
    EXPECT(length == 8);
    puts_edit("bc", "");
    removes_edit("d");
    EXPECT(length == sizeof wanted && memcmp(edits, wanted, sizeof wanted) == 0);
    EXPECT(mst_edit_put(edits, 0, long_bytes, 32, long_bytes, 64) == MST_EDIT_LONGEST);
    length = 0;
}

/* The same map as by the edits one by one, in one version that each hand finds. */
static void edits_of_one_version(void) {
    uint8_t root[32], again[32];
    EXPECT(mst_put(pass, TEXT("b"), TEXT("2"), room, sizeof room) == MST_ABSENT);
    EXPECT(mst_put(pass, TEXT("a"), TEXT("1"), room, sizeof room) == MST_ABSENT);
    EXPECT(mst_root(pass, root, 32) == 32);
    EXPECT(mst_remove(pass, TEXT("a"), room, sizeof room) == 1);
    EXPECT(mst_put(pass, TEXT("b"), TEXT("old"), room, sizeof room) == 1);
    uint64_t before = version_of(pass);
    EXPECT(mst_pin(other) == MST_OK);
    puts_edit("c", "3");
    puts_edit("b", "two");
    puts_edit("a", "1");
    removes_edit("c");
    removes_edit("none");
    puts_edit("b", "2");
    place = 77;
    EXPECT(made_by(pass) == MST_OK && place == 77);
    EXPECT(version_of(pass) == before + 1 && mst_root(pass, again, 32) == 32);
    EXPECT(memcmp(root, again, 32) == 0 && has(pass, "c", NULL) && has(pass, "b", "2"));
    EXPECT(version_of(other) == before && has(other, "b", "old") && has(other, "a", NULL));
    EXPECT(mst_unpin(other) == MST_OK && has(other, "a", "1"));
    /* no edits */
    EXPECT(mst_try_apply(other, NULL, 0, &place) == MST_OK && place == 77);
    EXPECT(version_of(pass) == before + 2 && has(pass, "a", "1"));
}

/* Whether the batch so far is refused by this number, for the edit at this place, and not made. */
static int is_refused(int32_t wanted, size_t at) {
    uint64_t before = version_of(pass);
    place = 77;
    int32_t told = made_by(pass);
    return told == wanted && place == at && version_of(pass) == before && has(pass, "z", NULL);
}

static void bad_lengths(void) {
    static const size_t keys[] = {0, 33, 256, 257, 65535, 65536, 65537};
    static const size_t values[] = {65, 256, 65535, 65536, 65600};
    for (size_t i = 0; i < sizeof keys / sizeof *keys; i++) {
        puts_edit("z", "1");
        length = mst_edit_put(edits, length, long_bytes, keys[i], long_bytes, 64);
        EXPECT(is_refused(MST_BAD_KEY, 1));
        length = mst_edit_remove(edits, length, long_bytes, keys[i]);
        puts_edit("z", "1");
        EXPECT(is_refused(MST_BAD_KEY, 0));
        puts_edit("z", "1");
        removes_edit("z");
        puts_edit("z", "1");
        length = mst_edit_put(edits, length, long_bytes, keys[i], long_bytes, 65);
        EXPECT(is_refused(MST_BAD_KEY, 3));
    }
    for (size_t i = 0; i < sizeof values / sizeof *values; i++) {
        puts_edit("z", "1");
        length = mst_edit_put(edits, length, long_bytes, 32, long_bytes, values[i]);
        puts_edit("z", "1");
        EXPECT(is_refused(MST_BAD_VALUE, 1));
    }
}

/* The room has no byte written behind an edit that is refused. */
static void short_edits(void) {
    memset(edits, 0xA5, sizeof edits);
    EXPECT(mst_edit_put(edits, 0, long_bytes, 33, long_bytes, 1) == 5 && edits[5] == 0xA5);
    EXPECT(mst_edit_put(edits, 0, long_bytes, 1, long_bytes, 65) == 5 && edits[5] == 0xA5);
    EXPECT(mst_edit_remove(edits, 0, long_bytes, 70000) == 5 && edits[5] == 0xA5);
    EXPECT(edits[1] == 0xFF && edits[2] == 0xFF);
    EXPECT(mst_edit_put(edits, 0, NULL, 0, NULL, 0) == 5 && edits[5] == 0xA5);
}

/* Cut short after each of its bytes, which is never after a whole edit. */
static void cut_short(void) {
    puts_edit("z", "1");
    puts_edit("zz", "12");
    size_t whole = length;
    for (size_t cut = 1; cut < whole; cut++) {
        length = cut;
        if (cut != 7)
            EXPECT(is_refused(MST_BAD_BATCH, cut < 7 ? 0 : 1));
    }
    length = 0;
}

static void bad_kinds(void) {
    for (int kind = 0; kind < 256; kind++) {
        removes_edit("z");
        size_t at = length;
        puts_edit("z", "1");
        edits[at] = (uint8_t)kind;
        if (kind != 1)
            EXPECT(is_refused(MST_BAD_BATCH, 1));
        length = 0;
    }
    /* lengths come first */
    length = mst_edit_put(edits, 0, long_bytes, 33, long_bytes, 1);
    edits[0] = 3;
    EXPECT(is_refused(MST_BAD_KEY, 0));
}

/* The edits are looked at before the pass. */
static void wrong_states(void) {
    EXPECT(mst_pin(pass) == MST_OK);
    place = 77;
    puts_edit("z", "1");
    EXPECT(made_by(pass) == MST_WRONG_STATE && place == 77);
    EXPECT(mst_try_apply(pass, NULL, 0, &place) == MST_WRONG_STATE && place == 77);
    puts_edit("", "1");
    EXPECT(made_by(pass) == MST_BAD_KEY && place == 0);
    EXPECT(mst_unpin(pass) == MST_OK && has(pass, "z", NULL));
}

/* More edits than find rows: nothing of the batch is made, and fewer of them go through. */
static void spent_rows(void) {
    mst_pass small = MST_PASS_CLOSED;
    EXPECT(mst_open(2, 8, &small, 1) == MST_OK);
    EXPECT(mst_put(&small, TEXT("a"), TEXT("1"), room, sizeof room) == MST_ABSENT);
    place = 77;
    for (char key = 'b'; key < 'i'; key++)
        puts_edit((char[]){key, 0}, "1");
    EXPECT(made_by(&small) == MST_NO_FREE_ROWS && place == 77);
    EXPECT(version_of(&small) == 1 && has(&small, "b", NULL) && has(&small, "a", "1"));
    puts_edit("b", "2");
    removes_edit("a");
    EXPECT(made_by(&small) == MST_OK && has(&small, "b", "2") && has(&small, "a", NULL));
    EXPECT(mst_close(&small) == MST_OK);
    place = 77;
    puts_edit("", "1");
    EXPECT(made_by(&small) == MST_CLOSED && place == 77);
}

int main(void) {
    EXPECT(mst_open(1, 1000, passes, 2) == MST_OK);
    forms();
    edits_of_one_version();
    bad_lengths();
    short_edits();
    cut_short();
    bad_kinds();
    wrong_states();
    spent_rows();
    EXPECT(mst_close(pass) == MST_OK && mst_close(other) == MST_OK);
    return ended("batches");
}
