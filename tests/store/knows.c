/* The rows that are free while versions are pinned, these versions, and the one that was made. */
#include "tests.h"

static uint8_t room[MST_VALUE_LONGEST];

static int has_free(mst_pass *pass, uint32_t wanted) {
    uint32_t rows = 77;
    return mst_free_rows(pass, &rows) == MST_OK && rows == wanted;
}

static int has_made(mst_pass *pass, uint64_t wanted) {
    uint64_t version = 77;
    return mst_made(pass, &version) == MST_OK && version == wanted;
}

static int has_made_none(mst_pass *pass) {
    uint64_t version = 77;
    return mst_made(pass, &version) == MST_ABSENT && version == 77;
}

static int32_t put(mst_pass *pass, const char *value) {
    return mst_try_put(pass, TEXT("a"), (const uint8_t *)value, 1, room, sizeof room);
}

/* A put of another value at a lone key takes two rows. Whether two are free, or one alone. */
static void free_rows(uint32_t all) {
    mst_pass passes[2] = {MST_PASS_CLOSED, MST_PASS_CLOSED};
    mst_pass *writer = &passes[0], *reader = &passes[1];
    uint32_t rows = 77;
    EXPECT(mst_open(1, all, passes, 2) == MST_OK && has_free(writer, all));
    EXPECT(put(writer, "1") == MST_ABSENT && has_free(reader, all - 2));
    EXPECT(mst_pin(reader) == MST_OK && has_free(writer, all - 2));
    EXPECT(mst_free_rows(reader, &rows) == MST_WRONG_STATE && rows == 77);
    EXPECT(put(writer, "2") == 1 && has_free(writer, all - 4));
    if (all - 4 < 2)
        EXPECT(put(writer, "3") == MST_NO_FREE_ROWS && has_free(writer, all - 4));
    else
        EXPECT(put(writer, "3") == 1 && has_free(writer, all - 4));
    EXPECT(mst_rows(writer, &rows) == MST_ROWS_PINNED && rows == 77);
    EXPECT(mst_unpin(reader) == MST_OK && has_free(reader, all - 2));
    EXPECT(mst_close(writer) == MST_OK && mst_close(reader) == MST_OK);
}

/* Whether these versions are listed, and no more is written. */
static int has_pinned(mst_pass *pass, const uint64_t *wanted, size_t count) {
    uint64_t versions[MST_PASSES_MOST];
    size_t found = 77;
    for (size_t i = 0; i < MST_PASSES_MOST; i++)
        versions[i] = 77;
    int32_t told = mst_pinned_versions(pass, versions, MST_PASSES_MOST, &found);
    for (size_t i = count; i < MST_PASSES_MOST; i++)
        told = versions[i] == 77 ? told : -1;
    int same = memcmp(versions, wanted, count * sizeof *wanted) == 0;
    return told == MST_OK && found == count && same;
}

/* A version that is pinned is listed once, whoever pins it; the current one if it is pinned. */
static void versions_pinned(void) {
    static const uint64_t all[] = {1, 2, 3};
    mst_pass passes[5] = {MST_PASS_CLOSED};
    mst_pass *writer = &passes[4];
    EXPECT(mst_open(1, 64, passes, 5) == MST_OK && has_pinned(writer, all, 0));
    EXPECT(put(writer, "1") == MST_ABSENT && mst_pin(&passes[0]) == MST_OK);
    EXPECT(has_pinned(writer, all, 1) && has_pinned(&passes[1], all, 1));
    EXPECT(put(writer, "2") == 1 && has_pinned(writer, all, 1));
    EXPECT(mst_pin(&passes[2]) == MST_OK && mst_pin(&passes[1]) == MST_OK);
    EXPECT(has_pinned(writer, all, 2) && has_pinned(&passes[3], all, 2));
    EXPECT(put(writer, "3") == 1 && has_pinned(writer, all, 2));
    EXPECT(mst_pin(&passes[3]) == MST_OK && has_pinned(writer, all, 3));
    EXPECT(mst_unpin(&passes[2]) == MST_OK && has_pinned(writer, all, 3));
    EXPECT(mst_unpin(&passes[0]) == MST_OK && has_pinned(writer, all + 1, 2));
    EXPECT(mst_close(&passes[1]) == MST_OK && has_pinned(writer, all + 2, 1));
    EXPECT(mst_unpin(&passes[3]) == MST_OK && has_pinned(writer, all, 0));
    for (int i = 0; i < 5; i++)
        EXPECT(mst_close(&passes[i]) == (i == 1 ? MST_CLOSED : MST_OK));
}

/* As many as there are passes but the one that asks. */
static void most_versions_pinned(void) {
    mst_pass passes[MST_PASSES_MOST] = {MST_PASS_CLOSED};
    mst_pass *writer = &passes[MST_PASSES_MOST - 1];
    uint64_t pinned[MST_PASSES_MOST];
    EXPECT(mst_open(2, 200, passes, MST_PASSES_MOST) == MST_OK);
    for (size_t i = 0; i < MST_PASSES_MOST - 1; i++) {
        char value[2] = {(char)('A' + i), 0};
        pinned[i] = i + 1;
        EXPECT(put(writer, value) == (i == 0 ? MST_ABSENT : 1) && mst_pin(&passes[i]) == MST_OK);
        EXPECT(has_pinned(writer, pinned, i + 1));
    }
    for (size_t i = 0; i < MST_PASSES_MOST; i++)
        EXPECT(mst_close(&passes[i]) == MST_OK);
}

/* A room for one version too few, and one for just these. */
static void short_rooms(void) {
    mst_pass passes[3] = {MST_PASS_CLOSED};
    uint64_t versions[2] = {77, 77};
    size_t count = 77;
    EXPECT(mst_open(1, 64, passes, 3) == MST_OK);
    EXPECT(mst_pinned_versions(&passes[0], NULL, 0, &count) == MST_OK && count == 0);
    EXPECT(mst_pin(&passes[1]) == MST_OK && put(&passes[0], "1") == MST_ABSENT);
    EXPECT(mst_pin(&passes[2]) == MST_OK);
    EXPECT(mst_pinned_versions(&passes[0], versions, 1, &count) == MST_SHORT_ROOM && count == 2);
    count = 77;
    EXPECT(mst_pinned_versions(&passes[0], NULL, 0, &count) == MST_SHORT_ROOM && count == 2);
    count = 77;
    EXPECT(mst_pinned_versions(&passes[1], versions, 2, &count) == MST_WRONG_STATE && count == 77);
    EXPECT(versions[0] == 77 && versions[1] == 77);
    EXPECT(mst_pinned_versions(&passes[0], versions, 2, &count) == MST_OK && count == 2);
    EXPECT(versions[0] == 0 && versions[1] == 1);
    for (int i = 0; i < 3; i++)
        EXPECT(mst_close(&passes[i]) == MST_OK);
}

static void versions_made(void) {
    mst_pass passes[2] = {MST_PASS_CLOSED, MST_PASS_CLOSED};
    mst_pass *one = &passes[0], *other = &passes[1];
    uint8_t edits[MST_EDIT_LONGEST];
    size_t length = mst_edit_put(edits, 0, TEXT("b"), TEXT("2")), place = 0;
    uint64_t version = 0;
    EXPECT(mst_open(1, 32, passes, 2) == MST_OK && has_made_none(one) && has_made_none(other));
    EXPECT(put(one, "1") == MST_ABSENT && has_made(one, 1) && has_made_none(other));
    EXPECT(put(other, "2") == 1 && has_made(other, 2) && has_made(one, 1));
    EXPECT(mst_version(one, &version) == MST_OK && version == 2 && has_made(one, 1));
    EXPECT(mst_pin(one) == MST_OK && has_made(one, 1));
    EXPECT(put(one, "3") == MST_WRONG_STATE && has_made(one, 1));
    EXPECT(mst_try_apply(other, edits, length, &place) == MST_OK && has_made(other, 3));
    EXPECT(mst_unpin(one) == MST_OK && has_made(one, 1));
    EXPECT(mst_try_migrate(one, 2) == 1 && has_made(one, 4));
    EXPECT(mst_try_remove(other, TEXT("none"), room, sizeof room) == MST_ABSENT);
    EXPECT(has_made(other, 5) && has_made(one, 4));
    EXPECT(mst_close(one) == MST_OK && mst_close(other) == MST_OK);
}

int main(void) {
    free_rows(5);
    free_rows(6);
    versions_pinned();
    most_versions_pinned();
    short_rooms();
    versions_made();
    return ended("knows");
}
