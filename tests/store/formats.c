/* Migrations of a store, and stores with too few rows for a put or a migration. */
#include "tests.h"

static uint8_t room[MST_VALUE_LONGEST];
static uint64_t version;

/* The root digest of a store that is opened in this format and has the one pair. */
static void root_of_a(uint32_t format, uint8_t *digest) {
    mst_pass pass = MST_PASS_CLOSED;
    EXPECT(mst_open(format, 8, &pass, 1) == MST_OK && mst_format(&pass) == (int32_t)format);
    EXPECT(mst_try_put(&pass, TEXT("a"), TEXT("1"), room, sizeof room) == MST_ABSENT);
    EXPECT(mst_root(&pass, digest, 32) == 32);
    EXPECT(mst_close(&pass) == MST_OK);
}

static int has_root(mst_pass *pass, const uint8_t *digest) {
    uint8_t now[32];
    return mst_root(pass, now, 32) == 32 && memcmp(now, digest, 32) == 0;
}

/* Migrations by one pass, and the other, which pins. */
static void formats(void) {
    mst_pass passes[2] = {MST_PASS_CLOSED, MST_PASS_CLOSED};
    mst_pass *pass = &passes[0], *other = &passes[1];
    uint8_t one[32], two[32];
    root_of_a(1, one);
    root_of_a(2, two);
    EXPECT(memcmp(one, two, 32) != 0);
    EXPECT(mst_open(1, 64, passes, 2) == MST_OK && mst_format(pass) == 1);
    EXPECT(mst_try_put(pass, TEXT("a"), TEXT("1"), room, sizeof room) == MST_ABSENT);
    EXPECT(mst_try_migrate(pass, 0) == MST_UNKNOWN_FORMAT);
    EXPECT(mst_try_migrate(pass, 3) == MST_UNKNOWN_FORMAT);
    EXPECT(mst_migrate(pass, UINT32_MAX) == MST_UNKNOWN_FORMAT);
    EXPECT(mst_format(pass) == 1 && has_root(pass, one));
    EXPECT(mst_version(pass, &version) == MST_OK && version == 1);
    EXPECT(mst_pin(other) == MST_OK);
    EXPECT(mst_try_migrate(other, 2) == MST_WRONG_STATE
           && mst_migrate(other, 1) == MST_WRONG_STATE);
    EXPECT(mst_try_migrate(other, 3) == MST_UNKNOWN_FORMAT);
    EXPECT(mst_try_migrate(pass, 2) == 1);
    EXPECT(mst_format(pass) == 2 && has_root(pass, two));
    EXPECT(mst_format(other) == 1 && has_root(other, one));
    EXPECT(mst_get(pass, TEXT("a"), room, sizeof room) == 1 && room[0] == '1');
    EXPECT(mst_version(pass, &version) == MST_OK && version == 2);
    EXPECT(mst_version(other, &version) == MST_OK && version == 1);
    EXPECT(mst_unpin(other) == MST_OK && mst_format(other) == 2 && has_root(other, two));
    /* to the current format, which makes a version too */
    EXPECT(mst_migrate(other, 2) == 2 && has_root(pass, two));
    EXPECT(mst_version(pass, &version) == MST_OK && version == 3);
    EXPECT(mst_migrate(other, 1) == 2 && mst_format(pass) == 1 && has_root(pass, one));
    EXPECT(mst_close(pass) == MST_OK && mst_close(other) == MST_OK);
}

/* A full store stays in its format, and migrates to that. */
static void spent_rows_of_a_migration(uint32_t format) {
    mst_pass pass = MST_PASS_CLOSED;
    uint8_t before[32], key = 0;
    uint64_t writes = 0;
    EXPECT(mst_open(format, 64, &pass, 1) == MST_OK);
    while (mst_try_put(&pass, &key, 1, TEXT("1"), room, sizeof room) == MST_ABSENT)
        key++;
    EXPECT(mst_root(&pass, before, 32) == 32 && mst_version(&pass, &writes) == MST_OK);
    EXPECT(mst_try_migrate(&pass, 3 - format) == MST_NO_FREE_ROWS);
    EXPECT(mst_format(&pass) == (int32_t)format && has_root(&pass, before));
    EXPECT(mst_version(&pass, &version) == MST_OK && version == writes);
    EXPECT(mst_try_migrate(&pass, format) == (int32_t)format && has_root(&pass, before));
    EXPECT(mst_version(&pass, &version) == MST_OK && version == writes + 1);
    EXPECT(mst_close(&pass) == MST_OK);
}

/* A store with too few rows refuses, and stays as it was. */
static void spent_rows(void) {
    mst_pass pass = MST_PASS_CLOSED;
    uint8_t before[32], after[32];
    uint8_t key = 0;
    int32_t told = MST_ABSENT;
    EXPECT(mst_open(1, 8, &pass, 1) == MST_OK);
    while (told == MST_ABSENT && key < 8) {
        EXPECT(mst_root(&pass, before, 32) == 32);
        told = mst_try_put(&pass, &(uint8_t){++key}, 1, TEXT("1"), room, sizeof room);
    }
    EXPECT(told == MST_NO_FREE_ROWS);
    EXPECT(mst_root(&pass, after, 32) == 32 && memcmp(before, after, 32) == 0);
    EXPECT(mst_get(&pass, &key, 1, room, sizeof room) == MST_ABSENT);
    EXPECT(mst_close(&pass) == MST_OK);
}

int main(void) {
    formats();
    spent_rows();
    spent_rows_of_a_migration(1);
    spent_rows_of_a_migration(2);
    return ended("formats");
}
