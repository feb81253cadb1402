/* Each call on a closed hand and in the wrong state, shapes, and pins that end with their pass. */
#include "rooms.h"

static void closed_hands(mst_pass *pass) {
    fill_rooms();
    EXPECT(mst_get(pass, TEXT("a"), room, sizeof room) == MST_CLOSED);
    EXPECT(mst_get(pass, long_bytes, 33, room, sizeof room) == MST_CLOSED);
    EXPECT(mst_next(pass, TEXT("a"), key_room, 32, &length, room, 64) == MST_CLOSED);
    EXPECT(range_of(pass, TEXT("a"), NULL, 0, 9, sizeof pairs) == MST_CLOSED);
    EXPECT(range_of(pass, long_bytes, 33, NULL, 0, 9, 0) == MST_CLOSED);
    EXPECT(mst_root(pass, root, sizeof root) == MST_CLOSED);
    EXPECT(mst_root(pass, NULL, 0) == MST_CLOSED);
    EXPECT(mst_prove(pass, TEXT("a"), proof, sizeof proof, &length) == MST_CLOSED);
    EXPECT(mst_version(pass, &version) == MST_CLOSED && mst_len(pass, &version) == MST_CLOSED);
    EXPECT(mst_format(pass) == MST_CLOSED);
    EXPECT(mst_rows(pass, &rows) == MST_CLOSED);
    EXPECT(mst_free_rows(pass, &rows) == MST_CLOSED && mst_made(pass, &version) == MST_CLOSED);
    EXPECT(mst_pinned_versions(pass, &version, 1, &length) == MST_CLOSED);
    EXPECT(mst_pinned_versions(pass, NULL, 0, &length) == MST_CLOSED);
    EXPECT(mst_try_put(pass, TEXT("a"), TEXT("1"), room, sizeof room) == MST_CLOSED);
    EXPECT(mst_try_put(pass, NULL, 0, long_bytes, 65, room, sizeof room) == MST_CLOSED);
    EXPECT(mst_put(pass, TEXT("a"), TEXT("1"), room, sizeof room) == MST_CLOSED);
    EXPECT(mst_try_remove(pass, TEXT("a"), room, sizeof room) == MST_CLOSED);
    EXPECT(mst_remove(pass, TEXT("a"), room, sizeof room) == MST_CLOSED);
    EXPECT(mst_try_apply(pass, NULL, 0, &length) == MST_CLOSED);
    EXPECT(mst_try_apply(pass, long_bytes, 65, &length) == MST_CLOSED);
    EXPECT(mst_apply(pass, NULL, 0, &length) == MST_CLOSED);
    EXPECT(mst_try_migrate(pass, 2) == MST_CLOSED && mst_try_migrate(pass, 3) == MST_CLOSED);
    EXPECT(mst_migrate(pass, 1) == MST_CLOSED);
    EXPECT(mst_put_within(pass, TEXT("a"), TEXT("1"), room, sizeof room, 9) == MST_CLOSED);
    EXPECT(mst_remove_within(pass, TEXT("a"), room, sizeof room, 9) == MST_CLOSED);
    EXPECT(mst_apply_within(pass, NULL, 0, &length, 9) == MST_CLOSED);
    EXPECT(mst_migrate_within(pass, 1, 9) == MST_CLOSED);
    EXPECT(mst_pin(pass) == MST_CLOSED);
    EXPECT(mst_unpin(pass) == MST_CLOSED);
    EXPECT(mst_close(pass) == MST_CLOSED);
    EXPECT(pass->at == NULL && pass->place == NULL);
    EXPECT(rooms_stay());
}

/* Of more than 32 hands none is read or closed, however many there are said to be. */
static void too_many_hands(mst_pass *passes) {
    static const size_t counts[] = {33, 64, (size_t)1 << 31, SIZE_MAX / 8, SIZE_MAX};
    for (size_t i = 0; i < sizeof counts / sizeof *counts; i++) {
        EXPECT(mst_open(1, 1000, passes, counts[i]) == MST_BAD_SHAPE);
        EXPECT(mst_open(2, 3, NULL, counts[i]) == MST_BAD_SHAPE);
        EXPECT(mst_open(0, 1000, passes, counts[i]) == MST_UNKNOWN_FORMAT);
    }
}

static void shapes(void) {
    EXPECT(sizeof(mst_pass) == 256);
    mst_pass passes[33] = {MST_PASS_CLOSED};
    EXPECT(mst_open(0, 1000, passes, 1) == MST_UNKNOWN_FORMAT);
    EXPECT(mst_open(3, 1000, passes, 1) == MST_UNKNOWN_FORMAT);
    EXPECT(mst_open(99, 3, passes, 1) == MST_UNKNOWN_FORMAT);
    EXPECT(mst_open(1, 3, passes, 1) == MST_BAD_SHAPE);
    EXPECT(mst_open(2, 3, passes, 1) == MST_BAD_SHAPE);
    EXPECT(mst_open(1, 65536, passes, 1) == MST_BAD_SHAPE);
    EXPECT(mst_open(1, UINT32_MAX, passes, 1) == MST_BAD_SHAPE);
    EXPECT(mst_open(1, 1000, NULL, 0) == MST_BAD_SHAPE);
    EXPECT(mst_open(1, 1000, passes, 33) == MST_BAD_SHAPE);
    EXPECT(mst_open(3, 1000, passes, 33) == MST_UNKNOWN_FORMAT);
    EXPECT(mst_open(1, MST_ROWS_LEAST, passes, MST_PASSES_MOST) == MST_OK);
    EXPECT(passes[32].at == NULL);
    EXPECT(mst_try_put(&passes[31], TEXT("a"), TEXT("1"), room, sizeof room) == MST_ABSENT);
    /* a second opening closes what the hands held, and so does one that is refused */
    EXPECT(mst_open(1, MST_ROWS_MOST, passes, 2) == MST_OK);
    EXPECT(mst_get(&passes[0], TEXT("a"), room, sizeof room) == MST_ABSENT);
    EXPECT(mst_get(&passes[31], TEXT("a"), room, sizeof room) == 1);
    EXPECT(mst_open(1, 3, passes, 2) == MST_BAD_SHAPE);
    EXPECT(passes[0].at == NULL && passes[1].at == NULL);
    too_many_hands(passes);
    EXPECT(mst_get(&passes[31], TEXT("a"), room, sizeof room) == 1);
    EXPECT(mst_close(&passes[0]) == MST_CLOSED);
    for (int i = 2; i < 32; i++)
        EXPECT(mst_close(&passes[i]) == MST_OK);
}

static void wrong_states(mst_pass *pass, mst_pass *other) {
    uint64_t before = 0, after = 0;
    EXPECT(mst_unpin(pass) == MST_WRONG_STATE);
    EXPECT(mst_version(pass, &before) == MST_OK);
    EXPECT(mst_pin(pass) == MST_OK);
    fill_rooms();
    EXPECT(mst_pin(pass) == MST_WRONG_STATE);
    EXPECT(mst_rows(pass, &rows) == MST_WRONG_STATE);
    EXPECT(mst_try_put(pass, TEXT("a"), TEXT("1"), room, sizeof room) == MST_WRONG_STATE);
    EXPECT(mst_try_put(pass, NULL, 0, TEXT("1"), room, sizeof room) == MST_BAD_KEY);
    EXPECT(mst_try_remove(pass, TEXT("a"), room, sizeof room) == MST_WRONG_STATE);
    EXPECT(mst_try_apply(pass, NULL, 0, &length) == MST_WRONG_STATE);
    EXPECT(mst_rows(other, &rows) == MST_ROWS_PINNED);
    EXPECT(rooms_stay());
    EXPECT(mst_try_put(other, TEXT("z"), TEXT("1"), room, sizeof room) == MST_ABSENT);
    EXPECT(mst_get(pass, TEXT("z"), room, sizeof room) == MST_ABSENT);
    EXPECT(mst_version(pass, &after) == MST_OK && after == before);
    EXPECT(mst_unpin(pass) == MST_OK);
    EXPECT(mst_get(pass, TEXT("z"), room, sizeof room) == 1);
    EXPECT(mst_version(pass, &after) == MST_OK && after == before + 1);
    EXPECT(mst_rows(other, &rows) == MST_OK && rows > 0);
}

/* Puts keys from `key` on until one finds no rows: the first that is not there. */
static uint8_t fill(mst_pass *pass, uint8_t key) {
    int32_t told;
    while ((told = mst_try_put(pass, &key, 1, TEXT("1"), room, sizeof room)) == MST_ABSENT)
        key++;
    EXPECT(told == MST_NO_FREE_ROWS);
    return key;
}

/*
 * A pin ends with its pass, so the other pass can use all rows again, and count them: by mst_close,
 * and by an mst_open into the hand.
 */
static void close_ends_the_pin(int opens_again) {
    mst_pass passes[2] = {MST_PASS_CLOSED, MST_PASS_CLOSED};
    EXPECT(mst_open(1, 64, passes, 2) == MST_OK);
    uint8_t most = fill(&passes[1], 100);
    EXPECT(mst_open(1, 64, passes, 2) == MST_OK);
    for (uint8_t key = 0; key < 8; key++)
        EXPECT(mst_try_put(&passes[1], &key, 1, TEXT("1"), room, sizeof room) == MST_ABSENT);
    EXPECT(mst_pin(&passes[0]) == MST_OK);
    for (uint8_t key = 0; key < 8; key++)
        EXPECT(mst_try_remove(&passes[1], &key, 1, room, sizeof room) == 1);
    uint8_t beside = fill(&passes[1], 100);
    EXPECT(100 < beside && beside < most);
    EXPECT(mst_rows(&passes[1], &rows) == MST_ROWS_PINNED);
    if (opens_again)
        EXPECT(mst_open(1, 4, &passes[0], 1) == MST_OK && mst_close(&passes[0]) == MST_OK);
    else
        EXPECT(mst_close(&passes[0]) == MST_OK && passes[0].at == NULL);
    EXPECT(fill(&passes[1], beside) == most);
    EXPECT(mst_rows(&passes[1], &rows) == MST_OK && rows <= 64);
    EXPECT(mst_close(&passes[1]) == MST_OK);
}

int main(void) {
    mst_pass passes[2] = {MST_PASS_CLOSED, MST_PASS_CLOSED};
    closed_hands(&passes[0]);
    shapes();
    EXPECT(mst_open(1, 1000, passes, 2) == MST_OK);
    wrong_states(&passes[0], &passes[1]);
    close_ends_the_pin(0);
    close_ends_the_pin(1);
    /* a pinned pass may be closed; the store goes on */
    EXPECT(mst_pin(&passes[0]) == MST_OK && mst_close(&passes[0]) == MST_OK);
    EXPECT(mst_get(&passes[1], TEXT("z"), room, sizeof room) == 1);
    EXPECT(mst_close(&passes[1]) == MST_OK);
    closed_hands(&passes[0]);
    return ended("states");
}
