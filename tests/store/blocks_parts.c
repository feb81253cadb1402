/*
 * Blocks that are made in parts: by four threads, against a map whose blocks are made at once; with
 * parts that are prepared in any order, twice, or not at all; with hands that are closed, or of the
 * wrong kind; with shards that have too few rows, each in turn; and with a commit while a part is
 * just being prepared.
 *
 *     blocks_parts [BLOCKS] [joined]
 *
 * With "joined" no two calls are made at the same time that wait for one another by atomic steps
 * alone: helgrind would take these for races.
 */
#include "eight.h"
#include <pthread.h>
#include <stdlib.h>

enum { THREADS = 4 };

static mst_handle hands[2], twins[2], parts[SHARDS];
static mst_handle *const writer = &hands[0], *const reader = &hands[1];
static mst_handle *const twin = &twins[0];

static int32_t begun(mst_handle *by) {
    place = 77;
    return mst_sharded_begin(by, many, many_length, &place, parts, SHARDS);
}

static int32_t committed(mst_handle *by) {
    shard = 77, number = 77;
    return mst_sharded_commit(by, &shard, &number);
}

static void close_parts(void) {
    for (int at = 0; at < SHARDS; at++)
        EXPECT(mst_sharded_close(&parts[at]) == MST_OK && parts[at].at == NULL);
}

/* ---- four threads ---- */

/* The parts of one thread, in one order or the other, each so many times. */
struct share {
    pthread_t thread;
    int first, times, is_backwards;
    int failed;
};

static void *prepares(void *by) {
    struct share *share = by;
    for (int at = 0; at < SHARDS / THREADS; at++) {
        int part = share->first + (share->is_backwards ? SHARDS / THREADS - 1 - at : at);
        for (int times = 0; times < share->times; times++)
            share->failed |= mst_sharded_prepare(&parts[part]) != MST_OK;
    }
    return NULL;
}

static void prepare_by_threads(void) {
    struct share shares[THREADS];
    for (int at = 0; at < THREADS; at++) {
        shares[at] = (struct share){.first = at * (SHARDS / THREADS), .times = (int)choose(3),
                                    .is_backwards = (int)choose(2), .failed = 0};
        EXPECT(pthread_create(&shares[at].thread, NULL, prepares, &shares[at]) == 0);
    }
    for (int at = 0; at < THREADS; at++)
        EXPECT(pthread_join(shares[at].thread, NULL) == 0 && !shares[at].failed);
}

static int is_last_block(uint64_t wanted) {
    int is = mst_sharded_snapshot(reader) == MST_OK && has_number(reader, wanted)
        && has_number(writer, wanted) && have_one_root(writer, reader) && are_same(reader, twin);
    return is && mst_sharded_release(reader) == MST_OK;
}

/* Blocks by four threads, and the same at once in another map. */
static void by_threads(uint32_t blocks) {
    uint64_t other = 77;
    open_map(hands, 2, ROWS);
    open_map(twins, 1, ROWS);
    for (uint32_t block = 1; block <= blocks; block++) {
        choose_edits(choose(MOST_EDITS), choose(8) == 0 ? 1u << choose(SHARDS) : 0xFF);
        EXPECT(begun(writer) == MST_OK && place == 77);
        prepare_by_threads();
        EXPECT(are_same(reader, twin));
        EXPECT(committed(writer) == MST_OK && number == block && shard == 77);
        EXPECT(mst_sharded_apply(twin, many, many_length, &place, &shard, &other) == MST_OK);
        EXPECT(other == block && have_one_root(writer, twin) && is_last_block(block));
        for (int at = 0; at < SHARDS; at++)
            EXPECT(mst_sharded_prepare(&parts[at]) == MST_WRONG_STATE);
        /* the next begin closes what the hands hold, one time of two */
        if (choose(2))
            close_parts();
    }
    choose_edits(1, 0xFF);
    EXPECT(begun(writer) == MST_OK && mst_sharded_cancel(writer) == MST_OK);
    close_parts();
    EXPECT(mst_sharded_close(reader) == MST_OK && mst_sharded_close(writer) == MST_OK);
    EXPECT(mst_sharded_close(twin) == MST_OK);
}

/* ---- hands of the wrong kind, and hands that are closed ---- */

/* Whether each other call says that the hand holds what it does not serve, and leaves it there. */
static int serves_nothing(mst_handle *by, int is_block) {
    uint8_t rooms[2][MST_VALUE_LONGEST];
    size_t count = 77, told = 77;
    uint32_t rows = 77;
    mst_sharded_group *group = NULL;
    const void *held = by->at;
    int is = mst_sharded_shards(by) == MST_WRONG_STATE
        && mst_sharded_number(by, &number) == MST_WRONG_STATE
        && mst_sharded_len(by, &number) == MST_WRONG_STATE && number == 77
        && mst_sharded_free_rows(by, 0, &rows) == MST_WRONG_STATE && rows == 77
        && mst_sharded_try_snapshot(by) == MST_WRONG_STATE
        && mst_sharded_snapshot(by) == MST_WRONG_STATE
        && mst_sharded_release(by) == MST_WRONG_STATE
        && mst_sharded_get(by, TEXT("\1"), rooms[0], 64) == MST_WRONG_STATE
        && mst_sharded_get(by, NULL, 0, rooms[0], 64) == MST_BAD_KEY
        && mst_sharded_next(by, NULL, 0, rooms[0], 64, &told, rooms[1], 64) == MST_WRONG_STATE
        && mst_sharded_range(by, NULL, 0, NULL, 0, 9, rooms[0], 64, &count, &told)
            == MST_WRONG_STATE
        && mst_sharded_format(by) == MST_WRONG_STATE
        && mst_sharded_root(by, rooms[0], MST_ROOT_LENGTH) == MST_WRONG_STATE
        && mst_sharded_prove(by, TEXT("\1"), rooms[0], 64, &told) == MST_WRONG_STATE
        && mst_sharded_directory(by, rooms[0], 64, &count, &told) == MST_WRONG_STATE
        && mst_sharded_apply(by, NULL, 0, &place, &shard, &number) == MST_WRONG_STATE
        && count == 77 && told == 77;
    is = is && mst_sharded_group_open(by, &group) == MST_WRONG_STATE && group == NULL
        && mst_sharded_copy(by, by, &shard, &number) == MST_WRONG_STATE;
    if (is_block)
        is = is && mst_sharded_prepare(by) == MST_WRONG_STATE
            && mst_sharded_begin(by, NULL, 0, &place, parts, SHARDS) == MST_WRONG_STATE;
    else
        is = is && mst_sharded_commit(by, &shard, &number) == MST_WRONG_STATE
            && mst_sharded_cancel(by) == MST_WRONG_STATE;
    return is && by->at == held;
}

/* What makes no block leaves the hands as they were; bad edits close those of the parts. */
static void begins_that_fail(void) {
    mst_handle none = MST_HANDLE_CLOSED, other = MST_HANDLE_CLOSED;
    choose_edits(9, 0xFF);
    open_map(parts, SHARDS, ROWS);
    const void *held = parts[0].at;
    place = 77;
    EXPECT(mst_sharded_begin(&none, many, many_length, &place, parts, SHARDS) == MST_CLOSED);
    EXPECT(mst_sharded_begin(reader, many, many_length, &place, parts, SHARDS) == MST_WRONG_STATE);
    EXPECT(mst_sharded_begin(writer, many, many_length, &place, parts, SHARDS - 1)
           == MST_BAD_SHAPE);
    EXPECT(mst_sharded_begin(writer, many, many_length, &place, NULL, 0) == MST_BAD_SHAPE);
    EXPECT(place == 77 && parts[0].at == held && mst_sharded_shards(&parts[0]) == SHARDS);
    EXPECT(mst_sharded_prepare(writer) == MST_WRONG_STATE);
    EXPECT(mst_sharded_prepare(reader) == MST_WRONG_STATE);
    EXPECT(committed(writer) == MST_WRONG_STATE && shard == 77 && number == 77);
    EXPECT(mst_sharded_cancel(writer) == MST_WRONG_STATE);
    EXPECT(mst_sharded_prepare(&none) == MST_CLOSED && committed(&none) == MST_CLOSED);
    EXPECT(mst_sharded_cancel(&none) == MST_CLOSED);
    many[many_length++] = 9; /* no kind of edit */
    EXPECT(begun(writer) == MST_BAD_BATCH && place == 9);
    for (int at = 0; at < SHARDS; at++)
        EXPECT(parts[at].at == NULL);
    EXPECT(has_number(writer, 0));
    EXPECT(mst_sharded_open(1, ROWS, NULL, 0, &other, 1) == MST_OK);
    EXPECT(mst_sharded_begin(&other, NULL, 0, &place, parts, 1) == MST_OK);
    EXPECT(mst_sharded_prepare(&parts[0]) == MST_OK);
    EXPECT(committed(&other) == MST_OK && number == 1);
    EXPECT(mst_sharded_close(&parts[0]) == MST_OK && mst_sharded_close(&other) == MST_OK);
}

static void wrong_kinds(void) {
    open_map(hands, 2, ROWS);
    begins_that_fail();
    choose_edits(20, 0xFF);
    EXPECT(begun(writer) == MST_OK);
    number = place = shard = 77;
    EXPECT(serves_nothing(writer, 1));
    for (int at = 0; at < SHARDS; at++)
        EXPECT(serves_nothing(&parts[at], 0));
    EXPECT(place == 77 && shard == 77 && committed(writer) == MST_OK && number == 1);
    number = place = shard = 77;
    EXPECT(serves_nothing(&parts[0], 0) && committed(writer) == MST_WRONG_STATE);
    close_parts();
    EXPECT(mst_sharded_close(reader) == MST_OK && mst_sharded_close(writer) == MST_OK);
}

/* Parts whose hands are closed are made all the same; blocks that are taken back are not. */
static void closed_and_cancelled(void) {
    open_map(hands, 2, ROWS);
    open_map(twins, 1, ROWS);
    uint64_t made = 0, other = 0;
    for (int round = 0; round < 40; round++) {
        int is_made = round % 2;
        choose_edits(60, 0xFF);
        EXPECT(begun(writer) == MST_OK);
        for (int at = 0; at < SHARDS; at++)
            if (choose(2))
                EXPECT(mst_sharded_prepare(&parts[at]) == MST_OK);
        if (round % 3 == 0)
            close_parts();
        EXPECT(is_made ? committed(writer) == MST_OK && number == ++made
                       : mst_sharded_cancel(writer) == MST_OK);
        if (is_made)
            EXPECT(mst_sharded_apply(twin, many, many_length, &place, &shard, &other) == MST_OK);
        EXPECT(is_last_block(made) && (made == 0 || have_one_root(writer, twin)));
        for (int at = 0; at < SHARDS; at++)
            EXPECT(mst_sharded_prepare(&parts[at]) == (round % 3 == 0 ? MST_CLOSED
                                                                      : MST_WRONG_STATE));
    }
    EXPECT(begun(writer) == MST_OK && mst_sharded_prepare(&parts[0]) == MST_OK);
    /* the block is lost, and the writer with it; the reader and the parts go on */
    EXPECT(mst_sharded_close(writer) == MST_OK && mst_sharded_prepare(&parts[1]) == MST_OK);
    EXPECT(are_same(reader, twin) && mst_sharded_close(reader) == MST_OK);
    EXPECT(mst_sharded_prepare(&parts[2]) == MST_OK);
    close_parts();
    EXPECT(mst_sharded_close(twin) == MST_OK);
}

/* ---- shards with too few rows ---- */

/* A part that is refused is remembered, and the block then, which may be made with others after. */
static void too_few_rows(void) {
    for (int full = 0; full < SHARDS; full++)
        for (int is_prepared = 0; is_prepared < 2; is_prepared++) {
            open_map(hands, 2, 12);
            more_in(full);
            EXPECT(begun(writer) == MST_OK);
            for (int at = SHARDS - 1; is_prepared && at >= 0; at--)
                for (int again = 0; again < 2; again++)
                    EXPECT(mst_sharded_prepare(&parts[at])
                           == (at == full ? MST_NO_FREE_ROWS : MST_OK));
            EXPECT(committed(writer) == MST_NO_FREE_ROWS && shard == (size_t)full);
            EXPECT(number == 77 && has_number(writer, 0));
            EXPECT(mst_sharded_get(reader, TEXT("\1"), room, 64) == MST_ABSENT);
            close_parts();
            more_in(-1);
            EXPECT(begun(writer) == MST_OK && committed(writer) == MST_OK && number == 1);
            close_parts();
            EXPECT(mst_sharded_close(reader) == MST_OK && mst_sharded_close(writer) == MST_OK);
        }
}

/* ---- a commit while a part is prepared ---- */

static int is_going; /* set once by the thread, and read by the other */

static void *prepares_all(void *failed) {
    __atomic_store_n(&is_going, 1, __ATOMIC_SEQ_CST);
    for (int at = SHARDS - 1; at >= 0; at--) {
        int32_t told = mst_sharded_prepare(&parts[at]);
        if (told != MST_OK && told != MST_BUSY && told != MST_WRONG_STATE)
            *(int *)failed = 1;
    }
    return NULL;
}

/* How many calls were told that a part is being prepared. Each leaves the block as it was. */
static long commits_beside(int is_made, uint64_t wanted) {
    pthread_t thread;
    long busy = 0;
    int failed = 0;
    int32_t told;
    is_going = 0;
    EXPECT(begun(writer) == MST_OK);
    EXPECT(pthread_create(&thread, NULL, prepares_all, &failed) == 0);
    while (!__atomic_load_n(&is_going, __ATOMIC_SEQ_CST))
        ;
    while ((told = is_made ? committed(writer) : mst_sharded_cancel(writer)) == MST_BUSY)
        busy++;
    EXPECT(told == MST_OK && has_number(writer, wanted));
    EXPECT(pthread_join(thread, NULL) == 0 && !failed);
    close_parts();
    return busy;
}

static void beside_parts(uint32_t blocks) {
    uint64_t made = 0, other = 0;
    long busy = 0;
    open_map(hands, 2, ROWS);
    open_map(twins, 1, ROWS);
    for (uint32_t block = 0; block < blocks || (busy == 0 && block < 20000); block++) {
        int is_made = block % 4 != 0;
        choose_edits(MOST_EDITS - 1, 0xFF);
        made += (uint64_t)is_made;
        busy += commits_beside(is_made, made);
        if (is_made)
            EXPECT(mst_sharded_apply(twin, many, many_length, &place, &shard, &other) == MST_OK);
        EXPECT(made == 0 || (have_one_root(writer, twin) && are_same(writer, twin)));
    }
    EXPECT(busy > 0);
    EXPECT(mst_sharded_close(reader) == MST_OK && mst_sharded_close(writer) == MST_OK);
    EXPECT(mst_sharded_close(twin) == MST_OK);
}

int main(int count, char **words) {
    uint32_t blocks = count > 1 ? (uint32_t)atol(words[1]) : 300;
    by_threads(blocks);
    wrong_kinds();
    closed_and_cancelled();
    too_few_rows();
    if (count < 3)
        beside_parts(blocks);
    return ended("blocks_parts");
}
