/*
 * Blocks that one call makes by several threads, against a map whose blocks mst_sharded_apply makes:
 * random blocks by 0 to 200 threads; blocks that are refused, and hands that hold no writer, with
 * what both calls tell; threads that cannot be started; and a caller that is cancelled.
 *
 *     blocks_in_threads [BLOCKS]
 *
 * It is linked with --wrap=pthread_create: so it sees which threads the library starts, and refuses
 * some.
 */
#define _POSIX_C_SOURCE 200112L
#include "eight.h"
#include <errno.h>
#include <pthread.h>
#include <signal.h>
#include <stdlib.h>

static mst_handle hands[2], twins[2];
static mst_handle *const writer = &hands[0], *const reader = &hands[1];
static mst_handle *const twin = &twins[0];

/* ---- the threads that the library starts ---- */

/* A thread, and whether a signal may come to it. */
static struct start {
    void *(*run)(void *);
    void *given;
    int is_open;
} starts[SHARDS];
static size_t started;
static size_t granted = SHARDS; /* how many more may be started */

int __real_pthread_create(pthread_t *thread, const pthread_attr_t *how, void *(*run)(void *),
                          void *given);
int __wrap_pthread_create(pthread_t *thread, const pthread_attr_t *how, void *(*run)(void *),
                          void *given);

/* Whether one of some signals may come to this thread. */
static int is_open(void) {
    static const int some[] = {SIGINT, SIGTERM, SIGALRM, SIGUSR1, SIGCHLD, SIGPIPE};
    sigset_t blocked;
    int is = pthread_sigmask(SIG_BLOCK, NULL, &blocked) != 0;
    for (size_t at = 0; at < sizeof some / sizeof *some; at++)
        is = is || !sigismember(&blocked, some[at]);
    return is;
}

static void *runs(void *given) {
    struct start *start = given;
    start->is_open = is_open();
    return start->run(start->given);
}

int __wrap_pthread_create(pthread_t *thread, const pthread_attr_t *how, void *(*run)(void *),
                          void *given) {
    if (started >= granted || started >= SHARDS)
        return EAGAIN;
    starts[started] = (struct start){run, given, 1};
    int failed = __real_pthread_create(thread, how, runs, &starts[started]);
    started += failed == 0;
    return failed;
}

/* ---- the same block by both calls ---- */

static int32_t made_in(mst_handle *by, size_t threads) {
    place = shard = 77, number = 77;
    started = 0;
    return mst_sharded_apply_in_threads(by, many, many_length, threads, &place, &shard, &number);
}

/* What the call by threads returns, if it is what mst_sharded_apply of the other map returns and
 * tells. Then it has left the signals of this thread as they were. */
static int32_t both(mst_handle *one, mst_handle *other, size_t threads) {
    size_t other_place = 77, other_shard = 77;
    uint64_t other_number = 77;
    int32_t told = made_in(one, threads);
    EXPECT(mst_sharded_apply(other, many, many_length, &other_place, &other_shard, &other_number)
           == told);
    EXPECT(place == other_place && shard == other_shard && number == other_number);
    EXPECT(started < SHARDS && (threads == 0 ? started == 0 : started < threads));
    for (size_t at = 0; at < started; at++)
        EXPECT(!starts[at].is_open);
    EXPECT(is_open());
    return told;
}

static void open_both(uint32_t rows) {
    open_map(hands, 2, rows);
    open_map(twins, 2, rows);
}

static void close_both(void) {
    for (int at = 0; at < 2; at++)
        EXPECT(mst_sharded_close(&hands[at]) == MST_OK && mst_sharded_close(&twins[at]) == MST_OK);
}

static int are_at(uint64_t wanted) {
    int is = mst_sharded_snapshot(reader) == MST_OK && has_number(reader, wanted)
        && has_number(writer, wanted) && has_number(twin, wanted) && have_one_root(writer, twin)
        && have_one_root(writer, reader) && are_same(reader, twin);
    return is && mst_sharded_release(reader) == MST_OK;
}

static void random_blocks(uint32_t blocks) {
    static const size_t threads[] = {0, 1, 2, 3, 4, SHARDS, 200, SIZE_MAX};
    enum { WAYS = sizeof threads / sizeof *threads };
    size_t most = 0;
    open_both(ROWS);
    for (uint32_t block = 1; block <= blocks; block++) {
        choose_edits(choose(4) == 0 ? choose(4) : choose(MOST_EDITS),
                     choose(8) == 0 ? 1u << choose(SHARDS) : 0xFF);
        EXPECT(both(writer, twin, threads[choose(WAYS)]) == MST_OK && number == block);
        EXPECT(are_at(block));
        most = started > most ? started : most;
    }
    EXPECT(most == SHARDS - 1);
    close_both();
}

/* ---- threads that cannot be started ---- */

static void few_threads(void) {
    open_both(ROWS);
    for (granted = 0; granted < SHARDS; granted++) {
        choose_edits(MOST_EDITS, 0xFF);
        EXPECT(both(writer, twin, SHARDS) == MST_OK && are_at(granted + 1));
        EXPECT(started == (granted < SHARDS - 1 ? granted : SHARDS - 1));
    }
    close_both();
}

/* ---- refusals ---- */

/* More edits of one more shard, behind those that are there. */
static void more_in_another(int full) {
    for (uint8_t second = 0; second < 16; second++) {
        uint8_t key[2] = {(uint8_t)(1 + full), (uint8_t)(32 + second)};
        many_length = mst_edit_put(many, many_length, key, 2, key, 2);
    }
}

/* One shard, or two, have too few rows: the first of both is told, and the next block is made. */
static void too_few_rows(void) {
    open_both(12);
    uint64_t made = 0;
    for (int full = 0; full < SHARDS; full++)
        for (int other = 0; other < SHARDS; other++) {
            more_in(full);
            if (other != full)
                more_in_another(other);
            EXPECT(both(writer, twin, 4) == MST_NO_FREE_ROWS && place == 77 && number == 77);
            EXPECT(shard == (size_t)(other < full ? other : full) && are_at(made));
            more_in(-1);
            EXPECT(both(writer, twin, 4) == MST_OK && are_at(++made) && shard == 77);
        }
    close_both();
}

/* Bytes that are no edits, behind nine that are; by the writer, by what is none, and by none. */
static void bad_edits(void) {
    static const uint8_t bad[][6] = {{9, 0, 1, 0, 0, 1}, {1, 0, 0, 0, 0}, {1, 0, 33, 0, 0},
                                     {1, 0, 1, 0, 65}, {2, 0, 1, 0, 1}, {1, 0, 1, 0, 4}};
    static const int32_t wanted[] = {MST_BAD_BATCH, MST_BAD_KEY, MST_BAD_KEY, MST_BAD_VALUE,
                                     MST_BAD_BATCH, MST_BAD_BATCH};
    mst_handle none = MST_HANDLE_CLOSED;
    open_both(ROWS);
    for (size_t at = 0; at < sizeof bad / sizeof *bad; at++) {
        choose_edits(9, 0xFF);
        memcpy(many + many_length, bad[at], sizeof bad[at]);
        many_length += sizeof bad[at];
        EXPECT(both(writer, twin, 4) == wanted[at] && place == 9 && shard == 77 && number == 77);
        EXPECT(both(reader, &twins[1], 4) == wanted[at] && place == 9);
        EXPECT(both(&none, &none, 4) == MST_CLOSED && place == 77 && none.at == NULL);
        EXPECT(started == 0 && are_at(0));
    }
    close_both();
}

/* What holds no writer stays as it is: a reader, a snapshot, a block that was begun, its parts. */
static void no_writers(void) {
    mst_handle parts[SHARDS] = {MST_HANDLE_CLOSED};
    open_both(ROWS);
    choose_edits(MOST_EDITS, 0xFF);
    EXPECT(both(reader, &twins[1], 4) == MST_WRONG_STATE);
    EXPECT(mst_sharded_snapshot(reader) == MST_OK && mst_sharded_snapshot(&twins[1]) == MST_OK);
    EXPECT(both(reader, &twins[1], 4) == MST_WRONG_STATE && has_number(reader, 0));
    EXPECT(mst_sharded_release(reader) == MST_OK && mst_sharded_release(&twins[1]) == MST_OK);
    EXPECT(mst_sharded_begin(writer, many, many_length, &place, parts, SHARDS) == MST_OK);
    const void *held = writer->at;
    EXPECT(made_in(writer, 4) == MST_WRONG_STATE && writer->at == held);
    EXPECT(made_in(&parts[0], 4) == MST_WRONG_STATE && place == 77 && shard == 77 && number == 77);
    EXPECT(mst_sharded_commit(writer, &shard, &number) == MST_OK && number == 1);
    EXPECT(made_in(&parts[0], 4) == MST_WRONG_STATE && started == 0);
    EXPECT(mst_sharded_apply(twin, many, many_length, &place, &shard, &number) == MST_OK);
    EXPECT(both(writer, twin, 4) == MST_OK && are_at(2) && started > 0);
    for (int at = 0; at < SHARDS; at++)
        EXPECT(mst_sharded_close(&parts[at]) == MST_OK);
    close_both();
}

/* ---- a caller that is cancelled, and maps of one shard ---- */

/* Is cancelled from its beginning on. After the call it ends, where it first may. */
static void *cancelled(void *told) {
    pthread_cancel(pthread_self());
    *(int32_t *)told = made_in(writer, 4);
    pthread_testcancel();
    return NULL;
}

static void cancelled_caller(void) {
    pthread_t thread;
    int32_t told = 77;
    void *left = NULL;
    open_both(ROWS);
    choose_edits(MOST_EDITS, 0xFF);
    EXPECT(__real_pthread_create(&thread, NULL, cancelled, &told) == 0);
    EXPECT(pthread_join(thread, &left) == 0 && left == PTHREAD_CANCELED);
    EXPECT(told == MST_OK && number == 1 && started == 3);
    EXPECT(mst_sharded_apply(twin, many, many_length, &place, &shard, &number) == MST_OK);
    EXPECT(both(writer, twin, 4) == MST_OK && are_at(2));
    close_both();
}

static void one_shard(void) {
    mst_handle ones[2] = {MST_HANDLE_CLOSED, MST_HANDLE_CLOSED};
    for (int at = 0; at < 2; at++)
        EXPECT(mst_sharded_open(2, ROWS, NULL, 0, &ones[at], 1) == MST_OK);
    for (uint64_t block = 1; block < 20; block++) {
        choose_edits(choose(MOST_EDITS), 0xFF);
        EXPECT(both(&ones[0], &ones[1], 4) == MST_OK && number == block && started == 0);
        EXPECT(have_one_root(&ones[0], &ones[1]));
    }
    many_length = 0;
    EXPECT(both(&ones[0], &ones[1], 4) == MST_OK && number == 20);
    for (int at = 0; at < 2; at++)
        EXPECT(mst_sharded_close(&ones[at]) == MST_OK);
}

int main(int count, char **words) {
    uint32_t blocks = count > 1 ? (uint32_t)atol(words[1]) : 400;
    random_blocks(blocks);
    few_threads();
    too_few_rows();
    bad_edits();
    no_writers();
    cancelled_caller();
    one_shard();
    return ended("blocks_in_threads");
}
