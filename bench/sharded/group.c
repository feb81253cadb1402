/*
 * How many single puts a second several threads make as blocks of a sharded map, by a group.
 *
 *     group [KEYS [SHARDS [CALLS [ROUNDS]]]]       200000 32 100000 3
 *
 * Build it in this folder, after `make -C ../../bindings`:
 *
 *     cc -std=c11 -D_GNU_SOURCE -Wall -Wextra -O2 -I../../include group.c \
 *         ../../bindings/out/libmst_store.a -lpthread -o out/group
 *
 * The keys are random, of 16 bytes, with values of 32. Each figure is of so many puts of keys that
 * are there, made by all threads together: the best of the rounds. It writes a line for each: the
 * name, the number of threads, and the figure. `apply` is a writer without a group, one block for
 * each put; `group` the puts a second by a group, `a block` how many of them a block has.
 */
#include "../common.h"
#include "mst_store.h"
#include "shards.h"
#include <pthread.h>
#include <stdio.h>
#include <stdlib.h>

enum { THREADS_MOST = 8, FILL = 1000 };

static size_t keys = 200000, shards = 32, calls = 100000;
static mst_handle writer = MST_HANDLE_CLOSED;
static mst_sharded_group *group;

_Noreturn void give_up(const char *what, int code) {
    fprintf(stderr, "%s returned %d\n", what, code);
    exit(1);
}

static void write_bytes(uint8_t *at, uint64_t number) {
    for (int byte = 0; byte < 8; byte++)
        at[byte] = (uint8_t)(number >> (56 - 8 * byte));
}

/* The key with this number, whose first eight bytes are spread evenly, and its value in a round. */
static void pair_of(uint64_t number, uint64_t round, uint8_t *key, uint8_t *value) {
    write_bytes(key, mixed(number));
    write_bytes(key + 8, number);
    write_bytes(value, number);
    write_bytes(value + 8, round);
}

static size_t write_put(uint8_t *edits, size_t at, uint64_t number, uint64_t round) {
    uint8_t key[KEY_LENGTH], value[VALUE_LENGTH] = {0};
    pair_of(number, round, key, value);
    return mst_edit_put(edits, at, key, KEY_LENGTH, value, VALUE_LENGTH);
}

/* ---- how a put is made ---- */

static void put_apply(int seat, uint64_t number, uint64_t round) {
    uint8_t edits[MST_EDIT_LONGEST];
    size_t length = write_put(edits, 0, number, round), place, shard;
    uint64_t block;
    int32_t told = mst_sharded_apply(&writer, edits, length, &place, &shard, &block);
    if (told != MST_OK)
        give_up("mst_sharded_apply", seat + told);
}

static void put_group(int seat, uint64_t number, uint64_t round) {
    uint8_t edits[MST_EDIT_LONGEST];
    size_t length = write_put(edits, 0, number, round), place, shard;
    uint64_t block;
    int32_t told = mst_sharded_group_apply(group, edits, length, &place, &shard, &block);
    if (told != MST_OK)
        give_up("mst_sharded_group_apply", seat + told);
}

/* ---- what is timed ---- */

struct job {
    int seat, threads;
    uint64_t round;
    void (*put)(int seat, uint64_t number, uint64_t round);
};

static void *run_job(void *given) {
    const struct job *job = given;
    for (size_t put = (size_t)job->seat; put < calls; put += (size_t)job->threads)
        job->put(job->seat, mixed(mixed(put) + job->round) % keys, job->round);
    return NULL;
}

/* The puts a second of so many threads. */
static double rate(int threads, void (*put)(int seat, uint64_t number, uint64_t round)) {
    static uint64_t round;
    pthread_t started[THREADS_MOST];
    struct job jobs[THREADS_MOST];
    round++;
    double from = seconds_of(CLOCK_MONOTONIC);
    for (int seat = 0; seat < threads; seat++) {
        jobs[seat] = (struct job){seat, threads, round, put};
        if (pthread_create(&started[seat], NULL, run_job, &jobs[seat]) != 0)
            give_up("pthread_create", seat);
    }
    for (int seat = 0; seat < threads; seat++)
        pthread_join(started[seat], NULL);
    return (double)calls / (seconds_of(CLOCK_MONOTONIC) - from);
}

static void open_blocks(void) {
    static uint8_t splits[SPLITS_ROOM], edits[FILL * MST_EDIT_LONGEST];
    size_t length = write_splits(splits, shards), place, shard;
    uint64_t block;
    int32_t told = mst_sharded_open(1, rows_of(keys, shards), splits, length, &writer, 1);
    for (uint64_t from = 0; told == MST_OK && from < keys; from += FILL) {
        length = 0;
        for (uint64_t key = from; key < keys && key < from + FILL; key++)
            length = write_put(edits, length, key, 0);
        told = mst_sharded_apply(&writer, edits, length, &place, &shard, &block);
    }
    if (told != MST_OK)
        give_up("filling the map", told);
}

static uint64_t last_block(void) {
    uint64_t number = 0;
    if (mst_sharded_number(&writer, &number) != MST_OK)
        give_up("mst_sharded_number", 0);
    return number;
}

/* As `rate`, by a group, which also tells the mean of the puts of a block. */
static double rate_by_group(int threads, double *a_block) {
    uint64_t before = last_block();
    if (mst_sharded_group_open(&writer, &group) != MST_OK)
        give_up("mst_sharded_group_open", threads);
    double figure = rate(threads, put_group);
    mst_sharded_group_close(group, &writer);
    *a_block = (double)calls / (double)(last_block() - before);
    return figure;
}

/* The best figure of each, of so many rounds. */
struct figures {
    double apply, group[THREADS_MOST + 1], a_block[THREADS_MOST + 1];
};

static void better(double *best, double figure) {
    if (figure > *best)
        *best = figure;
}

static void one_round(struct figures *best) {
    better(&best->apply, rate(1, put_apply));
    for (int threads = 1; threads <= THREADS_MOST; threads *= 2) {
        double a_block, figure = rate_by_group(threads, &a_block);
        better(&best->group[threads], figure);
        better(&best->a_block[threads], a_block);
    }
}

static void tell(const struct figures *best) {
    printf("apply\t1\t%.0f\n", best->apply);
    for (int threads = 1; threads <= THREADS_MOST; threads *= 2)
        printf("group\t%d\t%.0f\n", threads, best->group[threads]);
    for (int threads = 1; threads <= THREADS_MOST; threads *= 2)
        printf("a block\t%d\t%.2f\n", threads, best->a_block[threads]);
}

int main(int count, char **words) {
    static struct figures best;
    size_t rounds = 3, *given[] = {&keys, &shards, &calls, &rounds};
    for (int word = 1; word < count && word <= 4; word++)
        *given[word - 1] = strtoul(words[word], NULL, 10);
    open_blocks();
    while (rounds-- > 0)
        one_round(&best);
    tell(&best);
    mst_sharded_close(&writer);
    return 0;
}
