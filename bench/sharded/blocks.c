/*
 * How long blocks of a sharded map take, by one thread and by several, beside LMDB's transactions of
 * as many puts, and the snapshots that a reader takes while blocks are made.
 *
 *     blocks [KEYS [SHARDS [ROUNDS]]]       1000000 32 100
 *
 * Build it in this folder, after `make -C ../../bindings`:
 *
 *     cc -std=c11 -D_GNU_SOURCE -Wall -Wextra -O2 -I../../include -DWITH_LMDB blocks.c lmdb.c \
 *         ../../bindings/out/libmst_store.a -lpthread -llmdb -o out/blocks
 *
 * Without -DWITH_LMDB, lmdb.c and -llmdb it times blocks alone. The keys are random, of 16 bytes,
 * with values of 32. Writes a line for each figure, with its name and a tab before it: `fill`, the
 * puts a second of blocks, or transactions, of 10,000 into the empty map; `N, least` and `N,
 * median`, the milliseconds of one with N puts of keys that are there, which the engines make in
 * turn, round for round. `block by T threads: N, least` and `N, median` are those of blocks that
 * mst_sharded_apply_in_threads makes, by 1, 2 and 4 threads in turn. `snapshot` is the least
 * microseconds of a snapshot, with its release, if nothing has changed. And of a reader that takes
 * one snapshot after another while blocks of N are made: `tries`, how many of a thousand had to try
 * again; of such a snapshot `waited, median` and `waited, longest`, the microseconds from its first
 * try to the beginning of the one that was of one block, and `taken, median` and `taken, longest`,
 * those to its end.
 */
#include "../common.h"
#include "mst_store.h"
#include "shards.h"
#include <pthread.h>
#include <stdatomic.h>
#include <stdio.h>
#include <stdlib.h>
#include <string.h>

enum { BLOCK_MOST = PAIRS_MOST, WAITS_MOST = 100000, ROUNDS_MOST = 10000 };

static mst_handle hands[2];
static double waits[WAITS_MOST], ends[WAITS_MOST];
static size_t keys = 1000000, shards = 32;

_Noreturn void give_up(const char *what, int told) {
    fprintf(stderr, "%s returned %d\n", what, told);
    exit(1);
}

static double now(void) {
    return seconds_of(CLOCK_MONOTONIC);
}

/* ---- what is timed ---- */

static void open_map(size_t count, size_t parts) {
    static uint8_t splits[SPLITS_ROOM];
    size_t length = write_splits(splits, parts);
    int32_t told = mst_sharded_open(1, rows_of(count, parts), splits, length, hands, 2);
    if (told != MST_OK)
        give_up("mst_sharded_open", told);
}

static void close_map(void) {
    for (int hand = 0; hand < 2; hand++)
        mst_sharded_close(&hands[hand]);
}

/* One block, by so many threads. */
static void put_by_threads(const uint8_t *pairs, size_t count, size_t threads) {
    static uint8_t edits[BLOCK_MOST * MST_EDIT_LONGEST];
    static uint64_t last;
    size_t length = 0, place, shard;
    uint64_t number;
    for (size_t i = 0; i < count; i++, pairs += PAIR_LENGTH)
        length = mst_edit_put(edits, length, pairs, KEY_LENGTH, pairs + KEY_LENGTH, VALUE_LENGTH);
    int32_t told = mst_sharded_apply_in_threads(&hands[0], edits, length, threads, &place, &shard,
                                                &number);
    if (told != MST_OK || number != ++last)
        give_up("mst_sharded_apply_in_threads", told);
}

/* One block. By one thread it is that of mst_sharded_apply. */
static void put_all(const uint8_t *pairs, size_t count) {
    put_by_threads(pairs, count, 1);
}

static const struct engine blocks_engine = {
    .name = "block", .open = open_map, .close = close_map, .put_all = put_all};

static const struct engine *const engines[] = {
    &blocks_engine,
#ifdef WITH_LMDB
    &lmdb_engine,
#endif
};

enum { ENGINES = sizeof engines / sizeof *engines };

/* ---- pairs ---- */

static uint8_t pairs[BLOCK_MOST * PAIR_LENGTH];

static void key_of(uint64_t number, uint8_t *key) {
    for (int half = 0; half < 2; half++) {
        uint64_t part = mixed(2 * number + (uint64_t)half);
        for (int byte = 0; byte < 8; byte++)
            key[8 * half + byte] = (uint8_t)(part >> (56 - 8 * byte));
    }
}

/* Pairs of the keys of `count` numbers from this one on, with new values. */
static void write_pairs(size_t first, size_t count) {
    static uint64_t value;
    value++;
    for (size_t i = 0; i < count; i++) {
        uint8_t *pair = pairs + i * PAIR_LENGTH;
        key_of((first + i) % keys, pair);
        memset(pair + KEY_LENGTH, 0, VALUE_LENGTH);
        memcpy(pair + KEY_LENGTH, &value, sizeof value);
    }
}

/* Pairs of keys anywhere. */
static void draw_pairs(size_t count) {
    static uint64_t drawn;
    write_pairs(mixed(drawn++) % keys, count);
}

/* ---- blocks and transactions ---- */

static int by_length(const void *one, const void *other) {
    double a = *(const double *)one, b = *(const double *)other;
    return (a > b) - (a < b);
}

static void fill(const struct engine *engine) {
    double took = 0;
    engine->open(keys, shards);
    for (size_t first = 0; first < keys; first += BLOCK_MOST) {
        size_t count = keys - first < BLOCK_MOST ? keys - first : BLOCK_MOST;
        write_pairs(first, count);
        double began = now();
        engine->put_all(pairs, count);
        took += now() - began;
    }
    printf("%s: fill\t%.0f\n", engine->name, (double)keys / took);
}

static double took[ENGINES][ROUNDS_MOST];

/* Each engine puts the same pairs, in turn. */
static void one_round(int round, size_t count) {
    draw_pairs(count);
    for (int it = 0; it < ENGINES; it++) {
        double began = now();
        engines[it]->put_all(pairs, count);
        took[it][round] = now() - began;
    }
}

static void tell(const char *name, size_t count, double *times, int rounds) {
    qsort(times, (size_t)rounds, sizeof *times, by_length);
    printf("%s: %zu, least\t%.4g\n", name, count, times[0] * 1e3);
    printf("%s: %zu, median\t%.4g\n", name, count, times[rounds / 2] * 1e3);
    fflush(stdout);
}

static void in_turn(size_t count, int rounds) {
    for (int round = 0; round < rounds; round++)
        one_round(round, count);
    for (int it = 0; it < ENGINES; it++)
        tell(engines[it]->name, count, took[it], rounds);
}

/* ---- blocks by several threads ---- */

static const struct crew {
    const char *name;
    size_t threads;
} crews[] = {{"block by 1 thread", 1}, {"block by 2 threads", 2}, {"block by 4 threads", 4}};

enum { CREWS = sizeof crews / sizeof *crews };

/* In turn. Each puts pairs of its own: to put the same pairs again is less work. */
static void by_threads(size_t count, int rounds) {
    static double times[CREWS][ROUNDS_MOST];
    for (int round = 0; round < rounds; round++)
        for (int it = 0; it < CREWS; it++) {
            draw_pairs(count);
            double began = now();
            put_by_threads(pairs, count, crews[it].threads);
            times[it][round] = now() - began;
        }
    for (int it = 0; it < CREWS; it++)
        tell(crews[it].name, count, times[it], rounds);
}

/* ---- snapshots ---- */

static void still(void) {
    double found = 1e9;
    for (int round = 0; round < 1000; round++) {
        double began = now();
        int32_t told = mst_sharded_snapshot(&hands[1]);
        if (told == MST_OK)
            told = mst_sharded_release(&hands[1]);
        double took = now() - began;
        if (told != MST_OK)
            give_up("mst_sharded_snapshot", told);
        found = took < found ? took : found;
    }
    printf("snapshot\t%.2f\n", found * 1e6);
}

static atomic_int is_done;
static size_t taken, waited;

/* Takes one snapshot after another until the writer is done. */
static void *read_on(void *nothing) {
    while (!atomic_load(&is_done)) {
        double began = now(), tried = began;
        int32_t told;
        while ((told = mst_sharded_try_snapshot(&hands[1])) == MST_MOVING)
            tried = now();
        if (tried > began && waited < WAITS_MOST) {
            waits[waited] = tried - began;
            ends[waited++] = now() - began;
        }
        taken++;
        if (told == MST_OK)
            told = mst_sharded_release(&hands[1]);
        if (told != MST_OK)
            give_up("mst_sharded_try_snapshot", told);
    }
    return nothing;
}

static void tell_waits(size_t count, const char *what, double *times) {
    qsort(times, waited, sizeof *times, by_length);
    printf("beside blocks of %zu: %s, median\t%.1f\n", count, what, times[waited / 2] * 1e6);
    printf("beside blocks of %zu: %s, longest\t%.1f\n", count, what, times[waited - 1] * 1e6);
}

static void beside_reader(size_t count, int blocks) {
    pthread_t reader;
    taken = waited = 0;
    atomic_store(&is_done, 0);
    if (pthread_create(&reader, NULL, read_on, NULL) != 0)
        give_up("pthread_create", 0);
    for (int made = 0; made < blocks; made++) {
        draw_pairs(count);
        put_all(pairs, count);
    }
    atomic_store(&is_done, 1);
    pthread_join(reader, NULL);
    printf("beside blocks of %zu: tries\t%.2f\n", count, 1e3 * (double)waited / (double)taken);
    if (waited > 0) {
        tell_waits(count, "waited", waits);
        tell_waits(count, "taken", ends);
    }
}

int main(int count, char **words) {
    size_t rounds = 100, *given[] = {&keys, &shards, &rounds};
    for (int word = 1; word < count && word <= 3; word++)
        *given[word - 1] = strtoul(words[word], NULL, 10);
    if (keys == 0 || shards == 0 || shards > SHARDS_MOST || rounds < 1 || rounds > ROUNDS_MOST / 10)
        give_up("blocks [KEYS [SHARDS [ROUNDS]]]", 0);
    for (int it = 0; it < ENGINES; it++)
        fill(engines[it]);
    in_turn(1, 10 * (int)rounds);
    in_turn(100, 2 * (int)rounds);
    in_turn(1000, (int)rounds);
    in_turn(BLOCK_MOST, (int)rounds / 3 + 1);
    by_threads(BLOCK_MOST, (int)rounds / 3 + 1);
    still();
    beside_reader(1, 100 * (int)rounds);
    beside_reader(1000, (int)rounds);
    for (int it = 0; it < ENGINES; it++)
        engines[it]->close();
    return 0;
}
