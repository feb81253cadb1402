/*
 * How long single calls take by the clock: not their mean, but the median, the 99th percentile and
 * the worst.
 *
 *     latency KEYS CALL COUNT READERS WRITERS
 *
 * Fills a store of 65,535 rows with KEYS random keys of 16 bytes and values of 32, one put each.
 * Then one thread makes COUNT calls at random keys, and looks at the clock before and after each.
 * CALL is a name below; `nothing` says what the clock itself takes. Meanwhile READERS threads get
 * values of the newest version, and WRITERS put new ones by mst_put, each through a pass of its
 * own. Writes the three in nanoseconds, and then how many calls were refused for want of rows, as
 * happens where a reader loses its processor within a read and keeps an older version: the three
 * leave them out. Writes `none` if calls are refused though nobody else reads.
 */
#include "../common.h"
#include "../samples.h"
#include "mst_store.h"
#include <pthread.h>
#include <stdatomic.h>
#include <stdio.h>
#include <stdlib.h>
#include <string.h>

enum { KEY = 16, VALUE = 32, RANGE = 100, BATCH_MOST = 1000, PROOF_MOST = 1 << 16 };

static mst_pass passes[MST_PASSES_MOST];
static size_t keys;
static atomic_int going, begun;
static uint8_t room[RANGE * MST_PAIR_LONGEST], proof[PROOF_MOST];
static uint8_t edits[BATCH_MOST * MST_EDIT_LONGEST];
static size_t edits_length;

static void give_up(const char *what, int code) {
    fprintf(stderr, "%s: %d\n", what, code);
    exit(1);
}

static void key_of(uint8_t *key, uint64_t number) {
    uint64_t words[2] = {mixed(number % keys), number % keys};
    memcpy(key, words, KEY);
}

static void value_of(uint8_t *value, uint64_t number) {
    memset(value, 0, VALUE);
    memcpy(value, &number, sizeof number);
}

static int32_t put_at(mst_pass *pass, uint64_t place, uint64_t number, uint8_t *old) {
    uint8_t key[KEY], value[VALUE];
    key_of(key, place);
    value_of(value, number);
    return mst_put(pass, key, KEY, value, VALUE, old, MST_VALUE_LONGEST);
}

static int32_t nothing(mst_pass *pass, uint64_t number) {
    (void)pass;
    (void)number;
    return MST_OK;
}

static int32_t get(mst_pass *pass, uint64_t number) {
    uint8_t key[KEY];
    key_of(key, number);
    return mst_get(pass, key, KEY, room, MST_VALUE_LONGEST);
}

static int32_t next(mst_pass *pass, uint64_t number) {
    uint8_t key[KEY], found[MST_KEY_LONGEST];
    size_t length;
    key_of(key, number);
    int32_t told = mst_next(pass, key, KEY, found, sizeof found, &length, room, sizeof room);
    return told == MST_ABSENT ? MST_OK : told;
}

static int32_t range(mst_pass *pass, uint64_t number) {
    uint8_t key[KEY];
    size_t count, length;
    key_of(key, number);
    return mst_range(pass, key, KEY, NULL, 0, RANGE, room, sizeof room, &count, &length);
}

static int32_t root(mst_pass *pass, uint64_t number) {
    (void)number;
    return mst_root(pass, room, sizeof room);
}

static int32_t prove(mst_pass *pass, uint64_t number) {
    uint8_t key[KEY];
    size_t length;
    key_of(key, number);
    return mst_prove(pass, key, KEY, proof, sizeof proof, &length);
}

static int32_t pin_and_unpin(mst_pass *pass, uint64_t number) {
    (void)number;
    int32_t told = mst_pin(pass);
    return told == MST_OK ? mst_unpin(pass) : told;
}

static int32_t put(mst_pass *pass, uint64_t number) {
    return put_at(pass, number, number, room);
}

static int32_t remove_one(mst_pass *pass, uint64_t number) {
    uint8_t key[KEY];
    key_of(key, number);
    return mst_remove(pass, key, KEY, room, MST_VALUE_LONGEST);
}

static int32_t apply(mst_pass *pass, uint64_t number) {
    size_t place;
    (void)number;
    return mst_apply(pass, edits, edits_length, &place);
}

static int32_t free_rows(mst_pass *pass, uint64_t number) {
    uint32_t rows;
    (void)number;
    return mst_free_rows(pass, &rows);
}

static int32_t migrate(mst_pass *pass, uint64_t number) {
    (void)number;
    return mst_migrate(pass, 2);
}

static int32_t migrate_back(mst_pass *pass, uint64_t number) {
    (void)number;
    return mst_migrate(pass, 1);
}

static void make_edits(uint64_t number, int count) {
    uint8_t key[KEY], value[VALUE];
    edits_length = 0;
    for (int i = 0; i < count; i++) {
        uint64_t drawn = mixed(number + (uint64_t)i * 1000003);
        key_of(key, drawn);
        value_of(value, drawn);
        edits_length = mst_edit_put(edits, edits_length, key, KEY, value, VALUE);
    }
}

struct call {
    const char *name;
    int32_t (*make)(mst_pass *pass, uint64_t number);
    int edits; /* of a batch, made before the clock is looked at */
};

static const struct call calls[] = {
    {"nothing", nothing, 0},    {"get", get, 0},           {"next", next, 0},
    {"range", range, 0},        {"root", root, 0},         {"prove", prove, 0},
    {"pin", pin_and_unpin, 0},  {"put", put, 0},           {"remove", remove_one, 0},
    {"batch-10", apply, 10},    {"batch-100", apply, 100}, {"batch-1000", apply, 1000},
    {"free-rows", free_rows, 0}, {"migrate", migrate, 0},  {"migrate-back", migrate_back, 0},
};

/* Makes what a call wants to find. Returns what the store says of it. */
static int32_t prepare(const struct call *call, mst_pass *pass, uint64_t number) {
    if (call->edits > 0)
        make_edits(number, call->edits);
    return call->make == migrate_back ? mst_migrate(pass, 2) : MST_OK;
}

/* Undoes what a call did that would not be the same again. */
static void restore(const struct call *call, mst_pass *pass, uint64_t number) {
    if (call->make == remove_one && put_at(pass, number, number, room) != MST_ABSENT)
        give_up("mst_put", 0);
    if (call->make == migrate && mst_migrate(pass, 1) != 2)
        give_up("mst_migrate", 0);
}

/* Makes the calls. Returns how many were refused for want of rows. */
static long time_calls(const struct call *call, long count, struct samples *samples) {
    long refused = 0;
    for (long i = 0; i < count; i++) {
        uint64_t number = mixed((uint64_t)i + (1u << 30));
        int32_t told = prepare(call, &passes[0], number);
        double from = seconds_of(CLOCK_MONOTONIC);
        if (told != MST_NO_FREE_ROWS)
            told = call->make(&passes[0], number);
        double took = seconds_of(CLOCK_MONOTONIC) - from;
        if (told == MST_NO_FREE_ROWS) {
            refused++;
            continue;
        }
        if (told < MST_OK)
            give_up(call->name, told);
        add_sample(samples, took);
        restore(call, &passes[0], number);
    }
    return refused;
}

/* What another thread does, through its pass, until the calls are made. */
static void *reads(void *pass) {
    uint8_t key[KEY], value[MST_VALUE_LONGEST];
    uint64_t state = (uint64_t)(uintptr_t)pass;
    for (uint64_t number = 0; atomic_load_explicit(&going, memory_order_relaxed); number++) {
        key_of(key, mixed(state + number));
        if (mst_get(pass, key, KEY, value, sizeof value) < MST_ABSENT)
            give_up("mst_get", 0);
        if (number == 0)
            atomic_fetch_add(&begun, 1);
    }
    return NULL;
}

static void *writes(void *pass) {
    uint8_t old[MST_VALUE_LONGEST];
    uint64_t state = (uint64_t)(uintptr_t)pass;
    for (uint64_t number = 0; atomic_load_explicit(&going, memory_order_relaxed); number++) {
        int32_t told = put_at(pass, mixed(state + number), number, old);
        if (told < MST_ABSENT && told != MST_NO_FREE_ROWS)
            give_up("mst_put", told);
        if (number == 0)
            atomic_fetch_add(&begun, 1);
    }
    return NULL;
}

static void fill(void) {
    for (uint64_t number = 0; number < keys; number++)
        if (put_at(&passes[0], number, number, room) != MST_ABSENT)
            give_up("mst_put", (int)number);
}

/* Makes the calls while the other threads run. Returns how many were refused. */
static long run(const struct call *call, long count, int readers, int writers,
                struct samples *samples) {
    pthread_t threads[MST_PASSES_MOST];
    int others = readers + writers;
    atomic_store(&going, 1);
    for (int i = 0; i < others; i++)
        if (pthread_create(&threads[i], NULL, i < readers ? reads : writes, &passes[1 + i]) != 0)
            give_up("pthread_create", i);
    while (atomic_load(&begun) < others)
        continue;
    long refused = time_calls(call, count, samples);
    atomic_store(&going, 0);
    for (int i = 0; i < others; i++)
        pthread_join(threads[i], NULL);
    return refused;
}

static const struct call *call_named(const char *name) {
    for (size_t i = 0; i < sizeof calls / sizeof calls[0]; i++)
        if (strcmp(calls[i].name, name) == 0)
            return &calls[i];
    give_up("no such call", 0);
    return NULL;
}

int main(int argc, char **argv) {
    if (argc != 6)
        give_up("latency KEYS CALL COUNT READERS WRITERS", argc);
    const struct call *call = call_named(argv[2]);
    long count = atol(argv[3]);
    int readers = atoi(argv[4]), writers = atoi(argv[5]);
    keys = (size_t)atol(argv[1]);
    if (keys < 1 || count < 1 || readers < 0 || writers < 0
        || readers + writers >= MST_PASSES_MOST)
        give_up("KEYS, COUNT, READERS, WRITERS", 0);
    int32_t told = mst_open(1, MST_ROWS_MOST, passes, (size_t)(1 + readers + writers));
    if (told != MST_OK)
        give_up("mst_open", told);
    fill();
    struct samples samples = new_samples((size_t)count);
    long refused = run(call, count, readers, writers, &samples);
    if (refused > 0 && readers + writers == 0) {
        printf("none\n");
    } else {
        print_samples(&samples);
        printf("%ld\n", refused);
    }
    for (int i = 0; i <= readers + writers; i++)
        mst_close(&passes[i]);
    return 0;
}
