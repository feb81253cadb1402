/*
 * The nanoseconds of one call, alone and while another thread calls.
 *
 *     speed ENGINE KEYS CALL [COUNT [ROUNDS]]
 *
 * ENGINE is store, lmdb, sqlite or map; CALL one of the names below. Fills the map, then makes
 * COUNT calls at random keys in each of ROUNDS rounds, and writes the nanoseconds a call of the
 * fastest round: those of the processor that the calling thread had, so that what else runs there
 * counts little. Of a batch they are those of one of its puts. A load is a batch that fills a new
 * map, one in each round. Writes `none` if the engine has no such call, or no room for such a load.
 * With another MAP, the keys are other ones.
 */
#include "../common.h"
#include "engine.h"
#include <pthread.h>
#include <sched.h>
#include <stdatomic.h>
#include <stdio.h>
#include <stdlib.h>
#include <string.h>
#include <time.h>

/* If valgrind's header is there, callgrind counts the rounds alone (--instr-atstart=no). */
#if defined(__has_include)
#if __has_include(<valgrind/callgrind.h>)
#include <valgrind/callgrind.h>
#endif
#endif
#ifndef CALLGRIND_START_INSTRUMENTATION
#define CALLGRIND_START_INSTRUMENTATION
#define CALLGRIND_STOP_INSTRUMENTATION
#endif

#ifndef MAP
#define MAP 0
#endif

enum thing { GET, GET_WITHIN, NEXT, RANGE, PUT, PROVE, BATCH, LOAD };

struct call {
    const char *name;
    enum thing thing;
    int beside; /* what another thread does meanwhile: nothing, puts or gets */
    int puts;   /* those of a batch */
};

enum { ALONE, BESIDE_PUTS, BESIDE_GETS };

static const struct call calls[] = {
    {"get", GET, ALONE, 0},
    {"get-within", GET_WITHIN, ALONE, 0},
    {"next", NEXT, ALONE, 0},
    {"range", RANGE, ALONE, 0},
    {"put", PUT, ALONE, 0},
    {"batch-10", BATCH, ALONE, 10},
    {"batch-100", BATCH, ALONE, 100},
    {"batch-1000", BATCH, ALONE, 1000},
    {"load", LOAD, ALONE, 0},
    {"prove", PROVE, ALONE, 0},
    {"get-beside-puts", GET, BESIDE_PUTS, 0},
    {"put-beside-gets", PUT, BESIDE_GETS, 0},
};

static const struct engine *engine;
static size_t keys;
static atomic_int going, begun; /* what another thread is told, and tells */

struct chance {
    uint64_t state;
};

void give_up(const char *what, int code) {
    fprintf(stderr, "%s: %d\n", what, code);
    exit(1);
}

static uint64_t drawn(struct chance *chance) {
    return mixed(chance->state++);
}

static void key_bytes(uint8_t *key, uint64_t number) {
    uint64_t first = mixed(number + ((uint64_t)MAP << 32));
    uint64_t parts[4] = {first, number, ~first, ~number};
    memcpy(key, parts, KEY_LENGTH);
}

static void value_bytes(uint8_t *value, uint64_t number) {
    memset(value, 0, VALUE_LENGTH);
    memcpy(value, &number, sizeof number);
}

static void make_batch(int puts, struct chance *chance) {
    uint8_t key[KEY_LENGTH], value[VALUE_LENGTH];
    engine->start();
    for (int i = 0; i < puts; i++) {
        uint64_t number = drawn(chance);
        key_bytes(key, number % keys);
        value_bytes(value, number);
        engine->add(key, value);
    }
    engine->commit();
}

static void load(void) {
    uint8_t key[KEY_LENGTH], value[VALUE_LENGTH];
    engine->start();
    for (uint64_t i = 0; i < keys; i++) {
        key_bytes(key, i);
        value_bytes(value, i);
        engine->add(key, value);
    }
    engine->commit();
}

static void make(enum thing thing, int seat, struct chance *chance) {
    uint8_t key[KEY_LENGTH], value[VALUE_LENGTH];
    uint64_t number = drawn(chance);
    key_bytes(key, number % keys);
    switch (thing) {
    case GET: engine->get(seat, key); break;
    case GET_WITHIN: engine->get_within(seat, key); break;
    case NEXT: engine->next(seat, key); break;
    case RANGE: engine->range(seat, key); break;
    case PROVE: engine->prove(seat, key); break;
    case PUT:
        value_bytes(value, number);
        engine->put(seat, key, value);
        break;
    default: give_up("make", thing);
    }
}

static void make_call(const struct call *call, struct chance *chance) {
    if (call->thing == LOAD)
        load();
    else if (call->thing == BATCH)
        make_batch(call->puts, chance);
    else
        make(call->thing, 0, chance);
}

/* A round: the seconds that its calls took. */
static double round_of_calls(const struct call *call, long count, struct chance *chance) {
    if (call->thing == LOAD) {
        engine->close();
        engine->open();
    }
    CALLGRIND_START_INSTRUMENTATION;
    double before = seconds_of(CLOCK_THREAD_CPUTIME_ID);
    for (long i = 0; i < count; i++)
        make_call(call, chance);
    double took = seconds_of(CLOCK_THREAD_CPUTIME_ID) - before;
    CALLGRIND_STOP_INSTRUMENTATION;
    return took;
}

/* How many calls a call counts for: a batch for its puts. */
static double weight(const struct call *call) {
    return call->thing == LOAD ? (double)keys : call->thing == BATCH ? (double)call->puts : 1;
}

static void *other(void *given) {
    struct chance chance = {1u << 20};
    enum thing thing = *(const int *)given == BESIDE_PUTS ? PUT : GET;
    while (atomic_load(&going)) {
        make(thing, 1, &chance);
        atomic_store(&begun, 1);
    }
    return NULL;
}

static double fastest_round(const struct call *call, long count, long rounds) {
    double least = 0;
    struct chance chance = {1u << 30};
    if (call->thing == GET_WITHIN)
        engine->begin(0);
    for (long i = 0; i < rounds; i++) {
        double took = round_of_calls(call, count, &chance);
        if (i == 0 || took < least)
            least = took;
    }
    if (call->thing == GET_WITHIN)
        engine->end(0);
    return least * 1e9 / ((double)count * weight(call));
}

/* The same, beside another thread if the call has one, from that thread's first call on. */
static double fastest_beside(const struct call *call, long count, long rounds) {
    pthread_t thread;
    if (call->beside == ALONE)
        return fastest_round(call, count, rounds);
    atomic_store(&going, 1);
    if (pthread_create(&thread, NULL, other, (void *)&call->beside) != 0)
        give_up("pthread_create", 0);
    while (!atomic_load(&begun))
        sched_yield();
    double took = fastest_round(call, count, rounds);
    atomic_store(&going, 0);
    pthread_join(thread, NULL);
    return took;
}

static void fill(void) {
    uint8_t key[KEY_LENGTH], value[VALUE_LENGTH];
    for (uint64_t i = 0; i < keys; i++) {
        key_bytes(key, i);
        value_bytes(value, i);
        engine->put(0, key, value);
    }
}

static const struct call *call_named(const char *name) {
    for (size_t i = 0; i < sizeof calls / sizeof calls[0]; i++)
        if (strcmp(calls[i].name, name) == 0)
            return &calls[i];
    give_up("no such call", 0);
    return NULL;
}

static const struct engine *engine_named(const char *name) {
    if (strcmp(name, "store") == 0)
        return &store_engine;
#ifdef WITH_LMDB
    if (strcmp(name, "lmdb") == 0)
        return &lmdb_engine;
#endif
#ifdef WITH_SQLITE
    if (strcmp(name, "sqlite") == 0)
        return &sqlite_engine;
#endif
#ifdef WITH_MAP
    if (strcmp(name, "map") == 0)
        return &map_engine;
#endif
    give_up("no such engine", 0);
    return NULL;
}

/* Whether the engine has the call, and one batch has room for the keys of a load. */
static int is_there(const struct call *call) {
    if (call->thing == PROVE)
        return engine->prove != NULL;
    return call->thing != LOAD || keys <= BATCH_MOST;
}

int main(int argc, char **argv) {
    if (argc < 4)
        give_up("speed ENGINE KEYS CALL [COUNT [ROUNDS]]", 0);
    engine = engine_named(argv[1]);
    keys = (size_t)atol(argv[2]);
    const struct call *call = call_named(argv[3]);
    long count = call->thing == LOAD ? 1 : argc > 4 ? atol(argv[4]) : 1000;
    long rounds = argc > 5 ? atol(argv[5]) : 1;
    if (keys < 1 || count < 1 || rounds < 1)
        give_up("KEYS, COUNT, ROUNDS", 0);
    if (!is_there(call)) {
        printf("none\n");
        return 0;
    }
    engine->open();
    if (call->thing != LOAD)
        fill();
    double took = fastest_beside(call, count, rounds);
    engine->close();
    printf("%.1f\n", took);
    return 0;
}
