/*
 * speed ENGINE KEYS SHARDS CALLS [gets]: fills a map and times calls of it, or gets alone, in
 * several rounds. It writes a line for each figure: its name, the number of threads, and the
 * figure. Rates are calls a second of all threads together, times microseconds a call, memory bytes
 * a key.
 */
#include "../common.h"
#include "engine.h"
#include <pthread.h>
#include <stdio.h>
#include <stdlib.h>
#include <string.h>
#include <time.h>
#include <unistd.h>

enum { VERSIONS = 1000, GET_ROUNDS = 9, FILL = 1000 };

static const struct engine *engine;
static size_t keys, calls;

_Noreturn void give_up(const char *what, int code) {
    fprintf(stderr, "%s: %s returned %d\n", engine ? engine->name : "speed", what, code);
    exit(1);
}

static double now(void) {
    return seconds_of(CLOCK_MONOTONIC);
}

static void write_bytes(uint8_t *at, uint64_t number) {
    for (int byte = 0; byte < 8; byte++)
        at[byte] = (uint8_t)(number >> (56 - 8 * byte));
}

/* The key with this number: its first eight bytes are spread evenly. */
static void key_of(uint8_t *key, uint64_t number) {
    write_bytes(key, mixed(number));
    write_bytes(key + 8, number);
}

/* The pair of this number, with its value in a round. */
static void write_pair(uint8_t *pair, uint64_t number, uint64_t round) {
    key_of(pair, number);
    memset(pair + KEY_LENGTH, 0, VALUE_LENGTH);
    write_bytes(pair + KEY_LENGTH, number);
    write_bytes(pair + KEY_LENGTH + 8, round);
}

static void put(int seat, uint64_t number, uint64_t round) {
    uint8_t pair[PAIR_LENGTH];
    write_pair(pair, number, round);
    engine->put(seat, pair, pair + KEY_LENGTH);
}

/* The number of one of the keys, random and the same in each run. */
static uint64_t picked(int seat, size_t call) {
    return mixed(mixed((uint64_t)seat << 48 | call) + 1) % keys;
}

struct job {
    int seat, threads;
    void (*work)(const struct job *job);
};

/* Puts all keys, so many at once. */
static void fill(const struct job *job) {
    static uint8_t pairs[FILL * PAIR_LENGTH];
    (void)job;
    for (size_t first = 0; first < keys; first += FILL) {
        size_t count = keys - first < FILL ? keys - first : FILL;
        for (size_t pair = 0; pair < count; pair++)
            write_pair(pairs + pair * PAIR_LENGTH, first + pair, 0);
        engine->put_all(pairs, count);
    }
}

static void puts_again(const struct job *job) {
    for (size_t call = 0; call < calls; call++)
        put(job->seat, picked(job->seat, call), call + (size_t)job->threads * calls);
}

static void gets(const struct job *job) {
    uint8_t key[KEY_LENGTH];
    for (size_t call = 0; call < calls; call++) {
        key_of(key, picked(job->seat, call));
        engine->get(job->seat, key);
    }
}

static void *run_job(void *given) {
    const struct job *job = given;
    job->work(job);
    return NULL;
}

/* The seconds that this many threads take, one for each seat. */
static double seconds(int threads, void (*work)(const struct job *job)) {
    pthread_t started[SEATS];
    struct job jobs[SEATS];
    double from = now();
    for (int seat = 0; seat < threads; seat++) {
        jobs[seat] = (struct job){seat, threads, work};
        if (pthread_create(&started[seat], NULL, run_job, &jobs[seat]) != 0)
            give_up("pthread_create", seat);
    }
    for (int seat = 0; seat < threads; seat++)
        pthread_join(started[seat], NULL);
    return now() - from;
}

static void tell(const char *name, int threads, double figure) {
    printf("%s\t%d\t%.2f\n", name, threads, figure);
    fflush(stdout);
}

/* The bytes that the process has in memory, those that it shares with files in /dev/shm too. */
static double resident(void) {
    long pages = 0, all = 0;
    FILE *file = fopen("/proc/self/statm", "r");
    if (!file || fscanf(file, "%ld %ld", &all, &pages) != 2)
        give_up("/proc/self/statm", 0);
    fclose(file);
    return (double)pages * (double)sysconf(_SC_PAGESIZE);
}

/* Microseconds of a version of the whole with what is done in it, after a put or without one. */
static double of_versions(int with_put, void (*within)(int seat, uint64_t number)) {
    double spent = 0;
    for (uint64_t round = 0; round < VERSIONS; round++) {
        if (with_put)
            put(0, picked(0, round), round + ((uint64_t)1 << 32));
        double from = now();
        engine->begin(0);
        if (within)
            within(0, picked(1, round));
        engine->end(0);
        spent += now() - from;
    }
    return spent / VERSIONS * 1e6;
}

static void root_within(int seat, uint64_t number) {
    (void)number;
    engine->root(seat);
}

static void prove_within(int seat, uint64_t number) {
    uint8_t key[KEY_LENGTH];
    key_of(key, number);
    engine->prove(seat, key);
}

static void time_versions(void) {
    tell("version", 1, of_versions(0, NULL));
    if (!engine->root)
        return;
    tell("root", 1, of_versions(0, root_within));
    tell("root-after-put", 1, of_versions(1, root_within));
    tell("prove", 1, of_versions(0, prove_within));
}

static void time_gets(void) {
    for (int threads = 1; threads <= SEATS; threads++)
        tell("get", threads, (double)calls * threads / seconds(threads, gets));
}

int main(int count, char **words) {
    int gets_alone = count == 6 && strcmp(words[5], "gets") == 0;
    if (count != 5 && !gets_alone)
        give_up("speed ENGINE KEYS SHARDS CALLS [gets]", count);
    engine = &sharded_engine;
#ifdef WITH_LMDB
    if (strcmp(words[1], "lmdb") == 0)
        engine = &lmdb_engine;
#endif
    if (strcmp(words[1], engine->name) != 0)
        give_up(words[1], 0);
    keys = strtoul(words[2], NULL, 10);
    calls = strtoul(words[4], NULL, 10);
    double before = resident();
    engine->open(keys, strtoul(words[3], NULL, 10));
    tell("fill", 1, (double)keys / seconds(1, fill));
    tell("memory", 1, (resident() - before) / (double)keys);
    for (int threads = 1; threads <= SEATS && !gets_alone; threads *= 2)
        tell("put", threads, (double)calls * threads / seconds(threads, puts_again));
    for (int round = 0; round < (gets_alone ? GET_ROUNDS : 1); round++)
        time_gets();
    if (!gets_alone)
        time_versions();
    engine->close();
    return 0;
}
