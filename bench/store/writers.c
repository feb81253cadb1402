/*
 * How many puts a second several writers make in one store of 1,000 keys, each through its pass.
 *
 *     writers HOW WRITERS [MILLISECONDS]
 *
 * HOW is how a writer waits for the turn: `put` by mst_put, `mutex` by a mutex around mst_try_put,
 * `spin` by mst_try_put alone, again and again. They put for two seconds, or for so many
 * milliseconds. Writes the puts a second of all writers, and which part of the mean of a writer's
 * puts the slowest one has made, in percent.
 */
#include "../common.h"
#include "mst_store.h"
#include <pthread.h>
#include <stdatomic.h>
#include <stdio.h>
#include <stdlib.h>
#include <string.h>
#include <time.h>

#define KEYS 1000
#define MOST MST_PASSES_MOST

enum how { PUT, MUTEX, SPIN };

static enum how how;
static mst_pass passes[MOST];
static atomic_int going;
static pthread_mutex_t mutex = PTHREAD_MUTEX_INITIALIZER;

struct writer {
    int seat;
    long puts;
};

static void give_up(const char *what, int code) {
    fprintf(stderr, "%s: %d\n", what, code);
    exit(1);
}

static int32_t put_once(mst_pass *pass, const uint8_t *key, const uint8_t *value, uint8_t *old) {
    int32_t told;
    switch (how) {
    case PUT: return mst_put(pass, key, 16, value, 32, old, MST_VALUE_LONGEST);
    case MUTEX:
        pthread_mutex_lock(&mutex);
        told = mst_try_put(pass, key, 16, value, 32, old, MST_VALUE_LONGEST);
        pthread_mutex_unlock(&mutex);
        return told;
    default:
        while ((told = mst_try_put(pass, key, 16, value, 32, old, MST_VALUE_LONGEST)) == MST_BUSY)
            continue;
        return told;
    }
}

static void put(int seat, uint64_t place, uint64_t number) {
    uint8_t key[16], value[32] = {0}, old[MST_VALUE_LONGEST];
    uint64_t words[2] = {mixed(place % KEYS), place % KEYS};
    memcpy(key, words, sizeof key);
    memcpy(value, &number, sizeof number);
    int32_t told = put_once(&passes[seat], key, value, old);
    if (told != 32 && told != MST_ABSENT)
        give_up("put", told);
}

static void *writes(void *given) {
    struct writer *writer = given;
    uint64_t state = (uint64_t)(writer->seat + 1) << 32;
    long puts = 0;
    for (; atomic_load_explicit(&going, memory_order_relaxed); puts++)
        put(writer->seat, mixed(state + (uint64_t)puts), (uint64_t)puts);
    writer->puts = puts;
    return NULL;
}

/* Lets the writers put for this long. Returns the seconds that it took. */
static double run(struct writer *writers, int count, long milliseconds) {
    pthread_t threads[MOST];
    struct timespec length = {milliseconds / 1000, milliseconds % 1000 * 1000000};
    double before = seconds_of(CLOCK_MONOTONIC);
    atomic_store(&going, 1);
    for (int i = 0; i < count; i++) {
        writers[i].seat = i;
        if (pthread_create(&threads[i], NULL, writes, &writers[i]) != 0)
            give_up("pthread_create", i);
    }
    nanosleep(&length, NULL);
    atomic_store(&going, 0);
    for (int i = 0; i < count; i++)
        pthread_join(threads[i], NULL);
    return seconds_of(CLOCK_MONOTONIC) - before;
}

static enum how how_named(const char *name) {
    if (strcmp(name, "put") == 0)
        return PUT;
    if (strcmp(name, "mutex") == 0)
        return MUTEX;
    if (strcmp(name, "spin") != 0)
        give_up("HOW", 0);
    return SPIN;
}

int main(int argc, char **argv) {
    struct writer writers[MOST];
    int count = argc > 2 ? atoi(argv[2]) : 0;
    long milliseconds = argc > 3 ? atol(argv[3]) : 2000, all = 0;
    if (count < 1 || count > MOST || milliseconds < 1)
        give_up("writers HOW WRITERS [MILLISECONDS]", 0);
    how = how_named(argv[1]);
    int32_t told = mst_open(1, MST_ROWS_MOST, passes, (size_t)count);
    if (told != MST_OK)
        give_up("mst_open", told);
    for (uint64_t place = 0; place < KEYS; place++)
        put(0, place, place);
    double took = run(writers, count, milliseconds);
    long least = writers[0].puts;
    for (int i = 0; i < count; i++) {
        all += writers[i].puts;
        least = writers[i].puts < least ? writers[i].puts : least;
        mst_close(&passes[i]);
    }
    printf("%.0f %.0f\n", (double)all / took,
           all ? 100.0 * count * (double)least / (double)all : 0);
    return 0;
}
