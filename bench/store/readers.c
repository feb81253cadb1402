/*
 * How many gets a second several readers make in one store of 1,000 keys, each through its pass.
 *
 *     readers HOW READERS [MILLISECONDS]
 *
 * HOW is what a get reads: `held`, the version that its pass has pinned all the time; `newest`,
 * which each get pins and unpins; or `beside`, the newest while one more thread puts, through a
 * pass of its own. The hands stand side by side in the array that mst_open fills.
 * Writes the gets a second of all readers, and the nanoseconds of processor time of one get: more
 * of these with more readers tells that they hinder each other.
 */
#include "../common.h"
#include "mst_store.h"
#include <pthread.h>
#include <stdatomic.h>
#include <stdio.h>
#include <stdlib.h>
#include <string.h>
#include <time.h>

#define KEYS 1000
#define MOST MST_PASSES_MOST

static mst_pass passes[MOST];
static uint8_t keys[KEYS][16];
static atomic_int going;

struct reader {
    int seat;
    long gets;
    double busy;
};

static void give_up(const char *what, int code) {
    fprintf(stderr, "%s: %d\n", what, code);
    exit(1);
}

static void fill(void) {
    uint8_t value[32] = {0}, old[MST_VALUE_LONGEST];
    for (uint64_t place = 0; place < KEYS; place++) {
        uint64_t words[2] = {mixed(place), place};
        memcpy(keys[place], words, sizeof words);
        memcpy(value, &place, sizeof place);
        int32_t told = mst_put(&passes[0], keys[place], 16, value, 32, old, sizeof old);
        if (told != MST_ABSENT)
            give_up("put", told);
    }
}

static void *reads(void *given) {
    struct reader *reader = given;
    uint8_t value[MST_VALUE_LONGEST];
    uint64_t state = (uint64_t)(reader->seat + 1) << 32;
    long gets = 0;
    double before = seconds_of(CLOCK_THREAD_CPUTIME_ID);
    for (; atomic_load_explicit(&going, memory_order_relaxed); gets++) {
        const uint8_t *key = keys[mixed(state + (uint64_t)gets) % KEYS];
        int32_t told = mst_get(&passes[reader->seat], key, 16, value, sizeof value);
        if (told != 32)
            give_up("get", told);
    }
    reader->busy = seconds_of(CLOCK_THREAD_CPUTIME_ID) - before;
    reader->gets = gets;
    return NULL;
}

/* Puts new values at all keys, over and over. */
static void *writes(void *given) {
    mst_pass *pass = given;
    uint8_t value[32] = {0}, old[MST_VALUE_LONGEST];
    for (uint64_t put = KEYS; atomic_load_explicit(&going, memory_order_relaxed); put++) {
        memcpy(value, &put, sizeof put);
        int32_t told = mst_put(pass, keys[put % KEYS], 16, value, 32, old, sizeof old);
        if (told != 32)
            give_up("put", told);
    }
    return NULL;
}

/* Lets the readers get for this long, and a writer put through its pass if there is one. Returns
 * the seconds that it took. */
static double run(struct reader *readers, int count, mst_pass *writer, long milliseconds) {
    pthread_t threads[MOST], other;
    struct timespec length = {milliseconds / 1000, milliseconds % 1000 * 1000000};
    double before = seconds_of(CLOCK_MONOTONIC);
    atomic_store(&going, 1);
    for (int i = 0; i < count; i++) {
        readers[i].seat = i;
        if (pthread_create(&threads[i], NULL, reads, &readers[i]) != 0)
            give_up("pthread_create", i);
    }
    if (writer && pthread_create(&other, NULL, writes, writer) != 0)
        give_up("pthread_create", count);
    nanosleep(&length, NULL);
    atomic_store(&going, 0);
    if (writer)
        pthread_join(other, NULL);
    for (int i = 0; i < count; i++)
        pthread_join(threads[i], NULL);
    return seconds_of(CLOCK_MONOTONIC) - before;
}

static void pin_each(int count) {
    for (int i = 0; i < count; i++) {
        int32_t told = mst_pin(&passes[i]);
        if (told != MST_OK)
            give_up("pin", told);
    }
}

int main(int argc, char **argv) {
    struct reader readers[MOST];
    int count = argc > 2 ? atoi(argv[2]) : 0;
    long milliseconds = argc > 3 ? atol(argv[3]) : 1000, gets = 0;
    double busy = 0;
    if (count < 1 || count >= MOST || milliseconds < 1)
        give_up("readers HOW READERS [MILLISECONDS]", 0);
    int is_held = strcmp(argv[1], "held") == 0, is_beside = strcmp(argv[1], "beside") == 0;
    if (!is_held && !is_beside && strcmp(argv[1], "newest") != 0)
        give_up("HOW", 0);
    int32_t told = mst_open(1, MST_ROWS_MOST, passes, (size_t)(count + is_beside));
    if (told != MST_OK)
        give_up("mst_open", told);
    fill();
    if (is_held)
        pin_each(count);
    double took = run(readers, count, is_beside ? &passes[count] : NULL, milliseconds);
    for (int i = 0; i < count; i++) {
        gets += readers[i].gets;
        busy += readers[i].busy;
        mst_close(&passes[i]);
    }
    if (is_beside)
        mst_close(&passes[count]);
    printf("%.0f %.1f\n", (double)gets / took, 1e9 * busy / (double)gets);
    return 0;
}
