/* One writer and three readers, each with a pass of its own on a thread of its own. */
#include "mst_store.h"
#include <pthread.h>
#include <stdio.h>

enum { READERS = 3, CALLS = 1000 };

/* Counts up at one key. Returns the pass if a put was refused, otherwise null. */
static void *write_all(void *pass) {
    for (int number = 0; number < CALLS; number++) {
        uint8_t value[2] = {(uint8_t)(number >> 8), (uint8_t)number};
        if (mst_put(pass, (const uint8_t *)"count", 5, value, 2, NULL, 0) < MST_ABSENT)
            return pass;
    }
    return NULL;
}

/* Reads on. Returns the pass if a version is older than the one before, otherwise null. */
static void *read_all(void *pass) {
    uint64_t last = 0, version = 0;
    for (int call = 0; call < CALLS; call++) {
        if (mst_version(pass, &version) != MST_OK || version < last)
            return pass;
        last = version;
    }
    return NULL;
}

int main(void) {
    mst_pass passes[1 + READERS] = {MST_PASS_CLOSED};
    pthread_t threads[1 + READERS];
    int all_well = 1;

    if (mst_open(1, 100, passes, 1 + READERS) != MST_OK)
        return 1;
    for (int at = 0; at <= READERS; at++)
        if (pthread_create(&threads[at], NULL, at == 0 ? write_all : read_all, &passes[at]) != 0)
            return 1;
    for (int at = 0; at <= READERS; at++) {
        void *failed;
        pthread_join(threads[at], &failed);
        all_well = all_well && failed == NULL;
        mst_close(&passes[at]);
    }
    printf("1 writer, %d readers: %s\n", READERS,
           all_well ? "no refusal, no older version" : "a call went wrong");
    return !all_well;
}
