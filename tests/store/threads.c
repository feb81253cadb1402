/*
 * Threads and an audit: some write and migrate, one pins, reads and proves. Each proof is judged by
 * the verifier's library in the format of its version, which shares nothing with the store but the
 * bytes, and once more with its last byte changed.
 *
 *     threads [ROUNDS [WRITERS]]        2000 rounds, 2 writers, at most 8
 */
#include "mst_verifier.h"
#define MST_PAUSE() sched_yield()
#include <sched.h>
#include "mst_store.h"
#include <pthread.h>
#include <stdatomic.h>
#include <stdio.h>
#include <stdlib.h>
#include <string.h>

#define AUDITS 256
#define MOST_WRITERS 8
#define KEYS 500
#define MIGRATES_EACH 20 /* how many puts a writer makes before each migration */

struct audit {
    uint8_t root[32], key[4], value[8], proof[8192];
    size_t length;
    uint32_t format;
    int32_t told;
};

static int rounds = 2000;
static int writers = 2;
static atomic_int writing; /* how many writers go on */
static struct audit audits[AUDITS];
static int audited = 0; /* the reader's alone until it has ended */

static void fail(const char *what, int32_t told) {
    fprintf(stderr, "%s: %d\n", what, (int)told);
    exit(1);
}

static void key_bytes(uint8_t *key, uint32_t number) {
    for (int i = 0; i < 4; i++)
        key[i] = (uint8_t)(number >> (24 - 8 * i));
}

/*
 * To the other format, or, if another writer did that between the two calls, to the one that
 * stands.
 */
static void migrate(mst_pass *pass) {
    uint32_t to = mst_format(pass) == 1 ? 2 : 1;
    int32_t told = mst_migrate(pass, to);
    while (told == MST_NO_FREE_ROWS) { /* as below */
        sched_yield();
        told = mst_migrate(pass, to);
    }
    if (told != 1 && told != 2)
        fail("migrate", told);
}

static void *writer(void *pass) {
    uint8_t old[MST_VALUE_LONGEST], key[4];
    for (int i = 0; i < rounds; i++) {
        uint64_t value = (uint64_t)i;
        key_bytes(key, (uint32_t)(i % KEYS));
        int32_t told = mst_put(pass, key, 4, (const uint8_t *)&value, 8, old, sizeof old);
        while (told == MST_NO_FREE_ROWS) { /* a pinned version holds them until its pin ends */
            sched_yield();
            told = mst_put(pass, key, 4, (const uint8_t *)&value, 8, old, sizeof old);
        }
        if (told != MST_ABSENT && told != 8)
            fail("put", told);
        if (i % MIGRATES_EACH == MIGRATES_EACH - 1)
            migrate(pass);
    }
    atomic_fetch_sub(&writing, 1);
    return NULL;
}

static void keep_proof(mst_pass *pass, const uint8_t *root, const uint8_t *key,
                       const uint8_t *value, int32_t told) {
    struct audit *audit = &audits[audited++];
    audit->format = (uint32_t)mst_format(pass);
    memcpy(audit->root, root, 32);
    memcpy(audit->key, key, 4);
    if (told > 0)
        memcpy(audit->value, value, (size_t)told);
    audit->told = told;
    int32_t code = mst_prove(pass, key, 4, audit->proof, sizeof audit->proof, &audit->length);
    if (code != MST_OK)
        fail("prove", code);
}

/* One pin: what is read under it is of one version. Returns how many reads there were. */
static int pinned_reads(mst_pass *pass) {
    uint8_t root[32], again[32], key[4], value[MST_VALUE_LONGEST];
    int reads = 0;
    if (mst_pin(pass) != MST_OK || mst_root(pass, root, 32) != 32)
        fail("pin", 1);
    for (uint32_t number = 0; number < KEYS + 97; number += 97, reads++) {
        key_bytes(key, number);
        int32_t told = mst_get(pass, key, 4, value, sizeof value);
        if (told != MST_ABSENT && told != 8)
            fail("get", told);
        if (audited < AUDITS)
            keep_proof(pass, root, key, value, told);
    }
    if (mst_root(pass, again, 32) != 32 || memcmp(root, again, 32) != 0)
        fail("a pinned root moved", 1);
    if (mst_unpin(pass) != MST_OK)
        fail("unpin", 1);
    return reads;
}

static void *reader(void *pass) {
    long reads = 0;
    uint64_t last = 0, now = 0;
    while (atomic_load(&writing) > 0 || audited < AUDITS) {
        reads += pinned_reads(pass);
        if (mst_version(pass, &now) != MST_OK || now < last)
            fail("an older version after a newer", 1);
        last = now;
    }
    printf("%ld reads, ", reads);
    return NULL;
}

static int audit_of(struct audit *audit) {
    uint8_t value[MST_VALUE_LONGEST];
    int32_t told = mst_verify(audit->format, audit->root, 32, audit->key, 4, audit->proof,
                              audit->length, value, sizeof value);
    if (told != audit->told || (told > 0 && memcmp(value, audit->value, (size_t)told) != 0))
        return 1;
    audit->proof[audit->length - 1] ^= 1;
    told = mst_verify(audit->format, audit->root, 32, audit->key, 4, audit->proof, audit->length,
                      value, sizeof value);
    return told >= MST_SHORT_ROOM;
}

/* Starts the writers and the reader at passes of their own, and waits until all have ended. */
static void run(mst_pass *passes) {
    pthread_t threads[MOST_WRITERS + 1];
    atomic_store(&writing, writers);
    for (int i = 0; i <= writers; i++)
        if (pthread_create(&threads[i], NULL, i < writers ? writer : reader, &passes[i]) != 0)
            fail("pthread_create", 1);
    for (int i = 0; i <= writers; i++)
        pthread_join(threads[i], NULL);
}

int main(int argc, char **argv) {
    if (argc > 1)
        rounds = atoi(argv[1]);
    if (argc > 2)
        writers = atoi(argv[2]);
    if (rounds < 1 || writers < 1 || writers > MOST_WRITERS)
        fail("rounds, writers", 1);
    mst_pass passes[MOST_WRITERS + 1] = {MST_PASS_CLOSED};
    int32_t told = mst_open(1, 4096, passes, (size_t)writers + 1);
    if (told != MST_OK)
        fail("open", told);
    run(passes);
    int wrong = 0, of_format_2 = 0;
    for (int i = 0; i < audited; i++) {
        wrong += audit_of(&audits[i]);
        of_format_2 += audits[i].format == 2;
    }
    uint64_t version = 0, writes = (uint64_t)(rounds + rounds / MIGRATES_EACH) * (uint64_t)writers;
    if (mst_version(&passes[0], &version) != MST_OK || version != writes)
        wrong++;
    for (int i = 0; i <= writers; i++)
        if (mst_close(&passes[i]) != MST_OK)
            fail("close", i);
    printf("%d proofs audited, %d of format 2, %d wrong\n", audited, of_format_2, wrong);
    return wrong != 0;
}
