/*
 * Calls while another pass has the turn. A migration asks for memory while it has the turn. This
 * malloc, which stands before glibc's own, then makes calls by another hand: those that need the
 * turn return MST_BUSY, and the reads go on. Calls that wait, in a thread of their own, go
 * through once the migration has ended. This sched_yield and this nanosleep, which stand before
 * glibc's own too, see how they wait: they give the processor up before they sleep, and then sleep
 * for growing times up to a millisecond. Once they have waited long they begin anew.
 */
#include "tests.h"
#include <pthread.h>
#include <sched.h>
#include <stdatomic.h>
#include <stdlib.h>
#include <sys/syscall.h>
#include <time.h>
#include <unistd.h>

#define SLEEPS 130 /* how long a call that waits is kept waiting */
#define EARLY 10   /* of these the first ones are short */

extern void *__libc_malloc(size_t size);

static atomic_int yields, sleeps; /* of a call that waits */
static long slept[SLEEPS];        /* how long each of the first sleeps is, in nanoseconds */

static mst_pass passes[3];
static mst_pass *mover = &passes[0], *other = &passes[1], *pinned = &passes[2];
static void (*meanwhile)(void); /* what the next malloc does first */
static uint8_t room[64];
static uint8_t root[32], proof[256]; /* before the migration */
static size_t proof_length;

void *malloc(size_t size) {
    void (*then)(void) = meanwhile;
    meanwhile = NULL;
    if (then)
        then();
    return __libc_malloc(size);
}

int sched_yield(void) {
    atomic_fetch_add(&yields, 1);
    return (int)syscall(SYS_sched_yield);
}

int nanosleep(const struct timespec *length, struct timespec *left) {
    int at = atomic_load(&sleeps);
    if (at < SLEEPS)
        slept[at] = length->tv_sec ? -1 : length->tv_nsec;
    atomic_store(&sleeps, at + 1);
    return (int)syscall(SYS_nanosleep, length, left);
}

/* Migrates by the mover, from 1 to 2 or back, with these calls made while it has the turn. */
static void migrates_while(uint32_t from, void (*calls)(void)) {
    meanwhile = calls;
    EXPECT(mst_try_migrate(mover, 3 - from) == (int32_t)from);
    EXPECT(meanwhile == NULL);
}

static int has_root(mst_pass *pass) {
    uint8_t now[32];
    return mst_root(pass, now, 32) == 32 && memcmp(now, root, 32) == 0;
}

/* Faults of the line come first, and then that another pass has the turn. */
static void each_is_refused(void) {
    uint32_t rows = 77;
    uint8_t edits[MST_EDIT_LONGEST];
    size_t length = mst_edit_put(edits, 0, TEXT("a"), TEXT("2")), place = 77;
    EXPECT(mst_try_migrate(other, 2) == MST_BUSY && mst_try_migrate(other, 1) == MST_BUSY);
    EXPECT(mst_try_migrate(other, 3) == MST_UNKNOWN_FORMAT);
    EXPECT(mst_try_migrate(pinned, 2) == MST_WRONG_STATE);
    EXPECT(mst_try_put(other, TEXT("a"), TEXT("2"), room, sizeof room) == MST_BUSY);
    EXPECT(mst_try_put(other, NULL, 0, TEXT("2"), room, sizeof room) == MST_BAD_KEY);
    EXPECT(mst_try_remove(other, TEXT("a"), room, sizeof room) == MST_BUSY);
    EXPECT(mst_try_apply(other, NULL, 0, &place) == MST_BUSY);
    EXPECT(mst_try_apply(other, edits, length, &place) == MST_BUSY && place == 77);
    EXPECT(mst_try_apply(other, edits, length - 1, &place) == MST_BAD_BATCH && place == 0);
    EXPECT(mst_try_apply(pinned, edits, length, &place) == MST_WRONG_STATE);
    EXPECT(mst_rows(other, &rows) == MST_BUSY && rows == 77);
    EXPECT(mst_free_rows(other, &rows) == MST_BUSY && rows == 77);
    place = 77;
    EXPECT(mst_pinned_versions(other, NULL, 0, &place) == MST_BUSY && place == 77);
    EXPECT(mst_pinned_versions(pinned, NULL, 0, &place) == MST_WRONG_STATE && place == 77);
}

static void keeps_root_and_proof(mst_pass *pass) {
    EXPECT(mst_root(pass, root, 32) == 32);
    EXPECT(mst_prove(pass, TEXT("a"), proof, sizeof proof, &proof_length) == MST_OK);
    EXPECT(proof[0] == 1);
}

static int has_proof(mst_pass *pass) {
    uint8_t now[sizeof proof];
    size_t length = 0;
    return mst_prove(pass, TEXT("a"), now, sizeof now, &length) == MST_OK
        && length == proof_length && memcmp(now, proof, length) == 0;
}

static int has_one_pair(mst_pass *pass) {
    uint8_t pairs[2 * MST_PAIR_LONGEST];
    size_t count = 0, length = 0;
    return mst_range(pass, NULL, 0, NULL, 0, 9, pairs, sizeof pairs, &count, &length) == MST_OK
        && count == 1 && length == 6 && memcmp(pairs, "\0\1\0\1a1", 6) == 0;
}

/* The version is the one before the migration, and may be pinned. */
static void reads_go_on(mst_pass *pass) {
    uint8_t key[32];
    size_t length = 0;
    uint64_t version = 0;
    EXPECT(mst_get(pass, TEXT("a"), room, sizeof room) == 1 && room[0] == '1');
    EXPECT(mst_next(pass, NULL, 0, key, 32, &length, room, 64) == 1 && length == 1);
    EXPECT(has_root(pass) && mst_format(pass) == 1);
    EXPECT(has_proof(pass) && has_one_pair(pass));
    EXPECT(mst_version(pass, &version) == MST_OK && version == 1);
}

static void others_call(void) {
    each_is_refused();
    reads_go_on(other);
    reads_go_on(pinned);
    EXPECT(mst_pin(other) == MST_OK);
    reads_go_on(other);
    EXPECT(mst_unpin(other) == MST_OK);
    each_is_refused();
}

/* What was refused is not done, and goes through once the turn is free. */
static void refusals(void) {
    uint32_t rows = 0;
    EXPECT(mst_pin(pinned) == MST_OK);
    keeps_root_and_proof(other);
    migrates_while(1, others_call);
    EXPECT(mst_format(other) == 2 && !has_root(other));
    EXPECT(mst_format(pinned) == 1 && has_root(pinned) && mst_unpin(pinned) == MST_OK);
    EXPECT(mst_get(other, TEXT("a"), room, sizeof room) == 1 && room[0] == '1');
    EXPECT(mst_rows(other, &rows) == MST_OK && rows == 2);
    EXPECT(mst_try_migrate(other, 1) == 2 && has_root(other));
}

static int32_t told;

static void *migrates(void *unused) {
    told = mst_migrate(other, 1);
    return unused;
}

static void *puts_one(void *unused) {
    told = mst_put(other, TEXT("a"), TEXT("2"), room, sizeof room);
    return unused;
}

static void *removes(void *unused) {
    told = mst_remove(other, TEXT("a"), room, sizeof room);
    return unused;
}

static void *applies(void *unused) {
    uint8_t edits[3 * MST_EDIT_LONGEST];
    size_t place, length = mst_edit_remove(edits, 0, TEXT("a"));
    length = mst_edit_put(edits, length, TEXT("b"), TEXT("3"));
    length = mst_edit_put(edits, length, TEXT("a"), TEXT("4"));
    told = mst_apply(other, edits, length, &place);
    return unused;
}

static void *(*waiting)(void *);
static pthread_t waiter;

/* Starts the thread, and lets the migration go on when the thread has slept for some times. */
static void starts_to_wait(void) {
    atomic_store(&yields, 0);
    atomic_store(&sleeps, 0);
    EXPECT(pthread_create(&waiter, NULL, waiting, NULL) == 0);
    while (atomic_load(&sleeps) < SLEEPS)
        syscall(SYS_sched_yield);
}

/*
 * Each sleep is longer than the one before, up to a millisecond; but the first one of a call that
 * has waited long is short again. On a busy machine that may be before it has yielded each time.
 */
static void has_slept(void) {
    int again = 0;
    EXPECT(atomic_load(&yields) <= 16);
    EXPECT(slept[0] < 30000 && slept[EARLY] < 500000 && slept[SLEEPS - 1] == 1000000);
    for (int i = 1; i < SLEEPS; i++) {
        again += slept[i] < slept[i - 1];
        EXPECT(slept[i] > slept[i - 1] || slept[i] == 1000000 || slept[i] < 30000);
    }
    EXPECT(again <= 1);
}

static void goes_through(uint32_t from, void *(*call)(void *), int32_t wanted) {
    waiting = call;
    migrates_while(from, starts_to_wait);
    EXPECT(pthread_join(waiter, NULL) == 0);
    EXPECT(told == wanted);
    has_slept();
}

int main(void) {
    uint64_t version = 0;
    EXPECT(mst_open(1, 64, passes, 3) == MST_OK);
    EXPECT(mst_put(mover, TEXT("a"), TEXT("1"), room, sizeof room) == MST_ABSENT);
    refusals();
    goes_through(1, migrates, 2);
    EXPECT(mst_format(mover) == 1 && has_root(mover));
    goes_through(1, puts_one, 1);
    EXPECT(mst_format(other) == 2 && mst_get(mover, TEXT("a"), room, sizeof room) == 1);
    EXPECT(room[0] == '2');
    goes_through(2, applies, MST_OK);
    EXPECT(mst_get(mover, TEXT("a"), room, sizeof room) == 1 && room[0] == '4');
    EXPECT(mst_get(mover, TEXT("b"), room, sizeof room) == 1 && room[0] == '3');
    goes_through(1, removes, 1);
    EXPECT(mst_get(mover, TEXT("a"), room, sizeof room) == MST_ABSENT);
    EXPECT(mst_version(mover, &version) == MST_OK && version == 11);
    for (int i = 0; i < 3; i++)
        EXPECT(mst_close(&passes[i]) == MST_OK);
    return ended("busy");
}
