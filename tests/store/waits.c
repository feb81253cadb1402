/*
 * Calls that wait for the turn: for no longer than a time, in line, and when a thread ends that
 * waits. A migration asks for memory while it has the turn. This malloc, which stands before
 * glibc's own, then lets others call; and this nanosleep, which does too, ends the thread that is
 * to end while it waits. Last, eight threads write for two seconds, and each is served.
 */
#include "tests.h"
#include <limits.h>
#include <pthread.h>
#include <stdatomic.h>
#include <stdlib.h>
#include <sys/syscall.h>
#include <time.h>
#include <unistd.h>

#define LONG_SLEEPS 120 /* after so many sleeps a call has waited long, and stands in line */
#define WRITERS 8
#define RUNS 10 /* as many, where other programs want all processors */

extern void *__libc_malloc(size_t size);

enum end { GOES_ON, DIES, IS_CANCELLED };

static atomic_int sleeps, has_ended;
static _Thread_local enum end end; /* how this thread ends, once it stands in line */

static mst_pass passes[3];
static mst_pass *mover = &passes[0], *other = &passes[1], *third = &passes[2];
static void (*meanwhile)(void); /* what the next malloc does first */
static uint8_t room[64];

void *malloc(size_t size) {
    void (*then)(void) = meanwhile;
    meanwhile = NULL;
    if (then)
        then();
    return __libc_malloc(size);
}

int nanosleep(const struct timespec *length, struct timespec *left) {
    int before = atomic_fetch_add(&sleeps, 1);
    if (end != GOES_ON && before > LONG_SLEEPS) {
        atomic_store(&has_ended, 1);
        if (end == DIES)
            syscall(SYS_exit, 0);
        pthread_exit(PTHREAD_CANCELED); /* as pthread_cancel does where a call sleeps */
    }
    return (int)syscall(SYS_nanosleep, length, left);
}

static double now(void) {
    struct timespec time;
    clock_gettime(CLOCK_MONOTONIC, &time);
    return (double)time.tv_sec + (double)time.tv_nsec * 1e-9;
}

/*
 * Migrates by the mover from format 1 to 2, or fails to for want of rows. These calls are made
 * while it has the turn.
 */
static void migrates_while(void (*calls)(void), int32_t wanted) {
    atomic_store(&sleeps, 0);
    meanwhile = calls;
    EXPECT(mst_try_migrate(mover, 2) == wanted && meanwhile == NULL);
}

static void opens(uint32_t rows) {
    EXPECT(mst_open(1, rows, passes, 3) == MST_OK);
    EXPECT(mst_put(mover, TEXT("a"), TEXT("1"), room, sizeof room) == MST_ABSENT);
}

static void closes(void) {
    for (int i = 0; i < 3; i++)
        EXPECT(mst_close(&passes[i]) == MST_OK);
}

static int has_version(uint64_t wanted) {
    uint64_t version = 0;
    return mst_version(other, &version) == MST_OK && version == wanted;
}

/* ---- calls with a limit, each of which finds the turn taken all the time */

static void are_busy(uint64_t longest) {
    uint8_t edits[MST_EDIT_LONGEST];
    size_t place = 77, length = mst_edit_put(edits, 0, TEXT("b"), TEXT("2"));
    double before = now();
    EXPECT(mst_put_within(other, TEXT("a"), TEXT("2"), room, 64, longest) == MST_BUSY);
    EXPECT(mst_remove_within(other, TEXT("a"), room, 64, longest) == MST_BUSY);
    EXPECT(mst_put_within(other, TEXT("a"), TEXT("2"), NULL, 0, longest) == MST_BUSY);
    EXPECT(mst_remove_within(other, TEXT("a"), NULL, 0, longest) == MST_BUSY);
    EXPECT(mst_apply_within(other, edits, length, &place, longest) == MST_BUSY && place == 77);
    EXPECT(mst_migrate_within(other, 2, longest) == MST_BUSY);
    EXPECT(now() - before >= 6e-6 * ((double)longest - 1)); /* the clock's last digit is cut off */
    EXPECT(mst_get(other, TEXT("a"), room, 64) == 1 && room[0] == '1' && has_version(1));
}

/* What does not depend on the turn is refused at once. */
static void are_refused(void) {
    size_t place = 77;
    EXPECT(mst_pin(third) == MST_OK);
    EXPECT(mst_put_within(third, TEXT("a"), TEXT("2"), room, 64, UINT64_MAX) == MST_WRONG_STATE);
    EXPECT(mst_put_within(other, NULL, 0, TEXT("2"), room, 64, UINT64_MAX) == MST_BAD_KEY);
    EXPECT(mst_remove_within(other, NULL, 0, room, 64, UINT64_MAX) == MST_BAD_KEY);
    EXPECT(mst_apply_within(other, room, 1, &place, UINT64_MAX) == MST_BAD_BATCH && place == 0);
    EXPECT(mst_migrate_within(other, 3, UINT64_MAX) == MST_UNKNOWN_FORMAT);
    EXPECT(mst_unpin(third) == MST_OK);
}

static void others_call(void) {
    are_busy(0);
    EXPECT(atomic_load(&sleeps) == 0);
    are_refused();
    EXPECT(atomic_load(&sleeps) == 0);
    are_busy(1);
    are_busy(3000);
    are_busy(50000);
}

static void limits(void) {
    mst_pass closed = MST_PASS_CLOSED;
    size_t place;
    opens(64);
    migrates_while(others_call, 1);
    EXPECT(mst_put_within(other, TEXT("a"), TEXT("2"), room, 64, 0) == 1 && room[0] == '1');
    EXPECT(mst_apply_within(other, NULL, 0, &place, 1) == MST_OK);
    EXPECT(mst_migrate_within(other, 1, 1) == 2);
    EXPECT(mst_remove_within(other, TEXT("a"), room, 64, UINT64_MAX) == 1 && has_version(6));
    EXPECT(mst_put_within(&closed, TEXT("a"), TEXT("2"), room, 64, 1000) == MST_CLOSED);
    closes();
}

/* ---- a call in a thread, which begins while the turn is taken */

static enum end wanted_end;
static pthread_t thread;
static int32_t told;

static void *puts_one(void *unused) {
    end = wanted_end;
    told = mst_put_within(other, TEXT("g"), TEXT("2"), room, sizeof room, UINT64_MAX - 1);
    return unused;
}

/* Starts the thread, and returns when it has waited long, or has ended. */
static void starts_to_wait(void) {
    atomic_store(&has_ended, 0);
    EXPECT(pthread_create(&thread, NULL, puts_one, NULL) == 0);
    while (wanted_end == GOES_ON ? atomic_load(&sleeps) < LONG_SLEEPS : !atomic_load(&has_ended))
        syscall(SYS_sched_yield);
}

static void *waits_while(enum end how, int32_t migration) {
    void *returned = NULL;
    wanted_end = how;
    migrates_while(starts_to_wait, migration);
    EXPECT(pthread_join(thread, &returned) == 0);
    atomic_store(&sleeps, 0);
    return returned;
}

/* Puts by this pass, while nobody stands in line and no other thread is there: without a sleep. */
static void puts_at_once(mst_pass *pass) {
    EXPECT(mst_put(pass, TEXT("a"), TEXT("3"), room, sizeof room) == 1);
    EXPECT(mst_put_within(pass, TEXT("a"), TEXT("3"), room, sizeof room, 1) == 1);
    EXPECT(atomic_load(&sleeps) == 0);
}

static void made_in_the_end(void) {
    opens(64);
    waits_while(GOES_ON, 1);
    EXPECT(told == MST_ABSENT && mst_get(mover, TEXT("g"), room, 64) == 1 && has_version(3));
    puts_at_once(third);
    closes();
}

/* Five keys in one node take six of 12 rows: a sixth key needs seven, and the migration more. */
static void refused_for_room_while_it_waits(void) {
    opens(12);
    for (uint8_t key = 'b'; key <= 'e'; key++)
        EXPECT(mst_put(mover, &key, 1, TEXT(""), room, sizeof room) == MST_ABSENT);
    waits_while(GOES_ON, MST_NO_FREE_ROWS);
    EXPECT(told == MST_NO_FREE_ROWS && has_version(5));
    EXPECT(mst_put(third, TEXT("a"), TEXT("3"), room, sizeof room) == 1);
    EXPECT(atomic_load(&sleeps) == 0);
    closes();
}

/* A thread that died in line holds the next write up for a moment, and no other. */
static void goes_on_after_a_death(void) {
    opens(64);
    waits_while(DIES, 1);
    double before = now();
    EXPECT(mst_put(third, TEXT("a"), TEXT("3"), room, sizeof room) == 1 && room[0] == '1');
    EXPECT(now() - before < 10);
    EXPECT(atomic_load(&sleeps) > 0);
    atomic_store(&sleeps, 0);
    puts_at_once(mover);
    puts_at_once(third);
    closes();
}

/* If its pass is closed, it holds up none. */
static void closed_after_a_death(void) {
    opens(64);
    waits_while(DIES, 1);
    EXPECT(mst_close(other) == MST_OK);
    puts_at_once(third);
    EXPECT(mst_close(mover) == MST_OK && mst_close(third) == MST_OK);
}

/*
 * Of a thread that was cancelled in line nothing is written. Its pass goes on in another thread,
 * and from a hand to which it was moved.
 */
static void moved_after_a_cancellation(void) {
    opens(64);
    EXPECT(waits_while(IS_CANCELLED, 1) == PTHREAD_CANCELED && has_version(2));
    mst_pass moved = *other;
    memset(other, 0, sizeof *other);
    puts_at_once(&moved);
    puts_at_once(third);
    EXPECT(mst_close(&moved) == MST_OK);
    EXPECT(mst_close(mover) == MST_OK && mst_close(third) == MST_OK);
}

/* ---- eight threads that write without a pause */

static mst_pass hands[WRITERS];
static long puts_of[WRITERS];
static atomic_int going;

static void *writes(void *given) {
    int number = (int)(intptr_t)given, right = 1;
    uint8_t old[64], key = (uint8_t)('a' + number);
    for (long puts = 0; right && atomic_load(&going); puts_of[number] = ++puts) {
        int32_t length = mst_put(&hands[number], &key, 1, TEXT("value"), old, sizeof old);
        right = length == (puts ? 5 : MST_ABSENT);
    }
    return right ? &hands[number] : NULL;
}

/* Whether the slowest made a quarter of the mean. */
static int all_are_served(void) {
    pthread_t threads[WRITERS];
    struct timespec two = {2, 0};
    long all = 0, least = LONG_MAX;
    EXPECT(mst_open(1, 4096, hands, WRITERS) == MST_OK);
    atomic_store(&going, 1);
    for (int i = 0; i < WRITERS; i++)
        EXPECT(pthread_create(&threads[i], NULL, writes, (void *)(intptr_t)i) == 0);
    syscall(SYS_nanosleep, &two, NULL);
    atomic_store(&going, 0);
    for (int i = 0; i < WRITERS; i++) {
        void *returned;
        EXPECT(pthread_join(threads[i], &returned) == 0 && returned == &hands[i]);
        all += puts_of[i];
        least = puts_of[i] < least ? puts_of[i] : least;
        EXPECT(mst_close(&hands[i]) == MST_OK);
    }
    printf("%ld puts of %d threads, the slowest made %ld %% of the mean\n", all, WRITERS,
           100 * least * WRITERS / all);
    return least * WRITERS * 4 >= all;
}

int main(void) {
    limits();
    made_in_the_end();
    refused_for_room_while_it_waits();
    goes_on_after_a_death();
    closed_after_a_death();
    moved_after_a_cancellation();
    int served = 0;
    for (int run = 0; run < RUNS && !served; run++)
        served = all_are_served();
    EXPECT(served);
    return ended("waits");
}
