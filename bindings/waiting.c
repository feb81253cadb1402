/*
 * The writes that wait for the turn, and snapshots that wait for a block to be published. Between
 * two tries a call first spins for a moment, each time for twice as long; then it gives the
 * processor up a few times; then it sleeps, from a microsecond up to a millisecond. So a short wait
 * ends at once, and a long one takes no processor from the pass that has the turn. A sleep is an
 * eighth longer than the one before, and so a small part of the wait so far: one that waits does
 * not fall far behind those that do not.
 *
 * That alone serves whoever comes by while the turn is free: mostly the one that had it last. So a
 * call that has waited long stands in the line of its store, and before each try the others look
 * who stands there. While one has waited longer than they have, they leave the turn to it, and
 * sleep. As long as nobody has waited long, looking is to load one word.
 */
#define _POSIX_C_SOURCE 200112L
#include "line.h"
#include <sched.h>
#include <time.h>

#if defined(__x86_64__) && defined(__GNUC__)
#define PAUSE() __builtin_ia32_pause()
#else
#define PAUSE() ((void)0)
#endif

enum {
    SPINS = 7,      /* tries with spins behind them: of 1, 2, 4 to 64 pauses */
    YIELDS = 16,    /* tries after which the processor is given up */
    LONGEST = 1000, /* the longest sleep, in microseconds */
    LONG = 45000,   /* a call that has waited for so many microseconds has waited long */
    IN_LINE = 25,   /* the sleep to begin with of a call that stands in line */
    AWAY = 500      /* that of any other call which leaves the turn to one that stands there */
};

/* As microseconds that a call may wait: for ever. */
#define WITHOUT_END UINT64_MAX

/* How a call has waited so far. */
struct waited {
    unsigned tries; /* before the sleeps */
    long slept;     /* the last sleep, in microseconds */
};

static void spin(unsigned pauses) {
    for (; pauses > 0; pauses--)
        PAUSE();
}

/* A signal may cut it short, and then the next try comes sooner. */
static void sleep_for(long microseconds) {
    struct timespec length = {0, microseconds * 1000};
    nanosleep(&length, NULL);
}

/* Sleeps for longer than the last time, but for no more than `most` microseconds. */
static void sleep_more(struct waited *waited, uint64_t most) {
    long next = waited->slept + waited->slept / 8 + 1;
    waited->slept = next < LONGEST ? next : LONGEST;
    sleep_for(most < (uint64_t)waited->slept ? (long)most : waited->slept);
}

/* Waits after a try in vain. A sleep takes no more than `most` microseconds. */
static void wait_within(struct waited *waited, uint64_t most) {
    if (waited->tries == SPINS + YIELDS) {
        sleep_more(waited, most);
        return;
    }
    if (waited->tries < SPINS)
        spin(1u << waited->tries);
    else
        sched_yield();
    waited->tries++;
}

static void wait_more(struct waited *waited) {
    wait_within(waited, LONGEST);
}

/* A call that waits for the turn of its store. Its times are in microseconds. */
struct call {
    struct place *place; /* of its pass; none: the store has no line */
    uint64_t longest;    /* how long it may wait */
    uint64_t began;      /* when it began to wait; 0: it has not */
    size_t ahead;        /* how many it leaves the turn to */
    int stood;           /* whether it has stood in line */
    struct waited waited;
};

static struct call call_of(const mst_pass *pass, uint64_t longest) {
    struct call call = {pass->place, longest, 0, 0, 0, {0, 0}};
    return call;
}

/* The time now, which is never 0. */
static uint64_t now(void) {
    struct timespec time;
    clock_gettime(CLOCK_MONOTONIC, &time);
    return (uint64_t)time.tv_sec * 1000000 + (uint64_t)time.tv_nsec / 1000 + 1;
}

/* How long the call may still wait. */
static uint64_t left(struct call *call, uint64_t time) {
    if (call->began == 0)
        call->began = time;
    return time - call->began < call->longest ? call->longest - (time - call->began) : 0;
}

/* Whether the call has waited long. Then it stands in line, and first sleeps for short times. */
static int stands(struct call *call, uint64_t time) {
    if (call->place == NULL || time - call->began < LONG)
        return 0;
    line_stand(call->place, call->began, time);
    if (!call->stood)
        call->waited.slept = IN_LINE;
    call->stood = 1;
    return 1;
}

/*
 * Sleeps while others stand in line that have waited longer. One that stands there too sleeps for
 * short times each time that it comes nearer to the turn, since it is soon served. Any other one
 * goes away for a while, and then sleeps between its tries: so the last that was served writes on,
 * and the turn does not go from thread to thread, and from cache to cache, at each write.
 */
static void give_way(struct call *call) {
    /* what a call has left that ended with its thread */
    if (!call->stood)
        line_leave(call->place);
    for (;;) {
        uint64_t time = now(), most = left(call, time);
        size_t before = call->ahead;
        stands(call, time);
        call->ahead = line_ahead(call->place, call->began, time);
        if (call->ahead != before)
            call->waited.slept = call->stood ? IN_LINE : AWAY;
        if (call->ahead == 0 || most == 0)
            return;
        call->waited.tries = SPINS + YIELDS;
        sleep_more(&call->waited, most);
    }
}

/* Before a try. One that is not to wait leaves the turn to nobody. */
static inline void look(struct call *call) {
    if (call->place != NULL && call->longest > 0 && line_stands(call->place))
        give_way(call);
}

/* After a try. Whether another one follows, once the call has waited for a moment. */
static int goes_on(struct call *call, int32_t told) {
    if (told == MST_BUSY) {
        uint64_t time = now(), most = left(call, time);
        if (most > 0) {
            if (stands(call, time))
                sleep_more(&call->waited, most);
            else
                wait_within(&call->waited, most);
            return 1;
        }
    }
    if (call->stood)
        line_leave(call->place);
    return 0;
}

/*
 * Without a room the caller does not want the old value: then it goes into a room of the call's
 * own, which is long enough for each value.
 */
int32_t mst_put_within(mst_pass *pass, const uint8_t *key, size_t key_length,
                       const uint8_t *value, size_t value_length,
                       uint8_t *room, size_t room_length, uint64_t microseconds) {
    struct call call = call_of(pass, microseconds);
    uint8_t unwanted[MST_VALUE_LONGEST];
    int32_t told;
    if (room == NULL) {
        room = unwanted;
        room_length = sizeof unwanted;
    }
    do {
        look(&call);
        told = mst_try_put(pass, key, key_length, value, value_length, room, room_length);
    } while (goes_on(&call, told));
    return told;
}

int32_t mst_remove_within(mst_pass *pass, const uint8_t *key, size_t key_length,
                          uint8_t *room, size_t room_length, uint64_t microseconds) {
    struct call call = call_of(pass, microseconds);
    uint8_t unwanted[MST_VALUE_LONGEST];
    int32_t told;
    if (room == NULL) {
        room = unwanted;
        room_length = sizeof unwanted;
    }
    do {
        look(&call);
        told = mst_try_remove(pass, key, key_length, room, room_length);
    } while (goes_on(&call, told));
    return told;
}

int32_t mst_apply_within(mst_pass *pass, const uint8_t *edits, size_t length, size_t *place,
                         uint64_t microseconds) {
    struct call call = call_of(pass, microseconds);
    int32_t told;
    do {
        look(&call);
        told = mst_try_apply(pass, edits, length, place);
    } while (goes_on(&call, told));
    return told;
}

int32_t mst_migrate_within(mst_pass *pass, uint32_t format, uint64_t microseconds) {
    struct call call = call_of(pass, microseconds);
    int32_t told;
    do {
        look(&call);
        told = mst_try_migrate(pass, format);
    } while (goes_on(&call, told));
    return told;
}

int32_t mst_put(mst_pass *pass, const uint8_t *key, size_t key_length,
                const uint8_t *value, size_t value_length, uint8_t *room, size_t room_length) {
    return mst_put_within(pass, key, key_length, value, value_length, room, room_length,
                          WITHOUT_END);
}

int32_t mst_remove(mst_pass *pass, const uint8_t *key, size_t key_length,
                   uint8_t *room, size_t room_length) {
    return mst_remove_within(pass, key, key_length, room, room_length, WITHOUT_END);
}

int32_t mst_apply(mst_pass *pass, const uint8_t *edits, size_t length, size_t *place) {
    return mst_apply_within(pass, edits, length, place, WITHOUT_END);
}

int32_t mst_migrate(mst_pass *pass, uint32_t format) {
    return mst_migrate_within(pass, format, WITHOUT_END);
}

/* A block is published within moments: the directory goes last, and then a try finds all of it. */
int32_t mst_sharded_snapshot(mst_handle *reader) {
    struct waited waited = {0, 0};
    int32_t told;
    while ((told = mst_sharded_try_snapshot(reader)) == MST_MOVING)
        wait_more(&waited);
    return told;
}
