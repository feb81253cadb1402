/*
 * Requests to a group without a store, each by a thread: how they come one after the other while
 * one of them is held up, and what they were told. This stands before all other headers.
 */
#ifndef ASKS_H
#define ASKS_H

#include "queue.h"
#include "tests.h"
#include <sched.h>

enum { LONG_BYTES = 5 << 18 };

static mst_handle hand = MST_HANDLE_CLOSED;
static mst_sharded_group *group;

struct asks {
    pthread_t thread;
    uint8_t edits[2 * MST_EDIT_LONGEST];
    const uint8_t *bytes; /* what is given: its edits, or those of the test */
    size_t length, place, shard;
    uint64_t number;
    int32_t told;
    atomic_int is_told; /* where a thread ends before it is joined */
};

static struct asks asks[THREADS];
static uint8_t long_edits[THREADS][LONG_BYTES];

static void *asks_once(void *given) {
    struct asks *own = given;
    own->told = mst_sharded_group_apply(group, own->bytes, own->length, &own->place, &own->shard,
                                        &own->number);
    atomic_store(&own->is_told, 1);
    pthread_testcancel();
    return NULL;
}

/* A put of this key; the value is the number of the thread. */
static void puts_key(int at, const char *key) {
    struct asks *own = &asks[at];
    uint8_t value = (uint8_t)at;
    own->bytes = own->edits;
    own->length = mst_edit_put(own->edits, 0, (const uint8_t *)key, strlen(key), &value, 1);
}

static size_t queued(void) {
    size_t count = 0;
    pthread_mutex_lock(&group->lock);
    for (const struct request *one = group->first; one != NULL; one = one->next)
        count++;
    pthread_mutex_unlock(&group->lock);
    return count;
}

static void begin(int at) {
    asks[at].place = asks[at].shard = 77;
    asks[at].number = 77;
    asks[at].told = 1;
    atomic_store(&asks[at].is_told, 0);
    EXPECT(pthread_create(&asks[at].thread, NULL, asks_once, &asks[at]) == 0);
}

/* Thread 0 is held up in its block, and these threads come in this order. */
static void begin_all(int count) {
    atomic_store(&grants, 0);
    called = 0;
    blocks = 0;
    close_gate(&writing);
    puts_key(0, "first");
    begin(0);
    while (waiting_at(&writing) == 0)
        sched_yield();
    for (int at = 1; at < count; at++) {
        begin(at);
        while (queued() < (size_t)at)
            sched_yield();
    }
}

static void end_all(int count) {
    open_gate(&writing);
    for (int at = 0; at < count; at++)
        EXPECT(pthread_join(asks[at].thread, NULL) == 0);
    EXPECT(queued() == 0 && !group->is_led && !entered_by_two && !prepared_wrongly);
}

static int is_made(int at, uint64_t number) {
    const struct asks *own = &asks[at];
    return own->told == MST_OK && own->number == number && own->place == 77 && own->shard == 77;
}

static int is_refused(int at, int32_t wanted, size_t place, size_t shard) {
    const struct asks *own = &asks[at];
    return own->told == wanted && own->number == 77 && own->place == place && own->shard == shard;
}

/* Whether the call had the edits of this thread alone, where they stand. */
static int is_alone(size_t call, int at) {
    return calls[call].edits == asks[at].bytes && calls[call].length == asks[at].length;
}

/* Whether the call had as many bytes as the edits of these threads. */
static int is_of(size_t call, int from, int to) {
    size_t length = 0;
    for (int at = from; at <= to; at++)
        length += asks[at].length;
    return calls[call].length == length;
}

static int is_by(size_t call, int at) {
    return pthread_equal(calls[call].by, asks[at].thread);
}

#endif
