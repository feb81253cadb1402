/*
 * The writer of a group without a store. Its calls note what they are given, find out if two
 * threads are in them at a time, and hold a thread up for as long as a test wants, so that others
 * come meanwhile; and so do the posts by which threads wake each other. Threads stay awake, and
 * memory is refused, on demand. This stands before all other headers.
 */
#ifndef QUEUE_H
#define QUEUE_H

/* stdlib.h and semaphore.h declare these instead */
#define malloc granted
#define sem_post posted
#define sem_getvalue looked
#include "../../bindings/group.c"
#undef _POSIX_C_SOURCE
#include "../../bindings/helping.c"
#undef sem_getvalue
#undef sem_post
#undef malloc
int sem_post(sem_t *posts);
int sem_getvalue(sem_t *posts, int *count);
#include "../../bindings/buffers.c"
#include "../../bindings/crew.c"
#include <unistd.h>

enum { THREADS = 8, MOST_CALLS = 64, SHARDS = 5 };

static int tag;             /* where the hand of the writer points */
static int is_reader;       /* whether what the hand holds is a reader instead */
static int is_empty_handed; /* whether memory is refused */
static atomic_long grants;  /* how often it was asked for */

/* What the writer was given, one call after the other; only the thread in the call writes here. */
static struct call {
    const uint8_t *edits;
    size_t length;
    uint8_t last; /* the last byte of the edits */
    pthread_t by;
    int32_t told;
} calls[MOST_CALLS];
static size_t called;
static uint64_t blocks;
static uint8_t values[THREADS]; /* of the keys that are bytes below this, as blocks leave them */
static atomic_int within, entered_by_two;

/* Threads that come to a gate wait there while it is closed. */
struct gate {
    pthread_mutex_t lock;
    pthread_cond_t opened;
    int is_closed, waiting;
};

#define OPEN_GATE {PTHREAD_MUTEX_INITIALIZER, PTHREAD_COND_INITIALIZER, 0, 0}

static struct gate writing = OPEN_GATE; /* in the writer's call */
static struct gate posting = OPEN_GATE; /* before a post */

/* No bytes are given as none, as a malloc may. */
void *granted(size_t size) {
    atomic_fetch_add(&grants, 1);
    return is_empty_handed || size == 0 ? NULL : calloc(1, size);
}

static void pass_gate(struct gate *gate) {
    pthread_mutex_lock(&gate->lock);
    gate->waiting++;
    while (gate->is_closed)
        pthread_cond_wait(&gate->opened, &gate->lock);
    gate->waiting--;
    pthread_mutex_unlock(&gate->lock);
}

static void close_gate(struct gate *gate) {
    pthread_mutex_lock(&gate->lock);
    gate->is_closed = 1;
    pthread_mutex_unlock(&gate->lock);
}

static void open_gate(struct gate *gate) {
    pthread_mutex_lock(&gate->lock);
    gate->is_closed = 0;
    pthread_cond_broadcast(&gate->opened);
    pthread_mutex_unlock(&gate->lock);
}

static int waiting_at(struct gate *gate) {
    pthread_mutex_lock(&gate->lock);
    int count = gate->waiting;
    pthread_mutex_unlock(&gate->lock);
    return count;
}

int posted(sem_t *posts) {
    pass_gate(&posting);
    return sem_post(posts);
}

static atomic_int is_watchful;          /* whether no thread sleeps that waits for a post */
static struct gate hearing = OPEN_GATE; /* of such a thread, before it takes a post */

int looked(sem_t *posts, int *count) {
    sem_getvalue(posts, count);
    if (!atomic_load(&is_watchful))
        return 0;
    for (; *count == 0; sem_getvalue(posts, count))
        usleep(50);
    pass_gate(&hearing);
    return 0;
}

static size_t next_edit(const uint8_t *edits, size_t at) {
    return at + HEAD + length_at(edits + at + 1) + length_at(edits + at + 3);
}

/* Refuses bad edits, and those of a key that begins with x. */
static int32_t judge(const uint8_t *edits, size_t length, size_t *place, size_t *shard) {
    if (!is_batch(edits, length)) {
        *place = 1;
        return MST_BAD_BATCH;
    }
    for (size_t at = 0; at < length; at = next_edit(edits, at)) {
        if (edits[at + HEAD] == 'x') {
            *shard = 3;
            return MST_NO_FREE_ROWS;
        }
    }
    return MST_OK;
}

static void put_all(const uint8_t *edits, size_t length) {
    for (size_t at = 0; at < length; at = next_edit(edits, at))
        if (edits[at + HEAD] < THREADS)
            values[edits[at + HEAD]] = edits[at + HEAD + length_at(edits + at + 1)];
}

static void note(const uint8_t *edits, size_t length, int32_t told) {
    struct call call = {edits, length, length > 0 ? edits[length - 1] : 0, pthread_self(), told};
    if (called < MOST_CALLS)
        calls[called] = call;
    called++;
}

static void enter_call(const mst_handle *writer) {
    if (atomic_exchange(&within, 1) != 0 || writer->at != &tag)
        atomic_store(&entered_by_two, 1);
    pass_gate(&writing);
}

static int32_t make_block(const uint8_t *edits, size_t length, int32_t told, uint64_t *number) {
    if (told == MST_OK) {
        put_all(edits, length);
        *number = ++blocks;
    }
    note(edits, length, told);
    atomic_store(&within, 0);
    return told;
}

int32_t mst_sharded_apply(mst_handle *writer, const uint8_t *edits, size_t length,
                          size_t *place, size_t *shard, uint64_t *number) {
    enter_call(writer);
    return make_block(edits, length, judge(edits, length, place, shard), number);
}

/* ---- blocks in parts ---- */

/* The block that was begun. */
static struct begun {
    uint8_t *edits;
    size_t length;
    atomic_int prepared[SHARDS]; /* how often */
    pthread_t writer;
} begun;
static atomic_long helped;            /* how many parts other threads have prepared */
static atomic_int prepared_wrongly;   /* whether a part was prepared twice, or not at all */
static struct gate preparing = OPEN_GATE; /* of the writer's thread, before each part */
static struct gate helping = OPEN_GATE;   /* of the others, before each part */

int32_t mst_sharded_shards(mst_handle *of) {
    (void)of;
    return SHARDS;
}

int32_t mst_sharded_begin(mst_handle *writer, const uint8_t *edits, size_t length, size_t *place,
                          mst_handle *parts, size_t count) {
    size_t shard;
    if (is_empty_handed)
        return MST_MEMORY;
    enter_call(writer);
    if (count != SHARDS || judge(edits, length, place, &shard) == MST_BAD_BATCH)
        atomic_store(&entered_by_two, 1);
    begun.edits = calloc(1, length + 1);
    memcpy(begun.edits, edits, length);
    begun.length = length;
    begun.writer = pthread_self();
    for (size_t at = 0; at < count; at++) {
        atomic_store(&begun.prepared[at], 0);
        parts[at].at = &begun.prepared[at];
    }
    return MST_OK;
}

int32_t mst_sharded_prepare(mst_handle *part) {
    atomic_int *own = part->at;
    int is_helped = !pthread_equal(pthread_self(), begun.writer);
    atomic_fetch_add(&helped, is_helped);
    pass_gate(is_helped ? &helping : &preparing);
    atomic_fetch_add(own, 1);
    return MST_OK;
}

/* How many parts of the block are prepared. */
static size_t prepared(void) {
    size_t count = 0;
    for (size_t at = 0; at < SHARDS; at++)
        count += atomic_load(&begun.prepared[at]) > 0;
    return count;
}

int32_t mst_sharded_commit(mst_handle *writer, size_t *shard, uint64_t *number) {
    size_t place;
    if (writer->at != &tag)
        atomic_store(&entered_by_two, 1);
    for (size_t at = 0; at < SHARDS; at++)
        if (atomic_load(&begun.prepared[at]) != 1)
            atomic_store(&prepared_wrongly, 1);
    int32_t told = judge(begun.edits, begun.length, &place, shard);
    make_block(begun.edits, begun.length, told, number);
    free(begun.edits);
    return told;
}

int32_t mst_sharded_number(mst_handle *of, uint64_t *told) {
    (void)told;
    if (of->at == NULL)
        return MST_CLOSED;
    return is_reader ? MST_WRONG_STATE : MST_OK;
}

/* There is no snapshot. */
int32_t mst_sharded_format(mst_handle *of) {
    (void)of;
    return MST_WRONG_STATE;
}

int32_t mst_sharded_close(mst_handle *of) {
    int32_t told = of->at == NULL ? MST_CLOSED : MST_OK;
    of->at = NULL;
    return told;
}

#endif
