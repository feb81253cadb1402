/*
 * Group commit: threads that share one writer of blocks. A thread that comes while nobody leads
 * leads: it takes what waits, in the order of arrival, and makes one block of it and its own edits,
 * while those that come meanwhile stand in a queue. Then it tells all whose edits it made, leaves
 * the lead, and calls the first in the queue to take it. A thread that comes before that one is
 * awake takes it instead, with all that waits: so no block waits for a thread to wake up. A thread
 * that leads makes the block of its own edits, and under load a block has the edits of all that
 * came while the one before was made. If that block is refused, or there is no memory for it, the
 * same thread makes one for each of its requests.
 *
 * Those that were just told come again within a microsecond or two, if they come. So who leads
 * waits for that long, until as many are there as the last time: otherwise one thread and all
 * others would take turns. How threads wait, and help with their block, is in helping.c.
 *
 * A request stands on the stack of the thread that asks. A post asks that thread to help, at most
 * once, or calls it to lead, at most once, or tells it that another thread made its edits; the
 * thread takes each of them before it returns. Posts need no lock, so whom they wake finds it free.
 */
#define _POSIX_C_SOURCE 200112L
#include "buffers.h"
#include "group.h"
#include <sched.h>
#include <stdlib.h>
#include <string.h>

enum {
    BLOCK_MOST = 1 << 20, /* the most bytes of edits in a block of several requests */
    GATHERS = 10          /* looks for those that come again, each after a moment */
};

/* ---- the queue, under the lock ---- */

static void enqueue(mst_sharded_group *group, struct request *request) {
    if (group->first == NULL)
        group->first = request;
    else
        group->last->next = request;
    group->last = request;
    group->waiting++;
}

/* Whether the next request goes into the block of this one, which has so many bytes so far. */
static int is_followed(const struct request *last, size_t bytes) {
    const struct request *next = last->next;
    return next != NULL && last->is_batch && next->is_batch && bytes <= BLOCK_MOST
        && next->length <= BLOCK_MOST - bytes;
}

/* The last request that goes into the block of the first. */
static struct request *last_in_block(const mst_sharded_group *group) {
    struct request *last = group->first;
    for (size_t bytes = last->length; is_followed(last, bytes); bytes += last->length)
        last = last->next;
    return last;
}

static size_t count_of(const struct request *requests) {
    size_t count = 0;
    for (const struct request *one = requests; one != NULL; one = one->next)
        count++;
    return count;
}

/* Takes the requests of the next block out of the queue, as a list. */
static struct request *dequeue(mst_sharded_group *group) {
    struct request *first = group->first, *last = last_in_block(group);
    group->first = last->next;
    last->next = NULL;
    group->waiting -= count_of(first);
    return first;
}

/* The caller leads from here on: waits a moment for those that come again, and takes its block. */
static struct request *gather(mst_sharded_group *group) {
    group->is_led = 1;
    for (int looks = 0; group->waiting < group->expected && looks < GATHERS; looks++) {
        unlock_group(group);
        sched_yield();
        lock_group(group);
    }
    return dequeue(group);
}

/* Who made this block leads no more. Returns the first that waits, if any does, to be called. */
static struct request *leave(mst_sharded_group *group, const struct request *block) {
    group->is_led = 0;
    group->expected = group->waiting + count_of(block);
    if (group->first != NULL)
        group->first->is_called = 1;
    return group->first;
}

/* ---- blocks, by the thread that leads, without the lock ---- */

static void make_alone(mst_sharded_group *group, struct request *request) {
    request->told = mst_sharded_apply(&group->writer, request->edits, request->length,
                                      request->place, request->shard, request->number);
}

static size_t length_of(const struct request *requests) {
    size_t length = 0;
    for (const struct request *one = requests; one != NULL; one = one->next)
        length += one->length;
    return length;
}

/* Writes the edits of all requests, those of each behind those of the one before. */
static void join(const struct request *requests, uint8_t *edits) {
    size_t at = 0;
    for (const struct request *one = requests; one != NULL; at += one->length, one = one->next)
        if (one->length > 0)
            memcpy(edits + at, one->edits, one->length);
}

/* Begins the block of all requests. Returns whether that was possible. */
static int begin_block(mst_sharded_group *group, const struct request *requests) {
    size_t length = length_of(requests), place;
    /* a byte more, since a malloc may give none for no bytes */
    uint8_t *edits = malloc(length + 1);
    if (edits == NULL)
        return 0;
    join(requests, edits);
    int32_t told = mst_sharded_begin(&group->writer, edits, length, &place, group->crew->parts,
                                     group->crew->count);
    free(edits);
    return told == MST_OK;
}

/* Whether all requests are made as one block. Otherwise nothing is made. */
static int make_one_block(mst_sharded_group *group, struct request *requests,
                          const struct request *own) {
    size_t shard;
    uint64_t number;
    if (!begin_block(group, requests))
        return 0;
    prepare_together(group, requests, own);
    int32_t told = mst_sharded_commit(&group->writer, &shard, &number);
    crew_close(group->crew);
    if (told != MST_OK)
        return 0;
    for (struct request *one = requests; one != NULL; one = one->next) {
        *one->number = number;
        one->told = MST_OK;
    }
    return 1;
}

static void make(mst_sharded_group *group, struct request *requests, const struct request *own) {
    if (requests->next != NULL && make_one_block(group, requests, own))
        return;
    for (struct request *one = requests; one != NULL; one = one->next)
        make_alone(group, one);
}

/* ---- who leads, and who waits ---- */

/*
 * Where this thread sleeps. It is in one call at a time, and leaves no post there. It is not on the
 * stack with the request: who posts may still look at it when the call has returned.
 */
static sem_t *posts_here(void) {
    static _Thread_local sem_t posts;
    static _Thread_local int is_open;
    if (!is_open)
        sem_init(&posts, 0, 0);
    is_open = 1;
    return &posts;
}

/* Tells all of the block but the own request that they are done, and touches them no more. */
static void tell(struct request *block, const struct request *own) {
    for (struct request *one = block, *next; one != NULL; one = next) {
        next = one->next;
        if (one != own)
            sem_post(one->posts);
    }
}

static void lead(mst_sharded_group *group, struct request *block, const struct request *own) {
    make(group, block, own);
    lock_group(group);
    struct request *called = leave(group, block);
    unlock_group(group);
    tell(block, own);
    if (called != NULL)
        sem_post(called->posts);
}

/*
 * Puts the request into the queue. Returns the requests of the next block if its thread leads: if
 * nobody does, and that block has the request.
 */
static struct request *enter(mst_sharded_group *group, struct request *own) {
    struct request *block = NULL;
    lock_group(group);
    enqueue(group, own);
    if (!group->is_led && last_in_block(group) == own)
        block = gather(group);
    unlock_group(group);
    return block;
}

/*
 * Waits until the request is done, or its thread was called. Then returns the requests of the next
 * block, unless another thread has come first, and has this one in its block.
 */
static struct request *await_turn(mst_sharded_group *group, struct request *own) {
    struct request *block = NULL;
    await(group, own);
    if (!own->is_called)
        return NULL;
    lock_group(group);
    if (!group->is_led && group->first == own)
        block = gather(group);
    unlock_group(group);
    if (block == NULL)
        await(group, own);
    return block;
}

/* ---- the calls ---- */

/* A thread that is cancelled goes on: others have its request in their hands. */
int32_t mst_sharded_group_apply(mst_sharded_group *group, const uint8_t *edits, size_t length,
                                size_t *place, size_t *shard, uint64_t *number) {
    struct request own = {.edits = edits, .length = length, .place = place, .shard = shard,
                          .number = number, .is_batch = is_batch(edits, length),
                          .is_awake = 1, .posts = posts_here()};
    int before;
    pthread_setcancelstate(PTHREAD_CANCEL_DISABLE, &before);
    struct request *block = enter(group, &own);
    if (block == NULL)
        block = await_turn(group, &own);
    if (block != NULL)
        lead(group, block, &own);
    pthread_setcancelstate(before, &before);
    return own.told;
}

/* Whether the hand holds a writer: it alone has a number and no format. Otherwise the refusal. */
static int32_t judge_writer(mst_handle *hand) {
    uint64_t number;
    int32_t told = mst_sharded_number(hand, &number);
    if (told != MST_OK)
        return told;
    return mst_sharded_format(hand) == MST_WRONG_STATE ? MST_OK : MST_WRONG_STATE;
}

/* A group of a map with so many shards, or none if there is no memory. */
static mst_sharded_group *group_of(size_t shards) {
    mst_sharded_group *made = malloc(sizeof *made + crew_size(shards));
    if (made == NULL)
        return NULL;
    if (pthread_mutex_init(&made->lock, NULL) != 0) {
        free(made);
        return NULL;
    }
    made->is_led = made->is_open = 0;
    made->first = made->last = NULL;
    made->waiting = made->expected = made->helping = 0;
    made->crew = (void *)(made + 1);
    crew_init(made->crew, shards);
    return made;
}

int32_t mst_sharded_group_open(mst_handle *writer, mst_sharded_group **group) {
    static const mst_handle closed = MST_HANDLE_CLOSED;
    int32_t told = judge_writer(writer);
    if (told != MST_OK)
        return told;
    mst_sharded_group *made = group_of((size_t)mst_sharded_shards(writer));
    if (made == NULL)
        return MST_MEMORY;
    made->writer = *writer;
    *writer = closed;
    *group = made;
    return MST_OK;
}

int32_t mst_sharded_group_close(mst_sharded_group *group, mst_handle *writer) {
    mst_sharded_close(writer);
    *writer = group->writer;
    pthread_mutex_destroy(&group->lock);
    free(group);
    return MST_OK;
}
