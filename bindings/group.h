/* A group: its queue, and what its threads tell each other. */
#ifndef GROUP_H
#define GROUP_H

#include "crew.h"
#include "mst_store.h"
#include <pthread.h>
#include <semaphore.h>

struct request {
    const uint8_t *edits;
    size_t length;
    size_t *place, *shard;
    uint64_t *number;
    int is_batch; /* whether none of its edits is bad: one that is cut short would take bytes from
                     the request behind it */
    int32_t told;
    int is_called;        /* whether its thread was called to lead */
    int is_awake;         /* whether its thread looks for posts, and does not sleep */
    int is_asked;         /* whether its thread was asked to help with the block */
    int has_heard;        /* and has taken that post */
    sem_t *posts;         /* its thread looks for posts here, and sleeps here */
    struct request *next; /* in the queue, and later in the block */
};

struct mst_sharded_group {
    mst_handle writer;            /* of the thread that leads */
    pthread_mutex_t lock;         /* of what follows */
    int is_led;
    struct request *first, *last; /* the queue; if nobody leads, its first was called */
    size_t waiting;               /* how many stand in it */
    size_t expected;              /* how many had come when the last block was made, with its own */
    int is_open;                  /* whether the parts of the block wait for those that help */
    size_t helping;               /* how many help */
    sem_t *leader;                /* who then waits for the last of them */
    struct crew *crew;            /* the parts: of those that prepare them, without the lock */
};

/* The lock is held for some instructions alone, and to sleep for it takes longer. */
void lock_group(mst_sharded_group *group);
void unlock_group(mst_sharded_group *group);

/* Waits until the thread is called to lead, or its edits are made. It helps if it is asked to. */
void await(mst_sharded_group *group, struct request *own);

/* Prepares all parts of the block, with those of its threads that are awake. */
void prepare_together(mst_sharded_group *group, struct request *block, const struct request *own);

#endif
