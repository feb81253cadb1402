/*
 * The threads of a group that wait. To wake one takes longer than a block of few edits, so each
 * looks for a post for a moment, giving the processor up between two looks, before it sleeps. Those
 * of the block that are still awake are asked to help, and prepare its parts with the thread that
 * leads. Who hears it too late finds nothing left to do, and nobody waits for it.
 */
#define _POSIX_C_SOURCE 200112L
#include "group.h"
#include <sched.h>

enum {
    LOOKS = 500, /* for a post, before a thread sleeps: some 0.2 milliseconds */
    TRIES = 50   /* to have the lock, before a thread sleeps for it */
};

void lock_group(mst_sharded_group *group) {
    for (int tries = 0; tries < TRIES; tries++)
        if (pthread_mutex_trylock(&group->lock) == 0)
            return;
    pthread_mutex_lock(&group->lock);
}

void unlock_group(mst_sharded_group *group) {
    pthread_mutex_unlock(&group->lock);
}

/*
 * Looks for a moment whether there is a post. No other thread takes one of these, so take_post then
 * returns at once. (It is no sem_trywait, which helgrind does not know.)
 */
static int has_post(sem_t *posts) {
    int count = 0;
    for (int looks = 0; looks < LOOKS; looks++) {
        sem_getvalue(posts, &count);
        if (count > 0)
            return 1;
        sched_yield();
    }
    return 0;
}

/* Takes a post, and sleeps until there is one. */
static void take_post(sem_t *posts) {
    while (sem_wait(posts) != 0) /* a signal may cut it short */
        ;
}

/* Asks those to help whose requests are in the block, and who are awake. */
static void open_parts(mst_sharded_group *group, struct request *block,
                       const struct request *own) {
    lock_group(group);
    group->is_open = 1;
    group->leader = own->posts;
    for (struct request *one = block; one != NULL; one = one->next)
        one->is_asked = one != own && one->is_awake;
    unlock_group(group);
    for (struct request *one = block; one != NULL; one = one->next)
        if (one->is_asked)
            sem_post(one->posts);
}

/* From here on nobody may begin to help. Waits for those that do. */
static void close_parts(mst_sharded_group *group, const struct request *own) {
    lock_group(group);
    group->is_open = 0;
    int is_last = group->helping == 0;
    unlock_group(group);
    if (is_last)
        return;
    has_post(own->posts);
    take_post(own->posts);
}

/* Whether the post that was taken asks for help. Then the thread has helped. */
static int has_helped(mst_sharded_group *group, struct request *own) {
    lock_group(group);
    int is_asked = own->is_asked && !own->has_heard, helps = is_asked && group->is_open;
    own->has_heard = own->has_heard || is_asked;
    if (helps)
        group->helping++;
    unlock_group(group);
    if (!helps)
        return is_asked;
    crew_prepare(group->crew);
    lock_group(group);
    sem_t *leader = --group->helping == 0 && !group->is_open ? group->leader : NULL;
    unlock_group(group);
    if (leader != NULL)
        sem_post(leader);
    return 1;
}

/* Waits for a post: first awake, then asleep. */
static void await_post(mst_sharded_group *group, struct request *own) {
    if (!has_post(own->posts)) {
        lock_group(group);
        own->is_awake = 0;
        unlock_group(group);
    }
    take_post(own->posts);
}

void await(mst_sharded_group *group, struct request *own) {
    do
        await_post(group, own);
    while (has_helped(group, own));
}

void prepare_together(mst_sharded_group *group, struct request *block, const struct request *own) {
    open_parts(group, block, own);
    crew_prepare(group->crew);
    close_parts(group, own);
}
