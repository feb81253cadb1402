/*
 * A block by several threads in one call: it begins the block, and threads that it starts prepare
 * the parts, as does the thread that calls. A part is taken by who comes first. Where a thread
 * cannot be started, the others do its work, so the block depends on no thread but the caller's.
 */
#define _POSIX_C_SOURCE 200112L
#include "crew.h"
#include <pthread.h>
#include <signal.h>
#include <stdlib.h>

/* The fewest bytes of an edit: its kind, two lengths, and a key of one byte. */
enum { EDIT_LEAST = 6 };

/* The threads of a block. */
struct helpers {
    struct crew *crew;
    size_t count;        /* how many were started */
    pthread_t threads[]; /* all but the thread that calls */
};

/* One block of memory: the parts stand behind the threads. */
static struct helpers *helpers_of(size_t shards, size_t threads) {
    size_t front = sizeof(struct helpers) + threads * sizeof(pthread_t);
    struct helpers *helpers = malloc(front + crew_size(shards));
    if (helpers == NULL)
        return NULL;
    helpers->count = 0;
    helpers->crew = (void *)&helpers->threads[threads];
    crew_init(helpers->crew, shards);
    return helpers;
}

static void *prepare_parts(void *given) {
    crew_prepare(given);
    return NULL;
}

/* Starts up to so many threads. Signals are for the caller's own threads, so they take none. */
static void start_helpers(struct helpers *helpers, size_t wanted) {
    sigset_t all, before;
    sigfillset(&all);
    pthread_sigmask(SIG_SETMASK, &all, &before);
    while (helpers->count < wanted
           && pthread_create(&helpers->threads[helpers->count], NULL, prepare_parts,
                             helpers->crew) == 0)
        helpers->count++;
    pthread_sigmask(SIG_SETMASK, &before, NULL);
}

static void prepare_all(struct helpers *helpers, size_t wanted) {
    start_helpers(helpers, wanted);
    crew_prepare(helpers->crew);
    for (size_t at = 0; at < helpers->count; at++)
        pthread_join(helpers->threads[at], NULL);
}

/*
 * The block of a map with so many shards, by the caller and up to so many other threads. If there
 * is no memory for the hands, or for the lists of the edits, then as mst_sharded_apply tells it of
 * lists.
 */
static int32_t make_by_crew(mst_handle *writer, const uint8_t *edits, size_t length, size_t shards,
                            size_t threads, size_t *place, size_t *shard, uint64_t *number) {
    struct helpers *helpers = helpers_of(shards, threads);
    int32_t told = MST_MEMORY;
    if (helpers != NULL)
        told = mst_sharded_begin(writer, edits, length, place, helpers->crew->parts, shards);
    if (told == MST_OK) {
        prepare_all(helpers, threads);
        told = mst_sharded_commit(writer, shard, number);
        crew_close(helpers->crew);
    } else if (told == MST_MEMORY) {
        *shard = shards;
    }
    free(helpers);
    return told;
}

static size_t least(size_t one, size_t other) {
    return one < other ? one : other;
}

/* More threads than shards, or than there can be edits in so many bytes, find nothing to do. */
static size_t useful(size_t threads, size_t shards, size_t length) {
    return least(threads, least(shards, length / EDIT_LEAST));
}

/* A thread that is cancelled goes on: the helpers have its parts, and the hand holds the block. */
int32_t mst_sharded_apply_in_threads(mst_handle *writer, const uint8_t *edits, size_t length,
                                     size_t threads, size_t *place, size_t *shard,
                                     uint64_t *number) {
    int32_t shards = mst_sharded_shards(writer), told = MST_WRONG_STATE;
    size_t most = shards > 0 ? useful(threads, (size_t)shards, length) : 0;
    int before;
    if (most > 1) {
        pthread_setcancelstate(PTHREAD_CANCEL_DISABLE, &before);
        told = make_by_crew(writer, edits, length, (size_t)shards, most - 1, place, shard, number);
        pthread_setcancelstate(before, &before);
    }
    /* by one thread; and of what is no writer this tells bad edits first */
    if (told == MST_WRONG_STATE)
        told = mst_sharded_apply(writer, edits, length, place, shard, number);
    return told;
}
