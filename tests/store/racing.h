/* Threads that each work through a pass of their own, and what they ask of it again and again. */
#ifndef RACING_H
#define RACING_H

#include "calls.h"
#include <pthread.h>

#define MOST_THREADS 8

/* What a thread does with its pass: whether all went as it should. */
struct work {
    int (*does)(mst_pass *pass, int number);
    mst_pass *pass;
    int number; /* which of the threads of its kind it is */
    int is_right;
};

static inline void *works(void *given) {
    struct work *work = given;
    work->is_right = work->does(work->pass, work->number);
    return NULL;
}

/* Runs threads side by side until all have ended: whether all went as it should. */
static inline int all_work(struct work *each, int count) {
    pthread_t threads[MOST_THREADS];
    int started = 0, right = count <= MOST_THREADS;
    while (right && started < count)
        if (pthread_create(&threads[started], NULL, works, &each[started]) == 0)
            started++;
        else
            right = 0;
    for (int i = 0; i < started; i++)
        right = pthread_join(threads[i], NULL) == 0 && each[i].is_right && right;
    return right;
}

/* Whether the store goes to format 2 and back this often, each time once the turn is free. */
static inline int moves_to_and_fro(mst_pass *pass, int times) {
    for (int i = 0; i < times; i++)
        if (mst_migrate(pass, 2) != 1 || mst_migrate(pass, 1) != 2)
            return 0;
    return 1;
}

#endif
