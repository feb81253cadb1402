/*
 * The line of a store: which of its passes have waited long for the turn, and since when. Each pass
 * has a place in it, to which its hand points. Nobody needs what stands there for a right answer:
 * it only says who should try first, so it may be late, or be that of a thread that has died.
 */
#ifndef LINE_H
#define LINE_H

#include "mst_store.h"
#include <stdatomic.h>

/* What one pass writes for the others, in a cache line of its own. */
struct place {
    struct line *line;
    _Atomic uint64_t since; /* when the pass began to wait, if it stands in line; otherwise 0 */
    _Atomic uint64_t seen;  /* when it was last seen to wait */
    uint64_t padding[5];
};

/* It begins at a cache line, and so does each place: it and they have 64 bytes. */
struct line {
    atomic_uint standing; /* how many places have a `since` */
    atomic_uint passes;   /* how many passes have not been closed */
    size_t count;
    void *block; /* what was allocated */
    uint64_t padding[5];
    struct place places[];
};

/* Gives each pass of a new store a place. Returns whether there was memory; otherwise none has. */
int line_open(mst_pass *passes, size_t count);

/* Takes the place from a pass that was closed. The line goes with its last pass. */
void line_close(mst_pass *pass);

/* Whether any pass stands in the line of this place: one load. */
static inline int line_stands(const struct place *place) {
    return atomic_load_explicit(&place->line->standing, memory_order_relaxed) != 0;
}

/* The pass stands in line, since `since`, and was seen `now`. */
void line_stand(struct place *place, uint64_t since, uint64_t now);

/* It stands there no more, if it did. */
void line_leave(struct place *place);

/*
 * How many passes stand in line that have waited since before `since`. Those that have given no
 * sign for a while are taken out.
 */
size_t line_ahead(struct place *place, uint64_t since, uint64_t now);

#endif
