/* The parts of a block, which several threads prepare. */
#ifndef CREW_H
#define CREW_H

#include "mst_store.h"
#include <stdatomic.h>

struct crew {
    size_t count;       /* of parts */
    atomic_size_t next; /* the first part that nobody has taken */
    mst_handle parts[];
};

/* How many bytes a crew of so many parts has. */
size_t crew_size(size_t count);

/* Parts that are not begun, in so many bytes. */
void crew_init(struct crew *crew, size_t count);

/* Prepares each part that nobody has taken yet: by any number of threads at the same time. What a
 * part returns does not count: the commit returns why a block is refused. */
void crew_prepare(struct crew *crew);

/* Closes the parts, so that they may be begun and prepared anew. */
void crew_close(struct crew *crew);

#endif
