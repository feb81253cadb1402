/* The parts of a block: a part is taken by who comes first. */
#include "crew.h"

size_t crew_size(size_t count) {
    return sizeof(struct crew) + count * sizeof(mst_handle);
}

void crew_init(struct crew *crew, size_t count) {
    static const mst_handle closed = MST_HANDLE_CLOSED;
    crew->count = count;
    atomic_init(&crew->next, 0);
    for (size_t at = 0; at < count; at++)
        crew->parts[at] = closed;
}

void crew_prepare(struct crew *crew) {
    size_t at;
    while ((at = atomic_fetch_add_explicit(&crew->next, 1, memory_order_relaxed)) < crew->count)
        mst_sharded_prepare(&crew->parts[at]);
}

void crew_close(struct crew *crew) {
    for (size_t at = 0; at < crew->count; at++)
        mst_sharded_close(&crew->parts[at]);
    atomic_store_explicit(&crew->next, 0, memory_order_relaxed);
}
