/*
 * A copy of a snapshot's pairs into the map of another writer, as one block. What is listed of a
 * snapshot is a put of each pair but for a byte, so the list is turned to edits in its own place.
 */
#include "buffers.h"
#include "mst_store.h"
#include <stdlib.h>

/* All pairs of the snapshot, in a room or, if that is too short, only their count and length. */
static int32_t list(mst_handle *snapshot, uint8_t *room, size_t room_length, size_t *count,
                    size_t *length) {
    return mst_sharded_range(snapshot, NULL, 0, NULL, 0, UINT32_MAX, room, room_length, count,
                             length);
}

/* The pairs of the snapshot as puts, in memory that the caller gives back. */
static int32_t list_puts(mst_handle *snapshot, uint8_t **puts, size_t *length) {
    size_t count = 0, of_pairs = 0;
    int32_t told = list(snapshot, NULL, 0, &count, &of_pairs);
    if (told != MST_OK && told != MST_SHORT_ROOM)
        return told;
    /* a byte more, since a malloc may give none for no bytes */
    *length = of_pairs + count;
    *puts = malloc(*length + 1);
    if (*puts == NULL)
        return MST_MEMORY;
    /* a snapshot has the same pairs again */
    told = list(snapshot, *puts + count, of_pairs, &count, &of_pairs);
    if (told == MST_OK)
        turn_to_puts(*puts, count);
    else
        free(*puts);
    return told;
}

int32_t mst_sharded_copy(mst_handle *snapshot, mst_handle *writer, size_t *shard,
                         uint64_t *number) {
    uint8_t *puts;
    size_t length, place; /* no pair of a map is a bad edit, so no place is told */
    int32_t told = list_puts(snapshot, &puts, &length);
    if (told == MST_MEMORY) {
        int32_t shards = mst_sharded_shards(writer);
        if (shards > 0)
            *shard = (size_t)shards;
    }
    if (told != MST_OK)
        return told;
    told = mst_sharded_apply(writer, puts, length, &place, shard, number);
    free(puts);
    return told;
}
