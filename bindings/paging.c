/* Ranges that begin behind a key. */
#include "mst_store.h"
#include "paging.h"
#include <string.h>

size_t least_above(const uint8_t *key, size_t length, uint8_t *above) {
    memcpy(above, key, length);
    if (length < MST_KEY_LONGEST) {
        above[length] = 0;
        return length + 1;
    }
    while (length > 0 && above[length - 1] == 0xFF)
        length--;
    if (length > 0)
        above[length - 1]++;
    return length;
}

int32_t mst_page_after(mst_pass *pass, const uint8_t *after, size_t after_length,
                       const uint8_t *to, size_t to_length, uint32_t limit,
                       uint8_t *room, size_t room_length, size_t *count, size_t *length) {
    uint8_t from[MST_KEY_LONGEST];
    size_t from_length = after_length;
    /* mst_range refuses what is longer, after the tests that come first */
    if (after_length > 0 && after_length <= MST_KEY_LONGEST) {
        from_length = least_above(after, after_length, from);
        after = from;
        /* no key follows: a range of no pairs, which refuses what another one would */
        if (from_length == 0)
            limit = 0;
    }
    return mst_range(pass, after, from_length, to, to_length, limit, room, room_length,
                     count, length);
}
