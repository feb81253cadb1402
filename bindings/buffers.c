/* The pairs, edits and splits that stand in a caller's buffer. */
#include "buffers.h"
#include "mst_store.h"
#include <string.h>

enum { PUT = 1, REMOVE = 2 };

/* The most that a length in two bytes tells, which is out of the limits of keys and values. */
enum { LENGTH_MOST = 0xFFFF };

/* The bytes of an edit before its key: its kind and two lengths. */
enum { HEAD = 5 };

static size_t length_at(const uint8_t *bytes) {
    return (size_t)bytes[0] << 8 | bytes[1];
}

static void put_length(uint8_t *bytes, size_t length) {
    bytes[0] = (uint8_t)(length >> 8);
    bytes[1] = (uint8_t)length;
}

static void copy(uint8_t *to, const uint8_t *from, size_t length) {
    if (length > 0)
        memcpy(to, from, length);
}

size_t mst_pair_at(const uint8_t *room, size_t at, mst_pair *pair) {
    const uint8_t *bytes = room + at;
    pair->key_length = length_at(bytes);
    pair->value_length = length_at(bytes + 2);
    pair->key = bytes + 4;
    pair->value = pair->key + pair->key_length;
    return at + 4 + pair->key_length + pair->value_length;
}

/* Of a length out of its limits it writes the lengths alone, so that the edit is refused. */
static size_t edit_at(uint8_t *room, size_t at, uint8_t kind, const uint8_t *key, size_t key_length,
                      const uint8_t *value, size_t value_length) {
    uint8_t *bytes = room + at;
    size_t keys = key_length < LENGTH_MOST ? key_length : LENGTH_MOST;
    size_t values = value_length < LENGTH_MOST ? value_length : LENGTH_MOST;
    bytes[0] = kind;
    put_length(bytes + 1, keys);
    put_length(bytes + 3, values);
    if (keys > MST_KEY_LONGEST || values > MST_VALUE_LONGEST)
        return at + HEAD;
    copy(bytes + HEAD, key, keys);
    copy(bytes + HEAD + keys, value, values);
    return at + HEAD + keys + values;
}

size_t mst_edit_put(uint8_t *room, size_t at, const uint8_t *key, size_t key_length,
                    const uint8_t *value, size_t value_length) {
    return edit_at(room, at, PUT, key, key_length, value, value_length);
}

size_t mst_edit_remove(uint8_t *room, size_t at, const uint8_t *key, size_t key_length) {
    return edit_at(room, at, REMOVE, key, key_length, NULL, 0);
}

/* Whether these five bytes begin an edit of a known kind, whose lengths are within their limits. */
static int begins_edit(const uint8_t *bytes) {
    size_t keys = length_at(bytes + 1), values = length_at(bytes + 3);
    return keys > 0 && keys <= MST_KEY_LONGEST && values <= MST_VALUE_LONGEST
        && (bytes[0] == PUT || (bytes[0] == REMOVE && values == 0));
}

int is_batch(const uint8_t *edits, size_t length) {
    size_t at = 0;
    while (length - at >= HEAD && begins_edit(edits + at)) {
        size_t bytes = HEAD + length_at(edits + at + 1) + length_at(edits + at + 3);
        if (length - at < bytes)
            return 0;
        at += bytes;
    }
    return at == length;
}

/* Each put ends before the next pair begins: it has moved by a byte less than the one before. */
void turn_to_puts(uint8_t *room, size_t count) {
    size_t put = 0, pair = count;
    for (size_t at = 0; at < count; at++) {
        mst_pair its;
        size_t length = mst_pair_at(room, pair, &its) - pair;
        room[put] = PUT;
        memmove(room + put + 1, room + pair, length);
        put += 1 + length;
        pair += length;
    }
}

/* Of a key that is too long it writes a length alone that no split has. */
size_t mst_split(uint8_t *room, size_t at, const uint8_t *key, size_t key_length) {
    int fits = key_length <= MST_KEY_LONGEST;
    room[at] = fits ? (uint8_t)key_length : 0xFF;
    if (!fits)
        return at + 1;
    copy(room + at + 1, key, key_length);
    return at + 1 + key_length;
}
