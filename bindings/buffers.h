/* What the library's C reads and writes of edits in a buffer. */
#ifndef BUFFERS_H
#define BUFFERS_H

#include <stddef.h>
#include <stdint.h>

/*
 * Whether these bytes are edits that none of the calls refuses as bad. Then bytes that follow them
 * are read as the next edits, and not as part of the last one.
 */
int is_batch(const uint8_t *edits, size_t length);

/*
 * Turns the `count` pairs that stand `count` bytes into the room to as many puts from its beginning
 * on: a put is a byte, and then what stands in a room of a pair.
 */
void turn_to_puts(uint8_t *room, size_t count);

#endif
