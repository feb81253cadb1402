/* Keys that follow each other. */
#ifndef PAGING_H
#define PAGING_H

#include <stddef.h>
#include <stdint.h>

/*
 * Writes the least key above one of 1 to 32 bytes, and returns its length, or 0 if there is none.
 * Below 32 bytes that is the key with a zero byte behind it. Behind a key of 32 bytes no longer one
 * follows, so it is the next number of its length, without the zero bytes at its end.
 */
size_t least_above(const uint8_t *key, size_t length, uint8_t *above);

#endif
