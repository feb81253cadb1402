/* Changes of proofs: bits flipped, bytes set, cuts, parts left out, doubled and put together. */
#ifndef MUTATING_H
#define MUTATING_H

#include "vectors.h"

enum { MOST = 4096, ROOM = 1 << 17 };

static struct vector lines[MOST];
static size_t count;

static uint64_t state = 0x9e3779b97f4a7c15u;

static inline size_t below(size_t limit)
{
    state ^= state << 13;
    state ^= state >> 7;
    state ^= state << 17;
    return limit ? state % limit : 0;
}

static inline size_t cut(size_t at, size_t length)
{
    return at < length ? at : length;
}

/* Reads the lines that have an answer, and in no proof too many bytes. */
static inline void read_answers(FILE *from)
{
    while (count < MOST && read_vector(from, &lines[count]))
        if (lines[count].told >= MST_ABSENT && lines[count].proof_length < ROOM / 4)
            count++;
        else
            free_vector(&lines[count]);
}

/* One change of the bytes, and their new length. */
static inline size_t change(uint8_t *bytes, size_t length)
{
    size_t at = below(length), n = 1 + below(40), rest;
    const struct vector *other = &lines[below(count)];
    switch (below(7)) {
    case 0: /* a bit flipped */
        if (length)
            bytes[at] ^= (uint8_t)(1u << below(8));
        return length;
    case 1: /* a byte set */
        if (length)
            bytes[at] = (uint8_t)below(256);
        return length;
    case 2: /* cut short */
        return at;
    case 3: /* a part left out */
        n = cut(n, length - at);
        memmove(bytes + at, bytes + at + n, length - at - n);
        return length - n;
    case 4: /* a part doubled */
        n = cut(n, length - at);
        memmove(bytes + at + n, bytes + at, length - at);
        return length + n;
    case 5: /* the front of one proof, the rest of another */
        rest = below(other->proof_length);
        memcpy(bytes + at, other->proof + rest, other->proof_length - rest);
        return at + other->proof_length - rest;
    default: /* a part of another proof in its place */
        rest = below(other->proof_length);
        n = cut(n, cut(other->proof_length - rest, length - at));
        memcpy(bytes + at, other->proof + rest, n);
        return length;
    }
}

#endif
