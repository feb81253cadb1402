/* Choices that are the same in each run, and pairs of keys and values that they make. */
#ifndef PAIRS_H
#define PAIRS_H

#include "mst_store.h"
#include <string.h>

#define KEYS 1000            /* of how many keys all pairs are */
#define BETWEEN_NEIGHBOURS 5 /* each so many keys one is the key before it and a zero byte */

struct pair {
    uint8_t key[MST_KEY_LONGEST], value[MST_VALUE_LONGEST];
    size_t key_length, value_length;
};

/* The next number by the generator SplitMix64 (Steele, Lea and Flood 2014). */
static inline uint64_t next_number(uint64_t *chance) {
    *chance += 0x9e3779b97f4a7c15u;
    uint64_t first = (*chance ^ (*chance >> 30)) * 0xbf58476d1ce4e5b9u;
    uint64_t second = (first ^ (first >> 27)) * 0x94d049bb133111ebu;
    return second ^ (second >> 31);
}

static inline uint32_t number_below(uint64_t *chance, uint32_t bound) {
    return (uint32_t)(next_number(chance) % bound);
}

static inline void choose_bytes(uint64_t *chance, uint8_t *bytes, size_t length) {
    for (size_t i = 0; i < length; i++)
        bytes[i] = (uint8_t)number_below(chance, 256);
}

/* The key of a number, of any length, which has its bytes from the number; the value is empty. */
static inline struct pair pair_of(uint32_t number) {
    struct pair pair = {{0}, {0}, 0, 0};
    int is_neighbour = number % BETWEEN_NEIGHBOURS == BETWEEN_NEIGHBOURS - 1;
    uint64_t own = is_neighbour ? number - 1 : number;
    pair.key_length = 1 + number_below(&own, MST_KEY_LONGEST);
    choose_bytes(&own, pair.key, pair.key_length);
    if (is_neighbour && pair.key_length < MST_KEY_LONGEST)
        pair.key_length++;
    return pair;
}

/* One of the keys, and a value of any length. */
static inline struct pair choose_pair(uint64_t *chance) {
    struct pair pair = pair_of(number_below(chance, KEYS));
    pair.value_length = number_below(chance, MST_VALUE_LONGEST + 1);
    choose_bytes(chance, pair.value, pair.value_length);
    return pair;
}

/* Below 0, 0 or above 0 as the key of one is below, equal to or above that of the other. */
static inline int order(const struct pair *one, const struct pair *other) {
    size_t least = one->key_length < other->key_length ? one->key_length : other->key_length;
    int told = memcmp(one->key, other->key, least);
    if (told != 0)
        return told;
    return (one->key_length > other->key_length) - (one->key_length < other->key_length);
}

/* Whether a call has told the length of the pair's value, and its bytes stand first in the room. */
static inline int is_value(int32_t told, const uint8_t *room, const struct pair *pair) {
    return told == (int32_t)pair->value_length && memcmp(room, pair->value, (size_t)told) == 0;
}

static inline int is_key(const uint8_t *key, size_t length, const struct pair *pair) {
    return length == pair->key_length && memcmp(key, pair->key, length) == 0;
}

#endif
