/*
 * What is timed: a map of keys of 16 bytes and values of 32, through seats, one for each thread.
 * Each call ends the program if the map returns anything other than it has to.
 */
#ifndef ENGINE_H
#define ENGINE_H

#include <stddef.h>
#include <stdint.h>

#define KEY_LENGTH 16
#define VALUE_LENGTH 32
#define PAIR_LENGTH (KEY_LENGTH + VALUE_LENGTH)
#define SEATS 4
#define SHARDS_MOST 1024
#define PAIRS_MOST 10000 /* what is put at once */

struct engine {
    const char *name;
    /* an empty map for a number of random keys, in a number of parts of equal size */
    void (*open)(size_t keys, size_t shards);
    void (*close)(void);
    /* a put that waits for its turn, of a key that had a value or had none */
    void (*put)(int seat, const uint8_t *key, const uint8_t *value);
    /* puts of at most PAIRS_MOST pairs, each a key and its value, as one version of the whole */
    void (*put_all)(const uint8_t *pairs, size_t count);
    void (*get)(int seat, const uint8_t *key);
    /* a version of the whole, which stays until the end */
    void (*begin)(int seat);
    void (*end)(int seat);
    /* the root digest of a version that was begun, and a proof of the key against it; null if the
       engine has none */
    void (*root)(int seat);
    void (*prove)(int seat, const uint8_t *key);
};

extern const struct engine sharded_engine;
extern const struct engine lmdb_engine;

/* Ends the program. */
_Noreturn void give_up(const char *what, int code);

#endif
