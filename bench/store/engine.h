/*
 * What is timed: a map of keys of 16 bytes and values of 32, unless the compiler is told other
 * lengths, through seats, one for each thread. Each call ends the program if the map returns
 * anything other than it has to.
 */
#ifndef ENGINE_H
#define ENGINE_H

#include <stddef.h>
#include <stdint.h>

#ifndef KEY_LENGTH
#define KEY_LENGTH 16 /* 8 to 32 */
#endif
#ifndef VALUE_LENGTH
#define VALUE_LENGTH 32 /* 8 to 64 */
#endif
#define RANGE_PAIRS 100
#define SEATS 2
#define BATCH_MOST 32768

#ifdef __cplusplus
extern "C" {
#endif

struct engine {
    const char *name;
    void (*open)(void);
    void (*close)(void);
    void (*put)(int seat, const uint8_t *key, const uint8_t *value);
    /* puts by the first seat, at most BATCH_MOST of them, which `commit` makes as one version */
    void (*start)(void);
    void (*add)(const uint8_t *key, const uint8_t *value);
    void (*commit)(void);
    /* reads of the newest version, which each call finds anew */
    void (*get)(int seat, const uint8_t *key);
    void (*next)(int seat, const uint8_t *key);
    void (*range)(int seat, const uint8_t *key);
    /* reads of one version, between begin and end */
    void (*begin)(int seat);
    void (*end)(int seat);
    void (*get_within)(int seat, const uint8_t *key);
    /* the proof of the key's answer; null if the engine has none */
    void (*prove)(int seat, const uint8_t *key);
};

extern const struct engine store_engine;
extern const struct engine lmdb_engine;
extern const struct engine sqlite_engine;
extern const struct engine map_engine;

/* Ends the program. */
void give_up(const char *what, int code);

#ifdef __cplusplus
}
#endif

#endif
