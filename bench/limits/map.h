/*
 * A store whose keys stand in a file, for the programs of this folder: `run` makes the files. Each
 * call ends the program if the store returns anything other than it has to.
 */
#ifndef MAP_H
#define MAP_H

#include "mst_store.h"
#include <stddef.h>
#include <stdint.h>

#define VALUE_LENGTH 32

/* The keys of a file, one after the other, all of one length. */
struct keys {
    uint8_t *bytes;
    size_t length, count;
};

_Noreturn void give_up(const char *what, int code);

struct keys read_keys(const char *path, size_t length);

const uint8_t *key_at(const struct keys *keys, size_t place);

/* Writes the value of a number. */
void value_of(uint8_t *value, uint64_t number);

/* Opens a store with a pass in each of the hands. */
void open_store(uint32_t format, uint32_t rows, mst_pass *passes, size_t count);

void close_store(mst_pass *passes, size_t count);

/* Puts the value of a number at a key. Returns what mst_put returns. */
int32_t put(mst_pass *pass, const struct keys *keys, size_t place, uint64_t number);

/* Puts that many keys, from a place on, by one batch. */
void load(mst_pass *pass, const struct keys *keys, size_t from, size_t count);

/* A batch that is being written. */
struct batch {
    uint8_t *edits;
    size_t length;
};

struct batch new_batch(size_t edits);

void add_put(struct batch *batch, const struct keys *keys, size_t place, uint64_t number);

void add_remove(struct batch *batch, const struct keys *keys, size_t place);

/* Makes the batch, and empties it. Returns what mst_apply returns. */
int32_t apply(mst_pass *pass, struct batch *batch);

void free_batch(struct batch *batch);

/* The bytes that the process has in memory. */
double resident(void);

#endif
