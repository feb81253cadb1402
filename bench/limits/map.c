#include "map.h"
#include <stdio.h>
#include <stdlib.h>
#include <string.h>
#include <unistd.h>

void give_up(const char *what, int code) {
    fprintf(stderr, "%s: %d\n", what, code);
    exit(1);
}

/* How many bytes the file has. */
static size_t size_of(FILE *file) {
    if (fseek(file, 0, SEEK_END) != 0)
        give_up("fseek", 0);
    long size = ftell(file);
    rewind(file);
    if (size < 0)
        give_up("ftell", 0);
    return (size_t)size;
}

struct keys read_keys(const char *path, size_t length) {
    FILE *file = fopen(path, "rb");
    if (!file || length < 1 || length > MST_KEY_LONGEST)
        give_up(path, 0);
    size_t size = size_of(file);
    struct keys keys = {malloc(size), length, size / length};
    if (!keys.bytes || fread(keys.bytes, 1, size, file) != size)
        give_up(path, 0);
    fclose(file);
    return keys;
}

const uint8_t *key_at(const struct keys *keys, size_t place) {
    if (place >= keys->count)
        give_up("the file has too few keys", (int)keys->count);
    return keys->bytes + place * keys->length;
}

void value_of(uint8_t *value, uint64_t number) {
    memset(value, 0, VALUE_LENGTH);
    memcpy(value, &number, sizeof number);
}

void open_store(uint32_t format, uint32_t rows, mst_pass *passes, size_t count) {
    memset(passes, 0, count * sizeof *passes);
    int32_t told = mst_open(format, rows, passes, count);
    if (told != MST_OK)
        give_up("mst_open", told);
}

void close_store(mst_pass *passes, size_t count) {
    for (size_t i = 0; i < count; i++)
        mst_close(&passes[i]);
}

int32_t put(mst_pass *pass, const struct keys *keys, size_t place, uint64_t number) {
    uint8_t value[VALUE_LENGTH], old[MST_VALUE_LONGEST];
    value_of(value, number);
    return mst_put(pass, key_at(keys, place), keys->length, value, VALUE_LENGTH, old, sizeof old);
}

struct batch new_batch(size_t edits) {
    struct batch batch = {malloc(edits * MST_EDIT_LONGEST), 0};
    if (!batch.edits)
        give_up("malloc", 0);
    return batch;
}

void add_put(struct batch *batch, const struct keys *keys, size_t place, uint64_t number) {
    uint8_t value[VALUE_LENGTH];
    value_of(value, number);
    batch->length = mst_edit_put(batch->edits, batch->length, key_at(keys, place), keys->length,
                                 value, VALUE_LENGTH);
}

void add_remove(struct batch *batch, const struct keys *keys, size_t place) {
    batch->length = mst_edit_remove(batch->edits, batch->length, key_at(keys, place), keys->length);
}

int32_t apply(mst_pass *pass, struct batch *batch) {
    size_t place;
    int32_t told = mst_apply(pass, batch->edits, batch->length, &place);
    batch->length = 0;
    return told;
}

void free_batch(struct batch *batch) {
    free(batch->edits);
}

void load(mst_pass *pass, const struct keys *keys, size_t from, size_t count) {
    struct batch batch = new_batch(count);
    for (size_t place = from; place < from + count; place++)
        add_put(&batch, keys, place, place);
    int32_t told = apply(pass, &batch);
    if (told != MST_OK)
        give_up("a load", told);
    free_batch(&batch);
}

double resident(void) {
    long pages = 0, all = 0;
    FILE *file = fopen("/proc/self/statm", "r");
    if (!file || fscanf(file, "%ld %ld", &all, &pages) != 2)
        give_up("/proc/self/statm", 0);
    fclose(file);
    return (double)pages * (double)sysconf(_SC_PAGESIZE);
}
