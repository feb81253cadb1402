/*
 * How many rows a store needs, over keys that stand in a file.
 *
 *     rows FORMAT FILE KEY_LENGTH KEYS EDITS BATCHES PINS LASTS
 *
 * Loads KEYS keys, and makes BATCHES batches of EDITS new values at random keys. PINS passes pin a
 * version each, one after the other: each pin lasts for LASTS batches. Writes the rows of the map,
 * the mean and the greatest number of rows that a batch took, and the most rows that were not free
 * at any time: a store of so many rows would have been enough.
 */
#include "../common.h"
#include "map.h"
#include <stdio.h>
#include <stdlib.h>

static mst_pass passes[MST_PASSES_MOST];
static mst_pass *const writer = &passes[0], *const counting = &passes[1];

static uint32_t free_rows(void) {
    uint32_t rows = 0;
    int32_t told = mst_free_rows(writer, &rows);
    if (told != MST_OK)
        give_up("mst_free_rows", told);
    return rows;
}

static void expect(int32_t told) {
    if (told != MST_OK)
        give_up("a call", told);
}

struct counts {
    double all;
    uint32_t greatest, least_free;
};

/* Makes a batch, whose rows stay countable while the version before is pinned. */
static void make_batch(struct batch *batch, struct counts *counts) {
    expect(mst_pin(counting));
    uint32_t before = free_rows();
    expect(apply(writer, batch));
    uint32_t after = free_rows(), taken = before - after;
    expect(mst_unpin(counting));
    counts->all += taken;
    counts->greatest = taken > counts->greatest ? taken : counts->greatest;
    counts->least_free = after < counts->least_free ? after : counts->least_free;
}

/* Lets the next of the pins begin, after each part of LASTS batches. */
static void renew_pin(size_t number, size_t pins, size_t lasts) {
    size_t apart = lasts / pins, place = number / apart;
    if (number % apart != 0)
        return;
    if (place >= pins)
        expect(mst_unpin(&passes[2 + place % pins]));
    expect(mst_pin(&passes[2 + place % pins]));
}

int main(int argc, char **argv) {
    if (argc != 9)
        give_up("rows FORMAT FILE KEY_LENGTH KEYS EDITS BATCHES PINS LASTS", argc);
    struct keys keys = read_keys(argv[2], (size_t)atol(argv[3]));
    size_t size = (size_t)atol(argv[4]), edits = (size_t)atol(argv[5]);
    size_t batches = (size_t)atol(argv[6]), pins = (size_t)atol(argv[7]);
    size_t lasts = (size_t)atol(argv[8]);
    struct counts counts = {0, 0, MST_ROWS_MOST};
    struct batch batch = new_batch(edits);
    uint64_t state = 1ull << 40;
    open_store((uint32_t)atol(argv[1]), MST_ROWS_MOST, passes, 2 + pins);
    load(writer, &keys, 0, size);
    uint32_t map = MST_ROWS_MOST - free_rows();
    for (size_t number = 0; number < batches; number++) {
        if (pins > 0)
            renew_pin(number, pins, lasts);
        for (size_t edit = 0; edit < edits; edit++, state++)
            add_put(&batch, &keys, (size_t)(mixed(state) % size), state);
        make_batch(&batch, &counts);
    }
    printf("%u %.0f %u %u\n", map, counts.all / (double)batches, counts.greatest,
           MST_ROWS_MOST - counts.least_free);
    free_batch(&batch);
    close_store(passes, 2 + pins);
    return 0;
}
