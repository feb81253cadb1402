/*
 * When a store is full, over keys that stand in a file.
 *
 *     full FORMAT FILE KEY_LENGTH ROWS PINS FROM
 *     full FORMAT FILE KEY_LENGTH ROWS pinned KEYS PUTS
 *     full FORMAT FILE KEY_LENGTH ROWS stuck KEYS REMOVED
 *     full FORMAT FILE KEY_LENGTH ROWS memory KEYS PUTS
 *     full FORMAT FILE KEY_LENGTH ROWS opening OPENINGS
 *
 * The first loads FROM keys by one batch and puts new keys one by one, until a put is refused for
 * want of rows: writes how many keys the map then has. At each put the PINS versions before the
 * current one are pinned.
 *
 * `pinned` loads KEYS keys, pins that version, and puts new values at random keys until a put is
 * refused: writes how many were made, or `no refusal in PUTS`. `stuck` loads KEYS keys and
 * writes what a put of a new value, a remove, and a batch that removes REMOVED keys return.
 * `memory` writes the bytes that the process has in memory for each row: once the store is opened,
 * once KEYS keys are put one by one, and after PUTS puts of new values at random keys. `opening`
 * writes the milliseconds of processor time in which a store is opened, the least of OPENINGS.
 */
#include "../common.h"
#include "map.h"
#include <stdio.h>
#include <stdlib.h>
#include <string.h>

static mst_pass passes[MST_PASSES_MOST];
static struct keys keys;
static uint32_t format, rows;

static int32_t put_random(mst_pass *pass, size_t size, uint64_t number) {
    return put(pass, &keys, (size_t)(mixed(number) % size), number + (1ull << 40));
}

static void move_pin(mst_pass *pass, int is_pinned) {
    int32_t told = is_pinned ? mst_unpin(pass) : MST_OK;
    if (told == MST_OK)
        told = mst_pin(pass);
    if (told != MST_OK)
        give_up("a pin", told);
}

/* A version is pinned while it is current, so there is a pass more than older versions. */
static void tell_most_keys(size_t pins, size_t from) {
    size_t pinning = pins > 0 ? pins + 1 : 0, place = from;
    int32_t told = MST_ABSENT;
    open_store(format, rows, passes, pinning + 1);
    load(&passes[0], &keys, 0, from);
    for (size_t turn = 0; told == MST_ABSENT; turn++) {
        if (pinning > 0)
            move_pin(&passes[1 + turn % pinning], turn >= pinning);
        told = put(&passes[0], &keys, place, place);
        place += told == MST_ABSENT;
    }
    if (told != MST_NO_FREE_ROWS)
        give_up("mst_put", told);
    printf("%zu\n", place);
    close_store(passes, pinning + 1);
}

static void tell_until_full(size_t size, long most) {
    int32_t told = VALUE_LENGTH;
    long puts = 0;
    open_store(format, rows, passes, 2);
    load(&passes[0], &keys, 0, size);
    move_pin(&passes[1], 0);
    for (; puts < most && told == VALUE_LENGTH; puts += told == VALUE_LENGTH)
        told = put_random(&passes[0], size, (uint64_t)puts);
    if (told == MST_NO_FREE_ROWS)
        printf("%ld\n", puts);
    else if (told == VALUE_LENGTH)
        printf("no refusal in %ld\n", puts);
    else
        give_up("mst_put", told);
    close_store(passes, 2);
}

static void tell_stuck(size_t size, size_t removed) {
    struct batch batch = new_batch(removed);
    uint8_t old[MST_VALUE_LONGEST];
    open_store(format, rows, passes, 1);
    load(&passes[0], &keys, 0, size);
    int32_t of_put = put(&passes[0], &keys, 0, 1ull << 40);
    int32_t of_remove = mst_remove(&passes[0], key_at(&keys, 0), keys.length, old, sizeof old);
    for (size_t place = 0; place < removed; place++)
        add_remove(&batch, &keys, place);
    printf("%d %d %d\n", of_put, of_remove, apply(&passes[0], &batch));
    free_batch(&batch);
    close_store(passes, 1);
}

/* Opens a store, again and again, and writes how long that takes at least. */
static void tell_opening(size_t openings) {
    double least = 0;
    for (size_t opening = 0; opening < openings; opening++) {
        double from = seconds_of(CLOCK_THREAD_CPUTIME_ID);
        open_store(format, rows, passes, 1);
        double took = seconds_of(CLOCK_THREAD_CPUTIME_ID) - from;
        least = opening == 0 || took < least ? took : least;
        close_store(passes, 1);
    }
    printf("%.3g\n", least * 1e3);
}

static void tell_memory(size_t size, long puts) {
    double before = resident();
    open_store(format, rows, passes, 1);
    printf("%.0f", (resident() - before) / rows);
    for (size_t place = 0; place < size; place++)
        if (put(&passes[0], &keys, place, place) != MST_ABSENT)
            give_up("mst_put", (int)place);
    printf(" %.0f", (resident() - before) / rows);
    for (long number = 0; number < puts; number++)
        if (put_random(&passes[0], size, (uint64_t)number) != VALUE_LENGTH)
            give_up("mst_put", (int)number);
    printf(" %.0f\n", (resident() - before) / rows);
    close_store(passes, 1);
}

int main(int argc, char **argv) {
    if (argc < 7)
        give_up("full FORMAT FILE KEY_LENGTH ROWS ..", argc);
    format = (uint32_t)atol(argv[1]);
    keys = read_keys(argv[2], (size_t)atol(argv[3]));
    rows = (uint32_t)atol(argv[4]);
    size_t size = (size_t)atol(argv[6]);
    long more = argc > 7 ? atol(argv[7]) : 0;
    if (strcmp(argv[5], "pinned") == 0)
        tell_until_full(size, more);
    else if (strcmp(argv[5], "stuck") == 0)
        tell_stuck(size, (size_t)more);
    else if (strcmp(argv[5], "memory") == 0)
        tell_memory(size, more);
    else if (strcmp(argv[5], "opening") == 0)
        tell_opening(size);
    else
        tell_most_keys((size_t)atol(argv[5]), size);
    return 0;
}
