/*
 * What a call takes over a map whose keys stand in a file.
 *
 *     calls FORMAT FILE KEY_LENGTH KEYS CALL COUNT ROUNDS
 *
 * The map has the first KEYS keys of the file. CALL is `get`, `put` (of a new value), `prove`,
 * `batch-10`, `batch-100` or `batch-1000`: writes the nanoseconds of one call, of a batch those of
 * one of its puts, in the fastest of ROUNDS rounds of COUNT calls, by the processor time of the
 * thread. `move` puts the whole map into a new store, page by page and then by one batch: writes
 * the nanoseconds of the fastest of ROUNDS. `proofs` writes the mean and the greatest number of
 * bytes of COUNT proofs, and how many pairs one shows on average. Writes `none` where the store has
 * too few rows for a call.
 */
#include "../common.h"
#include "map.h"
#include <stdio.h>
#include <stdlib.h>
#include <string.h>

#define PROOF_MOST (8u << 20)
#define PAGE_PAIRS 1000

struct task {
    uint32_t format;
    struct keys keys;
    size_t size; /* keys of the map */
    mst_pass pass;
    uint64_t state; /* of the random choice of keys */
    size_t batch;   /* puts of a batch */
    struct batch edits;
};

static uint8_t room[PROOF_MOST];

static size_t drawn(struct task *task) {
    return (size_t)(mixed(task->state++) % task->size);
}

static int32_t get(struct task *task) {
    const uint8_t *key = key_at(&task->keys, drawn(task));
    return mst_get(&task->pass, key, task->keys.length, room, MST_VALUE_LONGEST);
}

static int32_t put_again(struct task *task) {
    uint64_t number = task->state;
    return put(&task->pass, &task->keys, drawn(task), number + (1ull << 40));
}

/* The proof of a key. Its length stands in *length. */
static int32_t prove(struct task *task, size_t *length) {
    const uint8_t *key = key_at(&task->keys, drawn(task));
    return mst_prove(&task->pass, key, task->keys.length, room, sizeof room, length);
}

static int32_t prove_one(struct task *task) {
    size_t length;
    return prove(task, &length);
}

static int32_t put_batch(struct task *task) {
    for (size_t i = 0; i < task->batch; i++) {
        uint64_t number = task->state;
        add_put(&task->edits, &task->keys, drawn(task), number + (1ull << 40));
    }
    return apply(&task->pass, &task->edits);
}

/* Puts all pairs of the map into a new store, as after a writer has died. */
static int32_t move(struct task *task) {
    static uint8_t page[PAGE_PAIRS * MST_PAIR_LONGEST];
    struct batch batch = new_batch(task->size);
    uint8_t last[MST_KEY_LONGEST];
    size_t last_length = 0, count = 0, length = 0;
    mst_pass fresh = MST_PASS_CLOSED;
    open_store(task->format, MST_ROWS_MOST, &fresh, 1);
    while (mst_page_after(&task->pass, last, last_length, NULL, 0, PAGE_PAIRS, page, sizeof page,
                          &count, &length) == MST_OK && count > 0) {
        mst_pair pair;
        for (size_t at = 0; at < length;) {
            at = mst_pair_at(page, at, &pair);
            batch.length = mst_edit_put(batch.edits, batch.length, pair.key, pair.key_length,
                                        pair.value, pair.value_length);
        }
        last_length = pair.key_length;
        memcpy(last, pair.key, last_length);
    }
    int32_t told = apply(&fresh, &batch);
    free_batch(&batch);
    mst_close(&fresh);
    return told;
}

struct call {
    const char *name;
    int32_t (*make)(struct task *task);
    size_t puts; /* of a batch */
};

static const struct call calls[] = {
    {"get", get, 1},
    {"put", put_again, 1},
    {"prove", prove_one, 1},
    {"batch-10", put_batch, 10},
    {"batch-100", put_batch, 100},
    {"batch-1000", put_batch, 1000},
    {"move", move, 1},
};

/* The seconds of a round, or less than 0 if the store has too few rows. */
static double round_of(struct task *task, const struct call *call, long count) {
    double before = seconds_of(CLOCK_THREAD_CPUTIME_ID);
    for (long i = 0; i < count; i++) {
        int32_t told = call->make(task);
        if (told == MST_NO_FREE_ROWS)
            return -1;
        if (told < MST_OK)
            give_up(call->name, told);
    }
    return seconds_of(CLOCK_THREAD_CPUTIME_ID) - before;
}

static void time_rounds(struct task *task, const struct call *call, long count, long rounds) {
    double least = 0;
    task->batch = call->puts;
    for (long i = 0; i < rounds; i++) {
        double took = round_of(task, call, count);
        if (took < 0) {
            printf("none\n");
            return;
        }
        least = i == 0 || took < least ? took : least;
    }
    printf("%.1f\n", least * 1e9 / ((double)count * (double)call->puts));
}

/* The pairs in a proof of a key: each text has its number of entries behind two bytes. */
static size_t pairs_of(const uint8_t *proof, size_t length) {
    size_t pairs = 0;
    for (size_t at = 2; at + 8 <= length;) {
        const uint8_t *text = proof + at + 4;
        pairs += (size_t)text[2] << 8 | text[3];
        at += 4 + ((size_t)proof[at] << 24 | (size_t)proof[at + 1] << 16
                   | (size_t)proof[at + 2] << 8 | proof[at + 3]);
    }
    return pairs;
}

static void tell_proofs(struct task *task, long count) {
    size_t all = 0, most = 0, pairs = 0;
    for (long i = 0; i < count; i++) {
        size_t length = 0;
        int32_t told = prove(task, &length);
        if (told != MST_OK)
            give_up("mst_prove", told);
        all += length;
        most = length > most ? length : most;
        pairs += pairs_of(room, length);
    }
    printf("%.0f %zu %.0f\n", (double)all / (double)count, most, (double)pairs / (double)count);
}

static void make(struct task *task, const char *name, long count, long rounds) {
    if (strcmp(name, "proofs") == 0) {
        tell_proofs(task, count);
        return;
    }
    for (size_t i = 0; i < sizeof calls / sizeof calls[0]; i++)
        if (strcmp(calls[i].name, name) == 0) {
            time_rounds(task, &calls[i], count, rounds);
            return;
        }
    give_up(name, 0);
}

int main(int argc, char **argv) {
    if (argc != 8)
        give_up("calls FORMAT FILE KEY_LENGTH KEYS CALL COUNT ROUNDS", argc);
    struct task task = {.format = (uint32_t)atol(argv[1]),
                        .keys = read_keys(argv[2], (size_t)atol(argv[3])),
                        .size = (size_t)atol(argv[4]),
                        .state = 1ull << 30,
                        .edits = new_batch(1000)};
    long count = atol(argv[6]), rounds = atol(argv[7]);
    if (task.size < 1 || count < 1 || rounds < 1)
        give_up("KEYS, COUNT, ROUNDS", 0);
    open_store(task.format, MST_ROWS_MOST, &task.pass, 1);
    load(&task.pass, &task.keys, 0, task.size);
    make(&task, argv[5], count, rounds);
    mst_close(&task.pass);
    return 0;
}
