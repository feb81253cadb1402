/*
 * Blocks of edits over a sharded map, whose keys stand in a file, while snapshots are held.
 *
 *     blocks FORMAT FILE KEY_LENGTH KEYS SHARDS ROWS EDITS BLOCKS SNAPSHOTS LASTS
 *
 * Loads KEYS keys into SHARDS shards of ROWS rows, and makes BLOCKS blocks of EDITS new values at
 * random keys. SNAPSHOTS readers hold a snapshot each, one after the other: each lasts for LASTS
 * blocks. Ends at the first refusal. Writes the nanoseconds of a block, of processor time: the
 * median, the 99th percentile and the worst; the same of a new snapshot with its root digest; and
 * the megabytes that the process has in memory, with the map opened and at the end.
 */
#include "../common.h"
#include "../samples.h"
#include "map.h"
#include <stdio.h>
#include <stdlib.h>

#define LOADED 4096 /* keys of a block while the map is filled */

static mst_handle handles[MST_PASSES_MOST]; /* the writer, and the readers */

static void expect(const char *what, int32_t told) {
    if (told < MST_OK)
        give_up(what, told);
}

/* Opens the map with shards of equal intervals, since the keys are random. */
static void open_map(uint32_t format, size_t shards, uint32_t rows, size_t count) {
    static uint8_t splits[MST_SPLITS_MOST * MST_SPLIT_LONGEST];
    size_t length = 0;
    for (size_t shard = 1; shard < shards; shard++) {
        uint32_t first = (uint32_t)(((uint64_t)shard << 32) / shards);
        uint8_t key[4] = {(uint8_t)(first >> 24), (uint8_t)(first >> 16), (uint8_t)(first >> 8),
                          (uint8_t)first};
        length = mst_split(splits, length, key, sizeof key);
    }
    expect("mst_sharded_open", mst_sharded_open(format, rows, splits, length, handles, count));
}

/* Makes the batch as one block, and empties it. */
static void apply_all(struct batch *batch) {
    size_t place, shard = 0;
    uint64_t number;
    int32_t told = mst_sharded_apply(&handles[0], batch->edits, batch->length, &place, &shard,
                                     &number);
    if (told != MST_OK)
        fprintf(stderr, "shard %zu refused its part\n", shard);
    expect("mst_sharded_apply", told);
    batch->length = 0;
}

static void fill(struct keys *keys, size_t size) {
    struct batch batch = new_batch(LOADED);
    for (size_t place = 0; place < size; place++) {
        add_put(&batch, keys, place, place);
        if ((place + 1) % LOADED == 0 || place + 1 == size)
            apply_all(&batch);
    }
    free_batch(&batch);
}

/* Takes the snapshot of a reader anew, with its root digest. */
static void renew(mst_handle *reader, int is_taken) {
    uint8_t root[MST_ROOT_LENGTH];
    if (is_taken)
        expect("mst_sharded_release", mst_sharded_release(reader));
    expect("mst_sharded_snapshot", mst_sharded_snapshot(reader));
    expect("mst_sharded_root", mst_sharded_root(reader, root, sizeof root));
}

struct load {
    struct keys keys;
    size_t size, edits, blocks, snapshots, lasts;
};

static void make_blocks(struct load *load, struct samples *of_blocks,
                        struct samples *of_snapshots) {
    struct batch batch = new_batch(load->edits);
    size_t apart = load->lasts / load->snapshots;
    uint64_t state = 1ull << 40;
    for (size_t block = 0; block < load->blocks; block++) {
        for (size_t edit = 0; edit < load->edits; edit++, state++)
            add_put(&batch, &load->keys, (size_t)(mixed(state) % load->size), state);
        double from = seconds_of(CLOCK_THREAD_CPUTIME_ID);
        apply_all(&batch);
        add_sample(of_blocks, seconds_of(CLOCK_THREAD_CPUTIME_ID) - from);
        size_t place = block / apart;
        if (block % apart != 0)
            continue;
        from = seconds_of(CLOCK_THREAD_CPUTIME_ID);
        renew(&handles[1 + place % load->snapshots], place >= load->snapshots);
        add_sample(of_snapshots, seconds_of(CLOCK_THREAD_CPUTIME_ID) - from);
    }
    free_batch(&batch);
}

int main(int argc, char **argv) {
    if (argc != 11)
        give_up("blocks FORMAT FILE KEY_LENGTH KEYS SHARDS ROWS EDITS BLOCKS SNAPSHOTS LASTS", 0);
    struct load load = {read_keys(argv[2], (size_t)atol(argv[3])), (size_t)atol(argv[4]),
                        (size_t)atol(argv[7]), (size_t)atol(argv[8]), (size_t)atol(argv[9]),
                        (size_t)atol(argv[10])};
    double before = resident();
    open_map((uint32_t)atol(argv[1]), (size_t)atol(argv[5]), (uint32_t)atol(argv[6]),
             1 + load.snapshots);
    double opened = resident() - before;
    fill(&load.keys, load.size);
    struct samples of_blocks = new_samples(load.blocks), of_snapshots = new_samples(load.blocks);
    make_blocks(&load, &of_blocks, &of_snapshots);
    print_samples(&of_blocks);
    print_samples(&of_snapshots);
    printf("%.0f %.0f\n", opened / 1e6, (resident() - before) / 1e6);
    for (size_t handle = 0; handle <= load.snapshots; handle++)
        mst_sharded_close(&handles[handle]);
    return 0;
}
