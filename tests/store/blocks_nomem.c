/*
 * A malloc that counts, and that refuses its n-th call: an opening of a sharded map leaves all hands
 * empty, a block, its parts, one by two threads and a copy leave the map and the number as they
 * were, each question leaves its snapshot as it was, and nothing is ever leaked.
 */
#include "heap.h"
#include "blocks.h"

static uint8_t proof[65536];

/* How many openings were refused before one was not. Nothing is leaked. */
static long openings(uint32_t format) {
    for (long n = 0; n < 4000; n++) {
        mst_handle hands[3] = {MST_HANDLE_CLOSED};
        live = 0;
        count_from(n);
        int32_t told = mst_sharded_open(format, 16, TEXT("\1b\1c"), hands, 3);
        count_on();
        for (int i = 0; i < 3; i++) {
            int32_t closed = mst_sharded_close(&hands[i]);
            EXPECT(closed == (told == MST_OK ? MST_OK : MST_CLOSED) && hands[i].at == NULL);
        }
        counting = 0;
        EXPECT(live == 0);
        EXPECT(told == MST_OK || told == MST_MEMORY);
        if (told == MST_OK)
            return n;
    }
    return -1;
}

/* Puts of ten keys into each of three shards. */
static void thirty_edits(uint8_t value) {
    length = 0;
    for (uint8_t at = 0; at < 30; at++) {
        uint8_t key[2] = {(uint8_t)("alz"[at % 3]), at};
        length = mst_edit_put(edits, length, key, 2, &value, 1);
    }
}

/* Whether all of these keys have the value. */
static int have(mst_handle *by, uint8_t value) {
    int all = 1;
    for (uint8_t at = 0; at < 30; at++) {
        uint8_t key[2] = {(uint8_t)("alz"[at % 3]), at};
        all = all && mst_sharded_get(by, key, 2, room, sizeof room) == 1 && room[0] == value;
    }
    return all;
}

/*
 * How many blocks were refused before one was not. None has changed anything, and each has told a
 * shard, or the number of the shards for the directory and for lists, in this order: lists, shards,
 * the directory.
 */
static long blocks(mst_handle *writer, mst_handle *reader) {
    long lists = 0, shards[3] = {0, 0, 0}, directory = 0;
    thirty_edits(1);
    EXPECT(made_by(writer) == MST_OK && number == 1);
    thirty_edits(2);
    for (long n = 0; n < 1000; n++) {
        place = shard = 77, number = 77;
        long before = live;
        count_from(n);
        int32_t told = made_by(writer);
        count_on();
        EXPECT(live == before && place == 77);
        if (told == MST_OK) {
            EXPECT(number == 2 && shard == 77 && have(reader, 2));
            EXPECT(lists > 0 && directory > 0 && shards[0] > 0 && shards[1] > 0 && shards[2] > 0);
            return n;
        }
        EXPECT(told == MST_MEMORY && number == 77 && shard <= 3);
        EXPECT(has_number(writer, 1) && have(reader, 1));
        EXPECT(mst_sharded_try_snapshot(reader) == MST_OK && has_number(reader, 1));
        EXPECT(have_one_root(writer, reader) && mst_sharded_release(reader) == MST_OK);
        if (shard < 3)
            shards[shard]++;
        else if (shards[2] == 0)
            lists++;
        else
            directory++;
    }
    return -1;
}

/* ---- the parts of a block ---- */

static mst_handle parts[3];

static void close_parts(void) {
    for (int i = 0; i < 3; i++)
        EXPECT(mst_sharded_close(&parts[i]) == MST_OK);
}

/* Whether the last block is this one, of puts of its number: the writer has it, and the reader. */
static int is_last(mst_handle *writer, mst_handle *reader, uint8_t block) {
    return has_number(writer, block) && have(reader, block)
        && mst_sharded_try_snapshot(reader) == MST_OK && have_one_root(writer, reader)
        && mst_sharded_release(reader) == MST_OK;
}

/* How many begins were refused before one was not. Then no hand has a part. */
static long begins(mst_handle *writer, mst_handle *reader) {
    for (long n = 0; n < 1000; n++) {
        long before = live;
        place = 77;
        count_from(n);
        int32_t told = mst_sharded_begin(writer, edits, length, &place, parts, 3);
        count_on();
        EXPECT(place == 77);
        if (told == MST_OK) {
            /* to take all back asks for no memory */
            asked = 0;
            count_from(0);
            EXPECT(mst_sharded_cancel(writer) == MST_OK && asked == 0);
            count_on();
            close_parts();
            EXPECT(live == before && is_last(writer, reader, 2));
            return n;
        }
        EXPECT(told == MST_MEMORY && live == before && is_last(writer, reader, 2));
        for (int i = 0; i < 3; i++)
            EXPECT(parts[i].at == NULL);
    }
    return -1;
}

/* How often a part was refused before it was not. The block is refused then, and names it. */
static long prepares(mst_handle *writer, mst_handle *reader, int at) {
    for (long n = 0; n < 1000; n++) {
        long before = live;
        shard = 77, number = 77;
        EXPECT(mst_sharded_begin(writer, edits, length, &place, parts, 3) == MST_OK);
        count_from(n);
        int32_t told = mst_sharded_prepare(&parts[at]);
        count_on();
        if (told == MST_OK)
            EXPECT(mst_sharded_cancel(writer) == MST_OK);
        else
            EXPECT(told == MST_MEMORY && mst_sharded_prepare(&parts[at]) == MST_MEMORY
                   && mst_sharded_commit(writer, &shard, &number) == MST_MEMORY
                   && shard == (size_t)at && number == 77);
        close_parts();
        EXPECT(live == before && is_last(writer, reader, 2));
        if (told == MST_OK)
            return n;
    }
    return -1;
}

/* How many commits were refused before one was not, with a part prepared before. */
static long commits(mst_handle *writer, mst_handle *reader) {
    for (long n = 0; n < 1000; n++) {
        long before = live;
        shard = 77, number = 77;
        EXPECT(mst_sharded_begin(writer, edits, length, &place, parts, 3) == MST_OK);
        EXPECT(mst_sharded_prepare(&parts[1]) == MST_OK);
        count_from(n);
        int32_t told = mst_sharded_commit(writer, &shard, &number);
        count_on();
        close_parts();
        EXPECT(live == before);
        if (told == MST_OK) {
            EXPECT(number == 3 && shard == 77 && have(reader, 3) && has_number(writer, 3));
            return n;
        }
        EXPECT(told == MST_MEMORY && shard <= 3 && shard != 1 && number == 77);
        EXPECT(is_last(writer, reader, 2));
    }
    return -1;
}

/*
 * How many blocks by two threads were refused before one was not. Which of both asks for memory
 * first is chance, but that for the hands comes before all else.
 */
static long by_threads(mst_handle *writer, mst_handle *reader) {
    thirty_edits(4);
    for (long n = 0; n < 1000; n++) {
        long before = live;
        place = shard = 77, number = 77;
        count_from(n);
        int32_t told =
            mst_sharded_apply_in_threads(writer, edits, length, 2, &place, &shard, &number);
        count_on();
        EXPECT(live == before && place == 77);
        if (told == MST_OK) {
            EXPECT(number == 4 && shard == 77 && is_last(writer, reader, 4));
            return n;
        }
        EXPECT(told == MST_MEMORY && number == 77 && (n == 0 ? shard == 3 : shard <= 3));
        EXPECT(is_last(writer, reader, 3));
    }
    return -1;
}

/* The block of twos is there; one of threes is made in the end. */
static long all_of_parts(mst_handle *writer, mst_handle *reader) {
    thirty_edits(3);
    long refused = begins(writer, reader);
    EXPECT(refused > 10);
    for (int at = 0; at < 3; at++) {
        long more = prepares(writer, reader, at);
        EXPECT(more > 0);
        refused += more;
    }
    long more = commits(writer, reader);
    EXPECT(more > 0);
    return refused + more;
}

/* ---- questions and copies ---- */

enum question { PROOF, RANGE, DIRECTORY };

static int32_t ask(mst_handle *then, enum question what, size_t *told) {
    size_t count = 0;
    switch (what) {
    case PROOF: return mst_sharded_prove(then, TEXT("key"), proof, sizeof proof, told);
    case RANGE:
        return mst_sharded_range(then, NULL, 0, NULL, 0, 99, proof, sizeof proof, &count, told);
    default: return mst_sharded_directory(then, proof, sizeof proof, &count, told);
    }
}

/* How many calls were refused before one was not. The snapshot goes on after each. */
static long asked_for(mst_handle *then, enum question what) {
    for (long n = 0; n < 400; n++) {
        size_t told = 7;
        long before = live;
        count_from(n);
        int32_t answer = ask(then, what, &told);
        count_on();
        EXPECT(live == before && have(then, 2) && has_number(then, 2));
        if (answer != MST_MEMORY) {
            EXPECT(answer == MST_OK && told != 7);
            return n;
        }
        EXPECT(told == 7);
    }
    return -1;
}

/* Snapshots and their short answers ask for no memory: the first growth would be refused. */
static void without_memory(uint32_t format, mst_handle *writer,
                           mst_handle *reader) {
    uint8_t key[MST_KEY_LONGEST];
    size_t told = 7;
    asked = 0;
    count_from(0);
    EXPECT(mst_sharded_shards(writer) == 3 && mst_sharded_shards(reader) == 3);
    EXPECT(mst_sharded_get(reader, TEXT("a"), room, 64) == MST_ABSENT);
    EXPECT(mst_sharded_get(writer, TEXT("a"), room, 64) == MST_ABSENT && have(writer, 2));
    EXPECT(mst_sharded_try_snapshot(reader) == MST_OK && have_one_root(writer, reader));
    EXPECT(has_number(writer, 2) && has_number(reader, 2) && have(reader, 2));
    EXPECT(mst_sharded_next(reader, NULL, 0, key, sizeof key, &told, room, 64) == 1 && told == 2);
    EXPECT(mst_sharded_format(reader) == (int32_t)format && mst_sharded_release(reader) == MST_OK);
    EXPECT(mst_sharded_snapshot(reader) == MST_OK && asked == 0);
    count_on();
}

/* Whether a copy that was refused has changed nothing: of lists it tells the number of shards. */
static int changes_nothing(int32_t told, mst_handle *then, mst_handle *other) {
    return told == MST_MEMORY && number == 77 && shard <= 2 && has_number(other, 0)
        && mst_sharded_get(other, (const uint8_t *)"a", 2, room, sizeof room) == MST_ABSENT
        && have(then, 2) && has_number(then, 2);
}

/* How many copies of a snapshot into another map of two shards were refused before one was not. */
static long copies(mst_handle *then, uint32_t format) {
    mst_handle other = MST_HANDLE_CLOSED;
    long lists = 0, n = 0;
    int32_t told = MST_MEMORY;
    EXPECT(mst_sharded_open(format, 64, TEXT("\1k"), &other, 1) == MST_OK);
    for (; told != MST_OK && n < 1000; n++) {
        shard = 77, number = 77;
        long before = live;
        count_from(n);
        told = mst_sharded_copy(then, &other, &shard, &number);
        count_on();
        EXPECT(live == before && (told == MST_OK || changes_nothing(told, then, &other)));
        lists += shard == 2;
    }
    EXPECT(told == MST_OK && number == 1 && shard == 77 && lists > 3 && have(&other, 2));
    EXPECT(mst_sharded_close(&other) == MST_OK);
    return n - 1;
}

static void of_format(uint32_t format) {
    mst_handle hands[2] = {MST_HANDLE_CLOSED, MST_HANDLE_CLOSED};
    long opened = openings(format);
    EXPECT(opened > 0);
    live = 0;
    count_from(-1);
    EXPECT(mst_sharded_open(format, 64, TEXT("\1b\1m"), hands, 2) == MST_OK);
    long refused = blocks(&hands[0], &hands[1]);
    EXPECT(refused > 10);
    without_memory(format, &hands[0], &hands[1]);
    long proofs = asked_for(&hands[1], PROOF), ranges = asked_for(&hands[1], RANGE);
    EXPECT(proofs > 0 && ranges > 0 && asked_for(&hands[1], DIRECTORY) > 0);
    long copied = copies(&hands[1], 3 - format);
    EXPECT(copied > 10 && mst_sharded_release(&hands[1]) == MST_OK);
    long of_parts = all_of_parts(&hands[0], &hands[1]);
    long threads = by_threads(&hands[0], &hands[1]);
    EXPECT(threads > 10);
    EXPECT(mst_sharded_close(&hands[0]) == MST_OK && mst_sharded_close(&hands[1]) == MST_OK);
    counting = 0;
    EXPECT(live == 0);
    printf("%ld openings, %ld blocks, %ld of parts, %ld by threads, %ld proofs, %ld ranges, "
           "%ld copies refused\n", opened, refused, of_parts, threads, proofs, ranges, copied);
}

int main(void) {
    of_format(1);
    of_format(2);
    return ended("blocks_nomem");
}
