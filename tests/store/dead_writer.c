/*
 * A thread that ends during a write keeps the turn for good. A migration asks for memory while it
 * has the turn; this malloc, which stands before glibc's own, then ends the thread by the system
 * call, so that nothing of the library's is undone. Afterwards each write returns MST_BUSY, and
 * reads, pins and proofs of the other passes go on as before. In the end the map moves to a new
 * store, as docs/OPERATING.md says.
 */
#include "tests.h"
#include <pthread.h>
#include <stdatomic.h>
#include <stdlib.h>
#include <sys/syscall.h>
#include <unistd.h>

#define ROUNDS 1000

extern void *__libc_malloc(size_t size);

static _Thread_local int ends; /* whether the next malloc of this thread ends it */
static atomic_int ended_in_malloc;

static mst_pass passes[3];
static mst_pass *writer = &passes[0], *free_pass = &passes[1], *pinned = &passes[2];
static uint8_t root[32], room[64];

void *malloc(size_t size) {
    if (ends) {
        atomic_store(&ended_in_malloc, 1);
        syscall(SYS_exit, 0);
    }
    return __libc_malloc(size);
}

static void *migrates(void *unused) {
    ends = 1;
    mst_migrate(writer, 2);
    return unused;
}

/* All that a pass reads is of the version before the migration. */
static void reads(mst_pass *pass) {
    uint8_t key[32], proof[256], now[32], pairs[2 * MST_PAIR_LONGEST];
    size_t length = 0, count = 0;
    uint64_t version = 0;
    EXPECT(mst_get(pass, TEXT("a"), room, sizeof room) == 1 && room[0] == '1');
    EXPECT(mst_next(pass, TEXT("a"), key, sizeof key, &length, room, sizeof room) == 1);
    EXPECT(length == 1 && key[0] == 'b' && room[0] == '2');
    EXPECT(mst_range(pass, NULL, 0, NULL, 0, 2, pairs, sizeof pairs, &count, &length) == MST_OK);
    EXPECT(count == 2);
    EXPECT(mst_prove(pass, TEXT("a"), proof, sizeof proof, &length) == MST_OK && proof[0] == 1);
    EXPECT(mst_root(pass, now, sizeof now) == 32 && memcmp(now, root, 32) == 0);
    EXPECT(mst_version(pass, &version) == MST_OK && version == 2 && mst_format(pass) == 1);
}

static void no_write_is_made(void) {
    uint8_t edits[MST_EDIT_LONGEST];
    size_t place = 0, length = mst_edit_put(edits, 0, TEXT("a"), TEXT("3"));
    EXPECT(mst_try_put(free_pass, TEXT("a"), TEXT("3"), room, sizeof room) == MST_BUSY);
    EXPECT(mst_try_remove(free_pass, TEXT("a"), room, sizeof room) == MST_BUSY);
    EXPECT(mst_try_apply(free_pass, edits, length, &place) == MST_BUSY);
    EXPECT(mst_try_migrate(free_pass, 2) == MST_BUSY);
}

/* Counts need the turn too, and so does the list of pinned versions. */
static void no_count_is_told(void) {
    uint32_t rows = 0;
    size_t count = 0;
    EXPECT(mst_free_rows(free_pass, &rows) == MST_BUSY && mst_rows(free_pass, &rows) == MST_BUSY);
    EXPECT(mst_pinned_versions(free_pass, NULL, 0, &count) == MST_BUSY);
}

/* The pairs of the pinned version go into a new store, which has its root digest and is written. */
static void moves_to_a_new_store(void) {
    uint8_t pairs[2 * MST_PAIR_LONGEST], edits[2 * MST_EDIT_LONGEST], now[32];
    size_t count = 0, length = 0, edits_length = 0, place = 0;
    mst_pass fresh = MST_PASS_CLOSED;
    mst_pair pair;
    EXPECT(mst_page_after(pinned, NULL, 0, NULL, 0, 2, pairs, sizeof pairs, &count, &length)
           == MST_OK);
    for (size_t at = 0; at < length;) {
        at = mst_pair_at(pairs, at, &pair);
        edits_length = mst_edit_put(edits, edits_length, pair.key, pair.key_length, pair.value,
                                    pair.value_length);
    }
    EXPECT(mst_open(1, 64, &fresh, 1) == MST_OK);
    EXPECT(mst_apply(&fresh, edits, edits_length, &place) == MST_OK);
    EXPECT(mst_root(&fresh, now, sizeof now) == 32 && memcmp(now, root, 32) == 0);
    EXPECT(mst_put(&fresh, TEXT("c"), TEXT("3"), room, sizeof room) == MST_ABSENT);
    EXPECT(mst_close(&fresh) == MST_OK);
}

int main(void) {
    pthread_t thread;
    EXPECT(mst_open(1, 64, passes, 3) == MST_OK);
    EXPECT(mst_put(writer, TEXT("a"), TEXT("1"), room, sizeof room) == MST_ABSENT);
    EXPECT(mst_put(writer, TEXT("b"), TEXT("2"), room, sizeof room) == MST_ABSENT);
    EXPECT(mst_pin(pinned) == MST_OK && mst_root(pinned, root, sizeof root) == 32);
    EXPECT(pthread_create(&thread, NULL, migrates, NULL) == 0);
    EXPECT(pthread_join(thread, NULL) == 0 && atomic_load(&ended_in_malloc) == 1);
    for (int i = 0; i < ROUNDS; i++) {
        reads(free_pass);
        reads(pinned);
        EXPECT(mst_pin(free_pass) == MST_OK);
        reads(free_pass);
        EXPECT(mst_unpin(free_pass) == MST_OK);
        no_write_is_made();
        no_count_is_told();
    }
    moves_to_a_new_store();
    EXPECT(mst_unpin(pinned) == MST_OK);
    reads(pinned);
    EXPECT(mst_close(free_pass) == MST_OK && mst_close(pinned) == MST_OK);
    return ended("dead_writer");
}
