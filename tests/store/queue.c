/*
 * The queue of a group, without a store: which requests are made as one block, in which order, and
 * by which thread, also if one comes before the one that was called is awake; what each is told;
 * refused edits, refused memory, threads that are cancelled or have a signal.
 *
 *     queue [REQUESTS]        of each of eight threads that write without a pause
 *
 * With a number no signals are sent: helgrind takes a wait that one cuts short for a fault.
 */
#include "asks.h"
#include <signal.h>
#include <unistd.h>

/* ---- tests ---- */

/* Whether an edit of this kind and these lengths is good, in front of one that is. */
static int is_good(uint8_t kind, size_t key_length, size_t value_length) {
    static const uint8_t bytes[MST_VALUE_LONGEST + 1] = {'k'};
    uint8_t edits[400] = {0};
    put_length(edits + 1, key_length);
    put_length(edits + 3, value_length);
    edits[0] = kind;
    size_t length = mst_edit_put(edits, HEAD + key_length + value_length, bytes, 1, bytes, 1);
    return is_batch(edits, length);
}

/* What goes into a buffer with others: whole edits that no call refuses as bad. */
static void judging(void) {
    uint8_t edits[2 * MST_EDIT_LONGEST];
    size_t first = mst_edit_put(edits, 0, (const uint8_t *)"key", 3, (const uint8_t *)"value", 5);
    size_t both = mst_edit_remove(edits, first, (const uint8_t *)"other", 5);
    EXPECT(is_batch(NULL, 0));
    for (size_t length = 0; length <= both; length++)
        EXPECT(is_batch(edits, length) == (length == 0 || length == first || length == both));
    EXPECT(is_good(1, 1, 0) && is_good(1, 32, 64) && is_good(2, 32, 0) && is_good(2, 1, 0));
    EXPECT(!is_good(0, 1, 0) && !is_good(3, 1, 0) && !is_good(255, 1, 0) && !is_good(2, 1, 1));
    EXPECT(!is_good(1, 0, 1) && !is_good(1, 33, 1) && !is_good(1, 1, 65) && !is_good(2, 0, 0));
    EXPECT(!is_good(1, 256, 1) && !is_good(1, 1, 256));
}

static void openings(void) {
    mst_sharded_group *none = NULL;
    EXPECT(mst_sharded_group_open(&hand, &none) == MST_CLOSED && none == NULL);
    hand.at = &tag;
    is_reader = 1;
    EXPECT(mst_sharded_group_open(&hand, &none) == MST_WRONG_STATE && none == NULL);
    is_reader = 0;
    is_empty_handed = 1;
    EXPECT(mst_sharded_group_open(&hand, &none) == MST_MEMORY && none == NULL && hand.at == &tag);
    is_empty_handed = 0;
    EXPECT(mst_sharded_group_open(&hand, &group) == MST_OK && hand.at == NULL);
}

/* What waits is made as one block, by the thread that came first. */
static void together(void) {
    for (int at = 1; at < 6; at++)
        puts_key(at, at == 3 ? "a longer key" : "k");
    begin_all(6);
    end_all(6);
    EXPECT(called == 2 && is_alone(0, 0) && is_by(0, 0) && atomic_load(&grants) == 1);
    EXPECT(is_of(1, 1, 5) && is_by(1, 1) && calls[1].last == 5);
    EXPECT(is_made(0, 1));
    for (int at = 1; at < 6; at++)
        EXPECT(is_made(at, 2));
}

/* One of five is refused: each of them is then made alone, in the order in which they came. */
static void one_refused(void) {
    for (int at = 1; at < 6; at++)
        puts_key(at, at == 3 ? "x" : "k");
    begin_all(6);
    end_all(6);
    EXPECT(called == 7 && is_of(1, 1, 5) && calls[1].told == MST_NO_FREE_ROWS);
    for (int at = 1; at < 6; at++)
        EXPECT(is_alone((size_t)at + 1, at) && is_by((size_t)at + 1, 1));
    EXPECT(is_made(0, 1) && is_made(1, 2) && is_made(2, 3) && is_made(4, 4) && is_made(5, 5));
    EXPECT(is_refused(3, MST_NO_FREE_ROWS, 77, 3));
}

static void without_memory(void) {
    for (int at = 1; at < 4; at++)
        puts_key(at, "k");
    begin_all(4);
    is_empty_handed = 1;
    end_all(4);
    is_empty_handed = 0;
    EXPECT(called == 4 && atomic_load(&grants) == 1);
    for (int at = 0; at < 4; at++)
        EXPECT(is_alone((size_t)at, at) && is_made(at, (uint64_t)at + 1));
}

/*
 * Edits that are cut short, so that the request behind them would give them what they lack, are
 * alone; those before them and behind them are blocks, each by the first of its threads.
 */
static void cut_short(void) {
    for (int at = 1; at < 6; at++)
        puts_key(at, "k");
    asks[3].length -= 1;
    begin_all(6);
    end_all(6);
    EXPECT(called == 4 && is_of(1, 1, 2) && is_alone(2, 3) && is_of(3, 4, 5));
    EXPECT(is_by(1, 1) && is_by(2, 3) && is_by(3, 4));
    EXPECT(is_made(1, 2) && is_made(2, 2) && is_made(4, 3) && is_made(5, 3));
    EXPECT(is_refused(3, MST_BAD_BATCH, 1, 77));
    /* and so are those that come first */
    for (int at = 1; at < 3; at++)
        puts_key(at, "k");
    asks[1].length -= 1;
    begin_all(3);
    end_all(3);
    EXPECT(called == 3 && is_alone(1, 1) && is_alone(2, 2) && is_by(2, 2) && is_made(2, 2));
}

/* Gives the thread edits of this many bytes, each of a key of 32 bytes without a value. */
static void puts_bytes(int at, size_t bytes) {
    static const uint8_t key[MST_KEY_LONGEST] = {'k'};
    size_t length = 0, each = HEAD + sizeof key;
    while (length + each <= bytes)
        length = mst_edit_put(long_edits[at], length, key, sizeof key, NULL, 0);
    if (length < bytes) /* the last key is shorter, and so may be the one before */
        length = mst_edit_put(long_edits[at], length - each, key, (each + bytes - length) / 2 - 5,
                              NULL, 0);
    if (length < bytes)
        length = mst_edit_put(long_edits[at], length, key, bytes - length - HEAD, NULL, 0);
    EXPECT(length == bytes && is_batch(long_edits[at], length));
    asks[at].bytes = long_edits[at];
    asks[at].length = length;
}

/* A block of several has a megabyte at most; a request may have more, alone. */
static void long_ones(void) {
    puts_bytes(1, BLOCK_MOST / 2);
    puts_bytes(2, BLOCK_MOST / 2);
    puts_bytes(3, BLOCK_MOST / 2);
    puts_bytes(4, BLOCK_MOST / 2 + 1);
    puts_bytes(5, BLOCK_MOST + 37);
    puts_key(6, "k");
    asks[7].bytes = NULL;
    asks[7].length = 0;
    begin_all(8);
    end_all(8);
    EXPECT(called == 6 && is_of(1, 1, 2) && is_alone(2, 3) && is_alone(3, 4) && is_alone(4, 5));
    EXPECT(is_of(5, 6, 7) && is_by(5, 6) && atomic_load(&grants) == 2);
    EXPECT(is_made(1, 2) && is_made(2, 2) && is_made(3, 3) && is_made(4, 4) && is_made(5, 5));
    EXPECT(is_made(6, 6) && is_made(7, 6));
}

/* Requests of no edits are made together too. */
static void of_no_edits(void) {
    for (int at = 1; at < 4; at++) {
        asks[at].bytes = NULL;
        asks[at].length = 0;
    }
    begin_all(4);
    end_all(4);
    EXPECT(called == 2 && calls[1].length == 0 && is_made(1, 2) && is_made(2, 2) && is_made(3, 2));
}

/* Threads that are cancelled while they wait, or while they lead, end after their calls. */
static void cancelled(void) {
    void *ended_by = NULL;
    for (int at = 1; at < 4; at++)
        puts_key(at, "k");
    begin_all(4);
    EXPECT(pthread_cancel(asks[0].thread) == 0 && pthread_cancel(asks[1].thread) == 0);
    EXPECT(pthread_cancel(asks[3].thread) == 0);
    open_gate(&writing);
    for (int at = 0; at < 4; at++) {
        EXPECT(pthread_join(asks[at].thread, &ended_by) == 0);
        EXPECT(ended_by == (at == 2 ? NULL : PTHREAD_CANCELED) && asks[at].is_told);
        EXPECT(is_made(at, at == 0 ? 1 : 2));
    }
    EXPECT(called == 2 && queued() == 0 && !group->is_led);
}

/* Two wait. Thread 0 has left the lead, but the first of the two sleeps on. */
static void begin_called(void) {
    begin_all(3);
    close_gate(&posting);
    open_gate(&writing);
    while (waiting_at(&posting) < 1)
        sched_yield();
}

/*
 * Who comes then makes a block of all three. The first of the two wakes up while it is made, and
 * waits on, although one more has come meanwhile.
 */
static void before_the_called(void) {
    for (int at = 1; at < 5; at++)
        puts_key(at, "k");
    begin_called();
    close_gate(&writing);
    begin(3);
    while (waiting_at(&writing) < 1)
        sched_yield();
    begin(4);
    while (queued() < 1)
        sched_yield();
    open_gate(&posting);
    usleep(5000);
    end_all(5);
    EXPECT(called == 3 && is_of(1, 1, 3) && is_by(1, 3) && calls[1].last == 3 && is_by(2, 4));
    EXPECT(is_made(0, 1) && is_made(1, 2) && is_made(2, 2) && is_made(3, 2) && is_made(4, 3));
}

/* But it waits if that block would not have its edits. */
static void behind_the_called(void) {
    for (int at = 1; at < 4; at++)
        puts_bytes(at, BLOCK_MOST / 2);
    begin_called();
    begin(3);
    while (queued() < 3)
        sched_yield();
    open_gate(&posting);
    end_all(4);
    EXPECT(called == 3 && is_of(1, 1, 2) && is_by(1, 1) && is_alone(2, 3) && is_by(2, 3));
    EXPECT(is_made(0, 1) && is_made(1, 2) && is_made(2, 2) && is_made(3, 3));
}

/* ---- threads that help ---- */

/* Two or more wait, awake, and the first of them is about to begin their block. */
static void begin_watchful(int count) {
    for (int at = 1; at < count; at++)
        puts_key(at, "k");
    atomic_store(&is_watchful, 1);
    atomic_store(&helped, 0);
    begin_all(count);
    close_gate(&posting);
    open_gate(&writing);
    while (waiting_at(&posting) < 1)
        sched_yield();
    close_gate(&writing);
    open_gate(&posting);
    while (waiting_at(&writing) < 1)
        sched_yield();
}

static void end_watchful(int count) {
    end_all(count);
    atomic_store(&is_watchful, 0);
    EXPECT(called == 2 && is_of(1, 1, count - 1) && is_by(1, 1));
    for (int at = 1; at < count; at++)
        EXPECT(is_made(at, 2));
}

/* While the thread that leads is held up at its first part, the others prepare the rest. */
static void helped_by_all(void) {
    begin_watchful(4);
    close_gate(&preparing);
    open_gate(&writing);
    while (atomic_load(&helped) < SHARDS - 1)
        usleep(100);
    open_gate(&preparing);
    end_watchful(4);
    EXPECT(atomic_load(&helped) >= SHARDS - 1);
}

/* A thread that has heard the call too late finds nothing to do, and nobody waits for it. */
static void helped_too_late(void) {
    begin_watchful(3);
    close_gate(&hearing);
    open_gate(&writing);
    EXPECT(pthread_join(asks[1].thread, NULL) == 0 && called == 2);
    EXPECT(!atomic_load(&asks[2].is_told) && atomic_load(&helped) == 0);
    open_gate(&hearing);
    EXPECT(pthread_join(asks[2].thread, NULL) == 0 && is_made(1, 2) && is_made(2, 2));
    EXPECT(pthread_join(asks[0].thread, NULL) == 0 && queued() == 0 && !prepared_wrongly);
    atomic_store(&is_watchful, 0);
}

/* The block is not made before a thread that helps is done. */
static void helped_for_long(void) {
    begin_watchful(3);
    close_gate(&helping);
    close_gate(&preparing);
    open_gate(&writing);
    while (waiting_at(&helping) < 1)
        usleep(100);
    open_gate(&preparing);
    while (prepared() < SHARDS - 1)
        usleep(100);
    usleep(5000);
    EXPECT(queued() == 0 && called == 1);
    open_gate(&helping);
    end_watchful(3);
    EXPECT(atomic_load(&helped) == 1);
}

static void passes(int signal) {
    (void)signal;
}

/* A signal ends no wait. */
static void signalled(void) {
    struct sigaction action = {.sa_handler = passes};
    EXPECT(sigaction(SIGUSR1, &action, NULL) == 0);
    puts_key(1, "k");
    begin_all(2);
    for (int times = 0; times < 5; times++) {
        usleep(2000);
        EXPECT(pthread_kill(asks[1].thread, SIGUSR1) == 0);
    }
    EXPECT(!atomic_load(&asks[1].is_told) && queued() == 1);
    end_all(2);
    EXPECT(called == 2 && is_by(1, 1) && is_made(0, 1) && is_made(1, 2));
}

/* ---- threads that write without a pause ---- */

static unsigned requests = 5000;

/* Puts its key, or a key that is refused; the numbers that it is told rise. */
static void *writes(void *given) {
    struct asks *own = given;
    uint8_t key = (uint8_t)(own - asks), bad = 'x', value = 0;
    uint64_t before = 0;
    pass_gate(&writing);
    for (unsigned at = 0; at < requests; at++) {
        int is_bad = (at + key) % 64 == 0;
        own->number = 0;
        value = (uint8_t)at;
        size_t length = mst_edit_put(own->edits, 0, is_bad ? &bad : &key, 1, &value, 1);
        int32_t told = mst_sharded_group_apply(group, own->edits, length, &own->place, &own->shard,
                                               &own->number);
        if (told != (is_bad ? MST_NO_FREE_ROWS : MST_OK) || (!is_bad && own->number <= before))
            return own;
        before = is_bad ? before : own->number;
    }
    own->number = before;
    return NULL;
}

/* The value that a thread has put last. */
static uint8_t last_value(int at) {
    unsigned last = requests - 1;
    return (uint8_t)(last - ((last + (unsigned)at) % 64 == 0));
}

static void many(void) {
    called = 0;
    blocks = 0;
    close_gate(&writing);
    for (int at = 0; at < THREADS; at++)
        EXPECT(pthread_create(&asks[at].thread, NULL, writes, &asks[at]) == 0);
    open_gate(&writing);
    uint64_t last = 0;
    for (int at = 0; at < THREADS; at++) {
        void *failed = NULL;
        EXPECT(pthread_join(asks[at].thread, &failed) == 0 && failed == NULL);
        EXPECT(values[at] == last_value(at));
        last = asks[at].number > last ? asks[at].number : last;
    }
    EXPECT(last == blocks && queued() == 0 && !group->is_led && !entered_by_two);
    EXPECT(!prepared_wrongly);
    printf("%u requests, %llu blocks, %ld parts by others\n", THREADS * requests,
           (unsigned long long)blocks, atomic_load(&helped));
}

int main(int count, char **words) {
    if (count > 1)
        requests = (unsigned)atoi(words[1]);
    judging();
    openings();
    together();
    one_refused();
    without_memory();
    cut_short();
    long_ones();
    of_no_edits();
    cancelled();
    before_the_called();
    behind_the_called();
    helped_by_all();
    helped_too_late();
    helped_for_long();
    if (count == 1)
        signalled();
    many();
    EXPECT(mst_sharded_group_close(group, &hand) == MST_OK && hand.at == &tag);
    return ended("queue");
}
