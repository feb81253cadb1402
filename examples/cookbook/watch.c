/* Watches a store: its free rows, who pins, a writer that has died; and moves to a new store. */
#include "mst_store.h"
#include <pthread.h>
#include <stdatomic.h>
#include <stdio.h>
#include <string.h>
#include <time.h>

#define TEXT(text) (const uint8_t *)(text), sizeof(text) - 1

enum { WRITER, OTHER_WRITER, REPORT, SPARE, PASSES };

enum {
    KEYS = 18000,
    LEAST_FREE = 2 * (KEYS * 17 / 16), /* (1 + S) * W: a batch may change all keys, and S = 1 */
    ROWS = 65000,                      /* for these, for the map, and some more */
    FALLS = 3,                         /* so many polls, each with fewer free rows: a pin is old */
    LONGEST_WRITE = 2000               /* microseconds; less than a batch here takes */
};

/* The program's own list, since no call tells who pins: by pass, which version, since when. */
static struct entry { const char *who; uint64_t version; time_t since; } pins[PASSES];
static pthread_mutex_t pins_lock = PTHREAD_MUTEX_INITIALIZER;

static void list(int at, struct entry entry) {
    pthread_mutex_lock(&pins_lock);
    pins[at] = entry;
    pthread_mutex_unlock(&pins_lock);
}

static void pin(mst_pass *passes, int at, const char *who) {
    struct entry entry = {who, 0, time(NULL)};
    mst_pin(&passes[at]);
    mst_version(&passes[at], &entry.version);
    list(at, entry);
}

static void unpin(mst_pass *passes, int at) {
    mst_unpin(&passes[at]);
    list(at, (struct entry){NULL, 0, 0});
}

/* The entry of a version that is pinned; that of nobody if the list has none. */
static struct entry entry_of(uint64_t version) {
    struct entry found = {NULL, version, 0};
    pthread_mutex_lock(&pins_lock);
    for (int at = 0; at < PASSES; at++)
        if (pins[at].who != NULL && pins[at].version == version
            && (found.who == NULL || pins[at].since < found.since))
            found = pins[at];
    pthread_mutex_unlock(&pins_lock);
    return found;
}

/* Tells of the oldest version that is pinned. One that is not in the list is of a read that is just
   being made, or of a thread that has ended within a read. */
static void tell_pin(uint64_t version) {
    struct entry found = entry_of(version);
    printf("free rows fall: version %d is pinned by ", (int)version);
    if (found.who == NULL)
        puts("a read");
    else
        printf("%s, for %.0f minutes\n", found.who, difftime(time(NULL), found.since) / 60);
}

/* What the polls before have found. */
struct watch { uint32_t free_rows; int falls; };

/* A poll, every few seconds, by the spare pass. */
static void look(struct watch *watch, mst_pass *spare) {
    uint64_t pinned[MST_PASSES_MOST]; /* the oldest first */
    size_t count = 0;
    uint32_t free_rows = 0;

    if (mst_free_rows(spare, &free_rows) != MST_OK
        || mst_pinned_versions(spare, pinned, MST_PASSES_MOST, &count) != MST_OK) {
        puts("another pass has the turn"); /* MST_BUSY; `put` tells whether it ever ends */
        return;
    }
    watch->falls = free_rows < watch->free_rows ? watch->falls + 1 : 0;
    watch->free_rows = free_rows;
    int is_old = watch->falls >= FALLS && count > 0, is_full = free_rows < LEAST_FREE;
    if (is_old)
        tell_pin(pinned[0]);
    if (is_full)
        puts("fewer rows are free than (1 + S) * W");
    if (!is_old && !is_full)
        puts("all is well");
}

/* Gives some keys a value, by one batch. */
static int32_t change(mst_pass *pass, int first, int count, uint8_t value) {
    static uint8_t edits[KEYS * MST_EDIT_LONGEST];
    size_t length = 0, place = 0;
    char key[16];

    for (int number = first; number < first + count; number++) {
        size_t size = (size_t)snprintf(key, sizeof key, "key %05d", number);
        length = mst_edit_put(edits, length, (const uint8_t *)key, size, &value, 1);
    }
    return mst_apply(pass, edits, length, &place);
}

/* A report pins a version and is forgotten, while a writer goes on, until the list tells of it. */
static void watch_pins(mst_pass *passes) {
    struct watch watch = {0, 0};

    look(&watch, &passes[SPARE]);
    pin(passes, REPORT, "the report");
    for (int poll = 0; poll < 4; poll++) {
        change(&passes[WRITER], 2000 * poll, 2000, 'x');
        look(&watch, &passes[SPARE]);
    }
    unpin(passes, REPORT);
    change(&passes[WRITER], 0, 1, 'y'); /* the next write finds the rows free */
    look(&watch, &passes[SPARE]);
}

/*
 * Puts a pair. Returns MST_BUSY if another pass has had the turn for longer than a write takes, and
 * has made no version: its thread has ended within a write, or stands still.
 */
static int32_t put(mst_pass *pass, const uint8_t *key, size_t key_length, const uint8_t *value,
                   size_t value_length) {
    uint64_t before, now = 0;
    int32_t told;

    mst_version(pass, &now);
    do {
        before = now;
        told = mst_put_within(pass, key, key_length, value, value_length, NULL, 0, LONGEST_WRITE);
        mst_version(pass, &now);
    } while (told == MST_BUSY && now != before);
    return told;
}

static atomic_int is_over;

/* Stands for a writer that has died: it has the turn for nearly all of the time. */
static void *write_on(void *pass) {
    while (!atomic_load(&is_over))
        change(pass, 0, KEYS, 'z');
    return NULL;
}

/* Opens a new store with the map that the spare pass pins. */
static int32_t move(mst_pass *spare, mst_pass *fresh) {
    static uint8_t pairs[KEYS * MST_PAIR_LONGEST], edits[KEYS * MST_EDIT_LONGEST];
    uint8_t roots[2][MST_ROOT_LENGTH];
    size_t count = 0, length = 0, size = 0, place = 0;
    mst_pair pair;

    int32_t told = mst_range(spare, NULL, 0, NULL, 0, KEYS, pairs, sizeof pairs, &count, &length);
    for (size_t at = 0; told == MST_OK && at < length;) {
        at = mst_pair_at(pairs, at, &pair);
        size = mst_edit_put(edits, size, pair.key, pair.key_length, pair.value, pair.value_length);
    }
    if (told == MST_OK)
        told = mst_open((uint32_t)mst_format(spare), ROWS, fresh, PASSES);
    if (told == MST_OK)
        told = mst_apply(&fresh[WRITER], edits, size, &place);
    if (told == MST_OK) {
        mst_root(spare, roots[0], MST_ROOT_LENGTH);
        mst_root(&fresh[WRITER], roots[1], MST_ROOT_LENGTH);
        int is_equal = memcmp(roots[0], roots[1], MST_ROOT_LENGTH) == 0;
        printf("moved %zu keys: %s\n", count, is_equal ? "equal root digests" : "another map");
    }
    return told;
}

/* Puts until the alarm, moves, and puts once more. */
static int32_t watch_writer(mst_pass *old, mst_pass *fresh) {
    pthread_t thread;
    int32_t told;

    pthread_create(&thread, NULL, write_on, &old[WRITER]);
    do
        told = put(&old[OTHER_WRITER], TEXT("key 00000"), TEXT("1"));
    while (told >= MST_ABSENT);
    if (told == MST_BUSY) {
        puts("a writer has died: nobody else writes, and reads go on");
        pin(old, SPARE, "the move");
        told = move(&old[SPARE], fresh);
        unpin(old, SPARE);
    }
    if (told == MST_OK) /* from here on all threads use the new passes */
        told = put(&fresh[OTHER_WRITER], TEXT("key 00000"), TEXT("2"));
    atomic_store(&is_over, 1);
    pthread_join(thread, NULL);
    return told;
}

int main(void) {
    static mst_pass old[PASSES], fresh[PASSES]; /* closed, since static */

    int32_t told = mst_open(1, ROWS, old, PASSES);
    if (told == MST_OK)
        told = change(&old[WRITER], 0, KEYS, 'w');
    if (told == MST_OK) {
        watch_pins(old);
        told = watch_writer(old, fresh);
    }
    if (told < MST_ABSENT)
        fprintf(stderr, "%s\n", mst_error_text(told));
    for (int at = 0; at < PASSES; at++) {
        mst_close(&old[at]);
        mst_close(&fresh[at]);
    }
    return told < MST_ABSENT;
}
