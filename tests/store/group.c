/*
 * Threads that write blocks by a group, and a reader that takes snapshots meanwhile. Each thread
 * writes keys of its own, and with its neighbour a key that both share; each value tells by whom it
 * is, and by which request. The requests are then made once more, by the numbers that were told, in
 * a second map: wherever the reader looked it has the same root digest. Then some of the threads
 * have edits that are refused, which makes no request of another thread fail.
 *
 *     group [REQUESTS [READERS]]      of each thread; 0 or 1 reader
 */
#include "tests.h"
#include <pthread.h>
#include <stdlib.h>

enum {
    THREADS = 8, PAIRS = THREADS / 2, OWN_KEYS = 16, SHARDS = 8, BYTES = 5,
    LONG = 1000, REQUEST_MOST = LONG * MST_EDIT_LONGEST,
    MOST_REQUESTS = 20000, MOST_SEEN = 4096, MANY_KEYS = 100,
    REFUSED = 2, /* of the threads: these are refused each time */
    EDIT_BYTES = 5 + 3 + BYTES
};

/* Eight shards: the keys begin with the bytes 1 to 8. */
#define SPLITS "\1\2\1\3\1\4\1\5\1\6\1\7\1\10"

static uint32_t requests = 3000;
static int readers = 1;
static mst_sharded_group *group;
static mst_handle hands[3];

/* The numbers that each thread was told of its requests, which count from 1. */
static struct writer {
    uint64_t numbers[MOST_REQUESTS + 1];
} writers[THREADS];

/* What is shared with the reader. */
static pthread_mutex_t lock = PTHREAD_MUTEX_INITIALIZER;
static uint64_t told_most;
static int is_over;

/* What a snapshot has. */
static struct seen {
    uint64_t number;
    uint8_t root[MST_ROOT_LENGTH];
    uint8_t shared[PAIRS][BYTES];
    int has[PAIRS];
} seen[MOST_SEEN + 1]; /* and of the last block */
static size_t seen_count;

/* ---- requests ---- */

static void value_of(int thread, uint32_t request, uint8_t *value) {
    value[0] = (uint8_t)thread;
    for (int byte = 0; byte < 4; byte++)
        value[1 + byte] = (uint8_t)(request >> 8 * byte);
}

static void own_key(int thread, uint32_t at, uint8_t *key) {
    key[0] = (uint8_t)(1 + ((uint32_t)thread + at) % SHARDS);
    key[1] = (uint8_t)thread;
    key[2] = (uint8_t)(at % OWN_KEYS);
}

static void shared_key(int pair, uint8_t *key) {
    key[0] = (uint8_t)(1 + 2 * pair % SHARDS);
    key[1] = 0xFF;
    key[2] = (uint8_t)pair;
}

/* No long request is one of these. */
static int is_of_shared(uint32_t request) {
    return request % 4 == 0;
}

/* One thread now and then writes many keys, for so long that the others come meanwhile. */
static int is_long(int thread, uint32_t request) {
    return thread == 0 && request % 50 == 25;
}

static size_t write_long(const uint8_t *value, uint8_t *room, size_t at) {
    for (uint32_t number = 0; number < LONG; number++) {
        uint8_t key[4] = {(uint8_t)(1 + number % SHARDS), 0xFE, (uint8_t)(number >> 8),
                          (uint8_t)number};
        at = mst_edit_put(room, at, key, sizeof key, value, BYTES);
    }
    return at;
}

/* Writes up to three edits, or many, behind those in the room. Some requests have none. */
static size_t write_request(int thread, uint32_t request, uint8_t *room, size_t at) {
    uint8_t key[3], value[BYTES];
    value_of(thread, request, value);
    if (is_long(thread, request))
        return write_long(value, room, at);
    if (request % 101 == 0)
        return at;
    own_key(thread, request * 7, key);
    at = mst_edit_put(room, at, key, sizeof key, value, sizeof value);
    own_key(thread, request * 5 + 3, key);
    if (request % 3 == 0)
        at = mst_edit_remove(room, at, key, sizeof key);
    shared_key(thread / 2, key);
    if (is_of_shared(request))
        at = mst_edit_put(room, at, key, sizeof key, value, sizeof value);
    return at;
}

/* ---- threads ---- */

static void note(uint64_t number) {
    pthread_mutex_lock(&lock);
    told_most = number > told_most ? number : told_most;
    pthread_mutex_unlock(&lock);
}

static void *writes(void *given) {
    struct writer *own = given;
    int thread = (int)(own - writers);
    uint64_t *told = own->numbers;
    uint8_t edits[REQUEST_MOST];
    for (uint32_t request = 1; request <= requests; request++) {
        size_t length = write_request(thread, request, edits, 0), place = 77, shard = 77;
        if (mst_sharded_group_apply(group, edits, length, &place, &shard, &told[request])
            != MST_OK)
            return own;
        if (told[request] <= told[request - 1] || place != 77 || shard != 77)
            return own;
        note(told[request]);
    }
    return NULL;
}

/* Whether the snapshot is of a block that is not older than any that was told before it. */
static int looks(mst_handle *by, struct seen *now) {
    pthread_mutex_lock(&lock);
    uint64_t least = told_most;
    pthread_mutex_unlock(&lock);
    int is = mst_sharded_snapshot(by) == MST_OK && mst_sharded_number(by, &now->number) == MST_OK
        && mst_sharded_root(by, now->root, sizeof now->root) == MST_ROOT_LENGTH;
    for (int pair = 0; pair < PAIRS; pair++) {
        uint8_t key[3];
        shared_key(pair, key);
        now->has[pair] = mst_sharded_get(by, key, sizeof key, now->shared[pair], BYTES) == BYTES;
    }
    return is && mst_sharded_release(by) == MST_OK && now->number >= least;
}

static void *reads(void *by) {
    uint64_t before = 0;
    int ends = 0;
    while (!ends && seen_count < MOST_SEEN) {
        struct seen *now = &seen[seen_count];
        pthread_mutex_lock(&lock);
        ends = is_over;
        pthread_mutex_unlock(&lock);
        if (!looks(by, now) || now->number < before)
            return by;
        seen_count += now->number > before;
        before = now->number;
    }
    return NULL;
}

/* Whether all threads end well that begin with these words. */
static int run_all(void *(*run)(void *), void **given) {
    pthread_t threads[THREADS];
    int right = 1;
    for (int at = 0; at < THREADS; at++)
        EXPECT(pthread_create(&threads[at], NULL, run, given[at]) == 0);
    for (int at = 0; at < THREADS; at++) {
        void *failed = NULL;
        right = pthread_join(threads[at], &failed) == 0 && failed == NULL && right;
    }
    return right;
}

/* ---- the same requests once more ---- */

/* Of the last block that wrote a pair's key: the request of each of both; 0: none of this one. */
static uint32_t last_shared[PAIRS][2];
static uint32_t next_request[THREADS];

/* The edits of all requests that were told this number. Returns how many requests there are. */
static int write_block(uint64_t number, uint8_t *room, size_t *length) {
    int count = 0;
    uint32_t shared[PAIRS][2] = {{0}};
    for (int thread = 0; thread < THREADS; thread++) {
        uint32_t request = next_request[thread];
        if (request > requests || writers[thread].numbers[request] != number)
            continue;
        *length = write_request(thread, request, room, *length);
        if (is_of_shared(request) && request % 101 != 0)
            shared[thread / 2][thread % 2] = request;
        next_request[thread]++;
        count++;
    }
    for (int pair = 0; pair < PAIRS; pair++)
        if (shared[pair][0] != 0 || shared[pair][1] != 0)
            memcpy(last_shared[pair], shared[pair], sizeof shared[pair]);
    return count;
}

/* Whether the pair's value is of one of its last writers; and no value, if there is none. */
static int is_of_pair(const struct seen *then, int pair) {
    uint8_t value[BYTES];
    int is = 0;
    for (int of = 0; of < 2; of++) {
        value_of(2 * pair + of, last_shared[pair][of], value);
        is = is || (last_shared[pair][of] != 0 && memcmp(value, then->shared[pair], BYTES) == 0);
    }
    return then->has[pair] ? is : last_shared[pair][0] == 0 && last_shared[pair][1] == 0;
}

/* Of two that wrote their key in one block the last one is as the snapshot has it. */
static int32_t settle(mst_handle *twin, const struct seen *then) {
    uint8_t edits[PAIRS * MST_EDIT_LONGEST], key[3];
    size_t length = 0, place, shard;
    uint64_t number;
    for (int pair = 0; pair < PAIRS; pair++) {
        shared_key(pair, key);
        EXPECT(is_of_pair(then, pair));
        if (then->has[pair])
            length = mst_edit_put(edits, length, key, sizeof key, then->shared[pair], BYTES);
    }
    return mst_sharded_apply(twin, edits, length, &place, &shard, &number);
}

static int has_root(mst_handle *writer, const uint8_t *wanted) {
    uint8_t root[MST_ROOT_LENGTH];
    return mst_sharded_root(writer, root, sizeof root) == MST_ROOT_LENGTH
        && memcmp(root, wanted, sizeof root) == 0;
}

/* Each number up to the last is that of a block with requests, of each thread in their order. */
static void replay(uint64_t last) {
    static uint8_t edits[THREADS * REQUEST_MOST];
    mst_handle twin = MST_HANDLE_CLOSED;
    size_t at = 0, place, shard;
    EXPECT(mst_sharded_open(1, 2048, TEXT(SPLITS), &twin, 1) == MST_OK);
    for (int thread = 0; thread < THREADS; thread++)
        next_request[thread] = 1;
    for (uint64_t number = 1; number <= last; number++) {
        size_t length = 0;
        uint64_t made;
        EXPECT(write_block(number, edits, &length) > 0);
        EXPECT(mst_sharded_apply(&twin, edits, length, &place, &shard, &made) == MST_OK);
        if (at < seen_count && seen[at].number == number) {
            EXPECT(settle(&twin, &seen[at]) == MST_OK && has_root(&twin, seen[at].root));
            at++;
        }
    }
    for (int thread = 0; thread < THREADS; thread++)
        EXPECT(next_request[thread] == requests + 1);
    EXPECT(at == seen_count && at > 0 && seen[at - 1].number == last);
    EXPECT(mst_sharded_close(&twin) == MST_OK);
}

/* The writer has made the last block, and goes on. */
static void goes_on(mst_handle *writer, uint64_t last) {
    uint8_t edits[MST_EDIT_LONGEST];
    size_t length = mst_edit_put(edits, 0, TEXT("\1"), TEXT("1")), place, shard;
    uint64_t number = 0;
    EXPECT(mst_sharded_number(writer, &number) == MST_OK && number == last);
    EXPECT(mst_sharded_apply(writer, edits, length, &place, &shard, &number) == MST_OK);
    EXPECT(number == last + 1);
}

static void many_requests(void) {
    pthread_t reader;
    void *given[THREADS], *failed = NULL;
    EXPECT(mst_sharded_open(1, 2048, TEXT(SPLITS), hands, 3) == MST_OK);
    EXPECT(mst_sharded_group_open(&hands[0], &group) == MST_OK && hands[0].at == NULL);
    for (int at = 0; at < THREADS; at++)
        given[at] = &writers[at];
    if (readers > 0)
        EXPECT(pthread_create(&reader, NULL, reads, &hands[1]) == 0);
    EXPECT(run_all(writes, given));
    pthread_mutex_lock(&lock);
    is_over = 1;
    pthread_mutex_unlock(&lock);
    if (readers > 0)
        EXPECT(pthread_join(reader, &failed) == 0 && failed == NULL);
    /* what the hand held is closed, and then it has the writer */
    EXPECT(mst_sharded_group_close(group, &hands[2]) == MST_OK);
    if (seen_count == 0 || seen[seen_count - 1].number < told_most)
        EXPECT(looks(&hands[1], &seen[seen_count++]));
    /* while long requests were made, others came, and were made as one block */
    EXPECT(requests < 1000 || told_most < THREADS * requests);
    replay(told_most);
    printf("%u requests, %llu blocks, %zu of them looked at\n", THREADS * requests,
           (unsigned long long)told_most, seen_count);
    goes_on(&hands[2], told_most);
    EXPECT(mst_sharded_close(&hands[1]) == MST_OK && mst_sharded_close(&hands[2]) == MST_OK);
}

/* ---- refusals ---- */

/* What a thread asks for all the time, and what it is to be told. */
struct refusal {
    int thread;
    int32_t told;
    size_t place, shard;
};

/*
 * Of thread 0 more keys than the first shard has rows; of the others a put in each of both. The
 * second one of thread 1 lacks its value: as many bytes as an edit of another thread has.
 */
static size_t write_refused(int thread, uint32_t request, uint8_t *room) {
    uint8_t key[3] = {1, (uint8_t)thread, 0}, value[EDIT_BYTES] = {0};
    size_t length = 0;
    value_of(thread, request, value);
    for (int at = 0; thread == 0 && at < MANY_KEYS; at++) {
        key[2] = (uint8_t)at;
        length = mst_edit_put(room, length, key, sizeof key, value, BYTES);
    }
    if (thread == 0)
        return length;
    length = mst_edit_put(room, length, key, sizeof key, value, BYTES);
    key[0] = 2;
    if (thread == 1)
        return mst_edit_put(room, length, key, sizeof key, value, EDIT_BYTES) - EDIT_BYTES;
    return mst_edit_put(room, length, key, sizeof key, value, BYTES);
}

static void *is_refused(void *given) {
    const struct refusal *own = given;
    uint8_t edits[MANY_KEYS * MST_EDIT_LONGEST];
    uint64_t before = 0;
    for (uint32_t request = 1; request <= requests / 4; request++) {
        size_t length = write_refused(own->thread, request, edits), place = 77, shard = 77;
        uint64_t number = 0;
        int32_t told = mst_sharded_group_apply(group, edits, length, &place, &shard, &number);
        if (told != own->told || place != own->place || shard != own->shard)
            return given;
        if (told == MST_OK ? number <= before : number != 0)
            return given;
        before = number;
    }
    return NULL;
}

/* Whether both keys of a thread have its last value, if it was not refused. */
static int has_last(mst_handle *reader, int thread) {
    uint8_t key[3] = {1, (uint8_t)thread, 0}, value[BYTES], wanted[BYTES];
    int is = 1;
    value_of(thread, requests / 4, wanted);
    for (key[0] = 1; key[0] <= 2; key[0]++) {
        int32_t told = mst_sharded_get(reader, key, sizeof key, value, sizeof value);
        is = is && (thread < REFUSED ? told == MST_ABSENT
                                     : told == BYTES && memcmp(value, wanted, BYTES) == 0);
    }
    return is;
}

static void refusals(void) {
    struct refusal each[THREADS] = {{0, MST_NO_FREE_ROWS, 77, 0}, {1, MST_BAD_BATCH, 1, 77}};
    void *given[THREADS];
    uint64_t number = 0;
    mst_sharded_group *none = NULL;
    EXPECT(mst_sharded_open(2, 80, TEXT("\1\2"), hands, 2) == MST_OK);
    EXPECT(mst_sharded_group_open(&hands[1], &none) == MST_WRONG_STATE && none == NULL);
    EXPECT(mst_sharded_snapshot(&hands[1]) == MST_OK);
    EXPECT(mst_sharded_group_open(&hands[1], &none) == MST_WRONG_STATE && none == NULL);
    EXPECT(mst_sharded_group_open(&hands[2], &none) == MST_CLOSED && none == NULL);
    EXPECT(mst_sharded_release(&hands[1]) == MST_OK);
    EXPECT(mst_sharded_group_open(&hands[0], &group) == MST_OK && hands[0].at == NULL);
    for (int at = 0; at < THREADS; at++) {
        if (at >= REFUSED)
            each[at] = (struct refusal){at, MST_OK, 77, 77};
        given[at] = &each[at];
    }
    EXPECT(run_all(is_refused, given));
    EXPECT(mst_sharded_group_close(group, &hands[0]) == MST_OK);
    for (int at = 0; at < THREADS; at++)
        EXPECT(has_last(&hands[1], at));
    EXPECT(mst_sharded_number(&hands[0], &number) == MST_OK);
    EXPECT(number >= requests / 4 && number <= (uint64_t)requests / 4 * (THREADS - REFUSED));
    goes_on(&hands[0], number);
    EXPECT(mst_sharded_close(&hands[0]) == MST_OK && mst_sharded_close(&hands[1]) == MST_OK);
}

int main(int count, char **words) {
    if (count > 1)
        requests = (uint32_t)atol(words[1]);
    if (count > 2)
        readers = atoi(words[2]);
    if (requests > MOST_REQUESTS)
        requests = MOST_REQUESTS;
    many_requests();
    refusals();
    return ended("group");
}
