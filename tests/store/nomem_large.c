/*
 * A malloc that refuses its n-th call, over maps of 400 and of 8,000 keys in stores of 1,000 and of
 * 20,000 rows, one key of which has layer 9 in format 2: ranges without a limit, proofs, batches,
 * loads and migrations. What is refused leaves all as it was, and nothing is ever leaked. Of many
 * growths each of the first is refused, later one of each sixteenth more, and each of the last.
 */
#include "heap.h"
#include "tests.h"

#define HIGH TEXT("u38326") /* a key of layer 9 in format 2; one in 262,144 has as high a layer */
#define MOST_KEYS 8000
#define BATCH 100        /* edits of a batch, all over the map */
#define TRIES 100000     /* more growths than any call has */
#define LAST 10          /* how many of the last growths are refused */
#define BEFORE ((size_t)7) /* stands where a length is to be told */

static mst_pass pass = MST_PASS_CLOSED, empty = MST_PASS_CLOSED;
static uint32_t rows, keys;
static uint8_t edits[(MOST_KEYS + 1) * MST_EDIT_LONGEST], few[(BATCH + 1) * MST_EDIT_LONGEST];
static uint8_t room[(MOST_KEYS + 1) * MST_PAIR_LONGEST];
static size_t edits_length, few_length, count, length, place;

static uint8_t roots[2][MST_ROOT_LENGTH]; /* of the map in each format */

/* A put of the key of a number. */
static size_t put_number(uint8_t *bytes, size_t at, uint32_t number) {
    const uint8_t key[] = {(uint8_t)(number * 151), (uint8_t)(number >> 8), (uint8_t)number};
    return mst_edit_put(bytes, at, key, sizeof key, key, sizeof key);
}

/* The batch that loads the map, and one that puts some of its pairs again. */
static void fill_batches(void) {
    edits_length = mst_edit_put(edits, 0, HIGH, TEXT("9"));
    few_length = mst_edit_put(few, 0, HIGH, TEXT("9"));
    for (uint32_t number = 0; number < keys; number++)
        edits_length = put_number(edits, edits_length, number);
    for (uint32_t number = 0; number < BATCH; number++)
        few_length = put_number(few, few_length, number * (keys / BATCH));
}

static int32_t opens_empty(uint32_t format) {
    return mst_open(format, rows, &empty, 1);
}

/* ---- the calls, each with what takes it back */

static int32_t ranges(void) {
    int32_t told = mst_range(&pass, NULL, 0, NULL, 0, UINT32_MAX, room, sizeof room, &count,
                             &length);
    EXPECT(told != MST_OK || count == keys + 1);
    return told;
}

static int32_t proves(void) {
    return mst_prove(&pass, HIGH, room, sizeof room, &length);
}

static int32_t applies(void) {
    return mst_try_apply(&pass, few, few_length, &place);
}

static int32_t loads(void) {
    return mst_try_apply(&empty, edits, edits_length, &place);
}

static int32_t migrates(void) {
    uint32_t format = (uint32_t)mst_format(&pass);
    int32_t told = mst_try_migrate(&pass, 3 - format);
    return told == (int32_t)format ? MST_OK : told;
}

static void nothing(void) {}

static void opens_again(void) {
    EXPECT(opens_empty((uint32_t)mst_format(&empty)) == MST_OK);
}

static void migrates_back(void) {
    EXPECT(migrates() == MST_OK);
}

struct call {
    const char *name;
    int32_t (*run)(void);
    void (*takes_back)(void);
};

static const struct call calls[] = {
    {"a range", ranges, nothing},
    {"a proof", proves, nothing},
    {"a batch", applies, nothing},
    {"a load", loads, opens_again},
    {"a migration", migrates, migrates_back},
};

/* ---- what stays */

struct state {
    uint64_t version;
    uint32_t free;
    int32_t format;
    uint8_t root[MST_ROOT_LENGTH];
};

static struct state state_of(mst_pass *of) {
    struct state state;
    memset(&state, 0, sizeof state);
    EXPECT(mst_version(of, &state.version) == MST_OK);
    EXPECT(mst_free_rows(of, &state.free) == MST_OK);
    EXPECT(mst_root(of, state.root, sizeof state.root) == MST_ROOT_LENGTH);
    state.format = mst_format(of);
    return state;
}

/* Makes the call, with the growth after this many refused; what it told, if all is right. */
static int32_t told_without(const struct call *call, long n) {
    struct state before = state_of(&pass), before_load = state_of(&empty);
    long blocks = live;
    size_t bytes = held;
    count = length = place = BEFORE;
    asked = 0;
    count_from(n);
    int32_t told = call->run();
    count_on();
    EXPECT(live == blocks && held == bytes && place == BEFORE);
    EXPECT(told == MST_OK || told == MST_MEMORY);
    if (told == MST_MEMORY) {
        struct state after = state_of(&pass), after_load = state_of(&empty);
        EXPECT(memcmp(&before, &after, sizeof after) == 0);
        EXPECT(memcmp(&before_load, &after_load, sizeof after_load) == 0);
        EXPECT(count == BEFORE && length == BEFORE);
    }
    return told;
}

static int has_root(mst_pass *of) {
    uint8_t root[MST_ROOT_LENGTH];
    return mst_root(of, root, sizeof root) == MST_ROOT_LENGTH
        && memcmp(root, roots[mst_format(of) - 1], sizeof root) == 0;
}

static long refused; /* how many calls were told MST_MEMORY */

/*
 * Whether there is a growth after this many, which is refused. The call may go on without: a list
 * that is refused room to spare asks for what it needs.
 */
static int refuses_growth(const struct call *call, long n) {
    int32_t told = told_without(call, n);
    long all = asked;
    refused += told == MST_MEMORY;
    if (told == MST_OK) {
        EXPECT(has_root(&pass) && (call->run != loads || has_root(&empty)));
        call->takes_back();
    }
    asked = all;
    return all > n;
}

/* Refuses growths of a call until there is none to refuse, and then the last ones. */
static void refuses_growths(const struct call *call) {
    long n = 0, tried = 0;
    refused = 0;
    for (; n < TRIES && refuses_growth(call, n); n += 1 + n / 16)
        tried++;
    EXPECT(refused > 0 && n < TRIES);
    long all = asked;
    for (long last = 1; last <= LAST && last <= all; last++, tried++)
        EXPECT(refuses_growth(call, all - last));
    printf("%s: of %ld growths %ld refused, %ld calls\n", call->name, all, tried, refused);
}

/* The root digest of the map in a format, made by a load alone. */
static void finds_root(uint32_t format) {
    EXPECT(opens_empty(format) == MST_OK && loads() == MST_OK);
    EXPECT(mst_root(&empty, roots[format - 1], MST_ROOT_LENGTH) == MST_ROOT_LENGTH);
}

static void calls_in(uint32_t format) {
    EXPECT(mst_open(format, rows, &pass, 1) == MST_OK && opens_empty(format) == MST_OK);
    EXPECT(mst_try_apply(&pass, edits, edits_length, &place) == MST_OK && has_root(&pass));
    for (size_t i = 0; i < sizeof calls / sizeof *calls; i++)
        refuses_growths(&calls[i]);
    EXPECT(mst_close(&pass) == MST_OK && mst_close(&empty) == MST_OK && live == 0);
}

static void large(uint32_t its_rows, uint32_t its_keys) {
    rows = its_rows;
    keys = its_keys;
    fill_batches();
    finds_root(1);
    finds_root(2);
    for (uint32_t format = 1; format <= 2; format++) {
        printf("%u rows, format %u\n", rows, format);
        calls_in(format);
    }
}

int main(void) {
    setvbuf(stdout, NULL, _IONBF, 0);
    count_from(-1);
    large(1000, 400);
    large(20000, MOST_KEYS);
    counting = 0;
    return ended("nomem_large");
}
