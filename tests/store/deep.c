/*
 * How deep calls nest, and the stack that they take, over trees in format 2 of 3, of 9 and of 15
 * nodes one below the other, and over others of 3, of 5 and of 11. Each call runs step by step in a
 * process of its own, where its calls and returns are counted, and then in a thread whose stack is
 * filled with a pattern first, so the bytes that it has written are counted. What six nodes more
 * cost says what 129 would, the most that a tree can have on one path. Such a tree cannot be had: a
 * key of layer 128 is one of 2 to the power of 256.
 */
#include "depth.h"
#include "stack.h"
#include "tests.h"
#include <stdlib.h>

#define MOST_NODES 129

/* A key of each layer in format 2, from the highest down to 0. */
struct path {
    const char *name;
    const char *const *keys;
    int nodes;
};

static const char *const inward[] = {
    "z338499454", "b12483696", "y20022483", "c11371238", "x842172", "d467806", "w48396", "e17178",
    "v6284", "f61", "u191", "g57", "t28", "h1", "s0",
};

static const char *const down[] = {
    "v2395065", "u38326", "t308821", "s33858", "r11824", "q4775", "p72", "o13", "n2", "m2", "l0",
};

static const struct path paths[] = {
    {"each between the two above", inward, 15},
    {"each in the first gap of the one above", down, 11},
};

#define NODE 1024          /* a node more costs no more of the stack */
#define LIMIT (128 * 1024) /* and a call over 129 nodes takes less */
#define ABOVE (48 * 1024)  /* the most that a batch takes above a migration to format 2 */
#define MOST_DEPTH 139     /* functions one below the other, with 129 nodes */

static mst_pass pass = MST_PASS_CLOSED, empty = MST_PASS_CLOSED;
static const uint8_t *low, *top; /* the keys of the lowest layer and of the highest */
static size_t low_length, top_length;
static int32_t told;
static uint8_t room[8192], edits[15 * MST_EDIT_LONGEST];
static size_t length, count, edits_length;

static void *gets(void *unused) {
    told = mst_get(&pass, low, low_length, room, sizeof room);
    return unused;
}

static void *nexts(void *unused) {
    uint8_t key[32];
    told = mst_next(&pass, low, low_length, key, sizeof key, &length, room, sizeof room);
    return unused;
}

static void *ranges(void *unused) {
    told = mst_range(&pass, NULL, 0, NULL, 0, 99, room, sizeof room, &count, &length);
    return unused;
}

static void *proves(void *unused) {
    told = mst_prove(&pass, low, low_length, room, sizeof room, &length);
    return unused;
}

static void *puts_one(void *unused) {
    told = mst_try_put(&pass, low, low_length, TEXT("2"), room, sizeof room);
    return unused;
}

static void *removes(void *unused) {
    told = mst_try_remove(&pass, low, low_length, room, sizeof room);
    return unused;
}

static void *puts_again(void *unused) {
    told = mst_try_put(&pass, low, low_length, TEXT("1"), room, sizeof room);
    return unused;
}

static void *migrates_to_1(void *unused) {
    told = mst_try_migrate(&pass, 1);
    return unused;
}

static void *migrates_to_2(void *unused) {
    told = mst_try_migrate(&pass, 2);
    return unused;
}

/* At the top of the tree and in its lowest node. */
static void *applies(void *unused) {
    size_t place;
    length = mst_edit_put(room, 0, low, low_length, TEXT("2"));
    length = mst_edit_put(room, length, top, top_length, TEXT("2"));
    told = mst_try_apply(&pass, room, length, &place);
    return unused;
}

/* The keys of the tree once more, in the empty store. */
static void *loads(void *unused) {
    size_t place;
    told = mst_try_apply(&empty, edits, edits_length, &place);
    return unused;
}

struct call {
    const char *name;
    void *(*run)(void *);
    int32_t answer;
};

/* In an order in which each finds what the one before left. */
static const struct call calls[] = {
    {"get", gets, 1},
    {"next", nexts, 1},
    {"range", ranges, MST_OK},
    {"prove", proves, MST_OK},
    {"put", puts_one, 1},
    {"remove", removes, 1},
    {"put of a new key", puts_again, MST_ABSENT},
    {"migrate to 1", migrates_to_1, 2},
    {"migrate to 2", migrates_to_2, 1},
    {"batch", applies, MST_OK},
    {"load", loads, MST_OK},
};

enum {
    CALLS = sizeof calls / sizeof *calls,
    LOAD = CALLS - 1,
    BATCH = LOAD - 1,
    MIGRATE = BATCH - 1,
};

/* Puts a number of keys of the lowest layers into a new store of format 2. */
static void opens(const struct path *path, int nodes) {
    EXPECT(mst_open(2, 128, &pass, 1) == MST_OK && mst_open(2, 128, &empty, 1) == MST_OK);
    edits_length = 0;
    for (int i = path->nodes - nodes; i < path->nodes; i++) {
        low = (const uint8_t *)path->keys[i];
        low_length = strlen(path->keys[i]);
        EXPECT(mst_put(&pass, low, low_length, TEXT("1"), room, 64) == MST_ABSENT);
        edits_length = mst_edit_put(edits, edits_length, low, low_length, TEXT("1"));
    }
    top = (const uint8_t *)path->keys[path->nodes - nodes];
    top_length = strlen(path->keys[path->nodes - nodes]);
    uint32_t rows = 0;
    EXPECT(mst_rows(&pass, &rows) == MST_OK && rows == 2 * (uint32_t)nodes);
    EXPECT(mst_prove(&pass, low, low_length, room, sizeof room, &length) == MST_OK
           && room[1] == nodes);
}

/* What a call takes: bytes of the stack, and functions one below the other. */
struct cost {
    size_t bytes;
    int depth;
};

/* What each call takes over a tree of a number of nodes. */
static void measure(const struct path *path, int nodes, struct cost *costs) {
    size_t alone = stack_of(no_call);
    opens(path, nodes);
    for (int i = 0; i < CALLS; i++) {
        costs[i].depth = depth_of(calls[i].run);
        size_t all = stack_of(calls[i].run);
        costs[i].bytes = all > alone ? all - alone : 0;
        EXPECT(told == calls[i].answer);
    }
    EXPECT(mst_close(&pass) == MST_OK && mst_close(&empty) == MST_OK);
}

/* What a call takes over a path's fewest nodes, over six less than the most, and over the most. */
struct costs {
    struct cost few[CALLS], some[CALLS], most[CALLS];
};

/* Prints the bytes of a call, and returns those that 129 nodes take at most. */
static size_t tells_bytes(int call, int nodes, const struct costs *all) {
    size_t few = all->few[call].bytes, some = all->some[call].bytes, most = all->most[call].bytes;
    size_t more = most > some ? most - some : 0;
    size_t whole = most + (more + 5) / 6 * (size_t)(MOST_NODES - nodes);
    EXPECT(more <= 6 * NODE);
    EXPECT(whole < LIMIT);
    printf("%s: %zu, %zu and %zu bytes, so at most %zu\n",
           calls[call].name, few, some, most, whole);
    return whole;
}

/* Prints the depth of a call, and returns that over 129 nodes at most. */
static int tells_depth(int call, int nodes, const struct costs *all) {
    int few = all->few[call].depth, some = all->some[call].depth, most = all->most[call].depth;
    if (few < 0) {
        printf("%s: no process may be traced here, so its depth was not counted\n",
               calls[call].name);
        return 0;
    }
    int whole = most > some ? most + (MOST_NODES - nodes) : most;
    EXPECT(few > 0 && some > 0 && most > 0);
    EXPECT(most - some <= 6);
    EXPECT(whole <= MOST_DEPTH);
    printf("%s: %d, %d and %d functions, so at most %d\n",
           calls[call].name, few, some, most, whole);
    return whole;
}

static size_t greatest = 0;
static int deepest = 0;

static void tells(const struct path *path) {
    struct costs all;
    size_t wholes[CALLS];
    measure(path, 3, all.few);
    measure(path, path->nodes - 6, all.some);
    measure(path, path->nodes, all.most);
    printf("3, %d and %d nodes, %s:\n", path->nodes - 6, path->nodes, path->name);
    for (int i = 0; i < CALLS; i++) {
        size_t bytes = wholes[i] = tells_bytes(i, path->nodes, &all);
        int depth = tells_depth(i, path->nodes, &all);
        greatest = bytes > greatest ? bytes : greatest;
        deepest = depth > deepest ? depth : deepest;
    }
    EXPECT(wholes[BATCH] <= wholes[MIGRATE] + ABOVE);
    EXPECT(wholes[LOAD] <= wholes[MIGRATE] + ABOVE);
}

int main(void) {
    for (size_t i = 0; i < sizeof paths / sizeof *paths; i++)
        tells(&paths[i]);
    printf("a call over 129 nodes takes less than %zu bytes of the stack, and nests %d functions\n",
           greatest + 1, deepest);
    return ended("deep");
}
