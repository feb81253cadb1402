/*
 * Two passes that each pin and end their pin twice, and a third that makes three changes, puts and
 * migrations, in each of the 11,550 orders in which these calls can come. After each call each pass
 * reads the version that a plain list of the changes says, those versions are pinned that passes
 * pin, and those rows are held that these versions and the current one have.
 */
#include "tests.h"

#define PINNERS 2
#define CHANGES 3
#define CALLS (PINNERS * 4 + CHANGES)
#define ROWS 6 /* for the current version and two that are pinned */
#define COST 2 /* the rows of a map of one key: a pair and a node */

/* The number of a version, its value of the key a, 0 for none, and its format. */
struct version {
    uint64_t number;
    uint8_t value;
    uint32_t format;
};

static mst_pass passes[PINNERS + 1];
static mst_pass *const writer = &passes[PINNERS];
static struct version current, pinned[PINNERS];
static int pins[PINNERS];

/* ---- what the plain list says ---- */

/* Whether the pass reads this version. */
static int reads(mst_pass *pass, const struct version *version) {
    uint8_t room[MST_VALUE_LONGEST];
    uint64_t number = 77;
    int32_t told = mst_get(pass, TEXT("a"), room, sizeof room);
    return (version->value == 0 ? told == MST_ABSENT : told == 1 && room[0] == version->value)
        && mst_version(pass, &number) == MST_OK && number == version->number
        && mst_format(pass) == (int32_t)version->format;
}

/* Whether a free pass is told these versions as those that are pinned. */
static int lists(mst_pass *pass, const uint64_t *wanted, size_t count) {
    uint64_t found[MST_PASSES_MOST];
    size_t told = 77;
    return mst_pinned_versions(pass, found, MST_PASSES_MOST, &told) == MST_OK && told == count
        && memcmp(found, wanted, count * sizeof *wanted) == 0;
}

/* Whether it is told so many free rows, and so many that the map takes, unless a version is
 * pinned. */
static int counts(mst_pass *pass, uint32_t free_rows, int is_pinned) {
    uint32_t found = 77, taken = 77;
    int32_t told = mst_rows(pass, &taken);
    return mst_free_rows(pass, &found) == MST_OK && found == free_rows
        && (is_pinned ? told == MST_ROWS_PINNED : told == MST_OK && taken == ROWS - free_rows);
}

static uint32_t rows_of(const struct version *version) {
    return version->value == 0 ? 0 : COST;
}

/* Lists the pinned versions, in rising order, each once, and adds up the rows that are held. */
static size_t list_pinned(uint64_t *versions, uint32_t *held) {
    size_t count = 0;
    *held = rows_of(&current);
    for (int i = 0; i < PINNERS; i++) {
        if (!pins[i] || (count == 1 && versions[0] == pinned[i].number))
            continue;
        *held += pinned[i].number == current.number ? 0 : rows_of(&pinned[i]);
        versions[count++] = pinned[i].number;
    }
    if (count == 2 && versions[1] < versions[0]) {
        uint64_t first = versions[1];
        versions[1] = versions[0];
        versions[0] = first;
    }
    return count;
}

/* Whether each pass is told what the plain list says. */
static int all_agree(void) {
    uint64_t versions[PINNERS], made = 0;
    uint32_t held, any = 77;
    size_t count = list_pinned(versions, &held);
    for (int i = 0; i < PINNERS; i++) {
        if (!reads(&passes[i], pins[i] ? &pinned[i] : &current))
            return 0;
        if (pins[i] ? mst_free_rows(&passes[i], &any) != MST_WRONG_STATE
            : !lists(&passes[i], versions, count) || !counts(&passes[i], ROWS - held, count > 0))
            return 0;
    }
    return reads(writer, &current) && lists(writer, versions, count)
        && counts(writer, ROWS - held, count > 0)
        && (current.number == 0 ? mst_made(writer, &made) == MST_ABSENT
            : mst_made(writer, &made) == MST_OK && made == current.number);
}

/* ---- calls ---- */

static int pins_or_ends(int who) {
    pins[who] = !pins[who];
    if (!pins[who])
        return mst_unpin(&passes[who]) == MST_OK;
    pinned[who] = current;
    return mst_pin(&passes[who]) == MST_OK;
}

/* A put of a value that no other has, which returns the old one. */
static int puts_next(void) {
    uint8_t room[MST_VALUE_LONGEST], value = (uint8_t)(current.number + 1);
    int32_t told = mst_try_put(writer, TEXT("a"), &value, 1, room, sizeof room);
    int is_right = current.value == 0 ? told == MST_ABSENT : told == 1 && room[0] == current.value;
    current.value = value;
    return is_right;
}

/* A migration to the other format, which returns the one before. */
static int migrates(void) {
    int32_t was = (int32_t)current.format;
    current.format = 3 - current.format;
    return mst_try_migrate(writer, current.format) == was;
}

static int changes(char kind) {
    int is_right = kind == 'p' ? puts_next() : migrates();
    current.number++;
    return is_right;
}

/* ---- orders ---- */

/* Makes the calls in this order at a new store, whose passes close those of the one before. */
static int is_right(const int *order, const char *kinds) {
    memset(pins, 0, sizeof pins);
    current = (struct version){0, 0, 1};
    if (mst_open(1, ROWS, passes, PINNERS + 1) != MST_OK || !all_agree())
        return 0;
    for (int i = 0; i < CALLS; i++)
        if (!(order[i] < PINNERS ? pins_or_ends(order[i]) : changes(*kinds++)) || !all_agree())
            return 0;
    return 1;
}

/* Goes on from the first `count` calls of an order, with so many calls left of each pass. Returns
 * how many orders there are. */
static uint32_t orders(int *order, int count, int *left, const char *kinds) {
    uint32_t all = 0;
    if (count == CALLS) {
        EXPECT(is_right(order, kinds));
        return 1;
    }
    for (int who = 0; who <= PINNERS && wrong == 0; who++) {
        if (left[who] == 0)
            continue;
        left[who]--;
        order[count] = who;
        all += orders(order, count + 1, left, kinds);
        left[who]++;
    }
    return all;
}

int main(void) {
    static const char *const kinds[] = {"ppp", "pmp", "mpm"};
    for (size_t i = 0; i < sizeof kinds / sizeof *kinds; i++) {
        int order[CALLS], left[PINNERS + 1] = {4, 4, CHANGES};
        EXPECT(orders(order, 0, left, kinds[i]) == 11550);
    }
    for (int i = 0; i <= PINNERS; i++)
        EXPECT(mst_close(&passes[i]) == MST_OK);
    return ended("orders");
}
