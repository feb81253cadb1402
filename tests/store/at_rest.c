/*
 * All scripts of five calls of three passes, over stores of 4, 5 and 6 rows, and all of four calls
 * with migrations, over stores of 4 to 8 rows, each compared with plain sets of versions.
 *
 * A call is one of four of a pass: it pins, or ends its pin; it puts a first or a second value at
 * the key a; it counts the rows. A fifth one migrates to the other format. A pinned pass leaves out
 * all but the first.
 */
#include "tests.h"

#define PASSES 3
#define COST 2 /* the rows of a map of one key: a pair and a node */
#define NO_VALUE 0

enum kind { PINS, PUTS_FIRST, PUTS_SECOND, COUNTS, MIGRATES };

/* The change that made its rows, from 1, or 0 for the empty map, which has none; the value of the
 * key; and the format. */
struct version {
    uint32_t made;
    char value;
    uint32_t format;
};

/* All scripts of so many calls, each of one of so many kinds. */
struct scripts {
    uint32_t calls, kinds;
};

static mst_pass passes[PASSES];
static struct version pinned[PASSES], current;
static int pins[PASSES];
static uint32_t rows, changes; /* of the store, and made to it */

/* Whether a version is live whose rows this change made. */
static int keeps(uint32_t made) {
    for (int i = 0; i < PASSES; i++)
        if (pins[i] && pinned[i].made == made)
            return 1;
    return current.made == made;
}

/* How many rows no live version holds; none if more are held than there are. */
static uint32_t free_rows(void) {
    uint32_t held = 0;
    for (uint32_t made = 1; made <= changes; made++)
        held += keeps(made) ? COST : 0;
    return held < rows ? rows - held : 0;
}

/* Whether a call told this value, or that there is none. */
static int is_value(int32_t told, const uint8_t *room, char value) {
    return value == NO_VALUE ? told == MST_ABSENT : told == 1 && room[0] == (uint8_t)value;
}

/* The put finds no room exactly if too few rows are free. */
static int puts_value(mst_pass *pass, char value) {
    uint8_t room[MST_VALUE_LONGEST], byte = (uint8_t)value;
    char old = current.value;
    uint32_t cost = old == value ? 0 : COST;
    int fits = cost <= free_rows();
    int32_t told = mst_try_put(pass, TEXT("a"), &byte, 1, room, sizeof room);
    if (fits && cost > 0) {
        current.made = ++changes;
        current.value = value;
    }
    return fits ? is_value(told, room, old) : told == MST_NO_FREE_ROWS;
}

/* So does the migration, which makes the rows of the tree anew. */
static int migrates(mst_pass *pass) {
    uint32_t before = current.format, to = 3 - before, cost = current.made == 0 ? 0 : COST;
    int fits = cost <= free_rows();
    int32_t told = mst_try_migrate(pass, to);
    if (!fits)
        return told == MST_NO_FREE_ROWS;
    current.format = to;
    if (cost > 0)
        current.made = ++changes;
    return told == (int32_t)before;
}

/* The rows of the map are not counted exactly if a version is pinned; those are free that no kept
 * version holds. */
static int counts(mst_pass *pass) {
    uint32_t taken = 0, found = 0;
    int is_pinned = pins[0] || pins[1] || pins[2];
    int32_t told = mst_rows(pass, &taken);
    if (is_pinned ? told != MST_ROWS_PINNED
        : told != MST_OK || taken != (current.made == 0 ? 0 : COST))
        return 0;
    return mst_free_rows(pass, &found) == MST_OK && found == free_rows();
}

static int starts_pin(int who) {
    pins[who] = 1;
    pinned[who] = current;
    return mst_pin(&passes[who]) == MST_OK;
}

/* The pinned pass still reads its version. */
static int ends_pin(int who) {
    uint8_t room[MST_VALUE_LONGEST];
    mst_pass *pass = &passes[who];
    int32_t told = mst_get(pass, TEXT("a"), room, sizeof room);
    pins[who] = 0;
    return mst_format(pass) == (int32_t)pinned[who].format
        && is_value(told, room, pinned[who].value) && mst_unpin(pass) == MST_OK;
}

/* Whether a call of a pass returns the right answer. */
static int is_right(int who, enum kind what) {
    if (pins[who])
        return what == PINS ? ends_pin(who) : 1;
    switch (what) {
    case PINS:
        return starts_pin(who);
    case PUTS_FIRST:
        return puts_value(&passes[who], '1');
    case PUTS_SECOND:
        return puts_value(&passes[who], '2');
    case COUNTS:
        return counts(&passes[who]);
    default:
        return migrates(&passes[who]);
    }
}

/* Each call of a script is a digit, for the pass and the kind. */
static int script_is_right(struct scripts scripts, uint32_t script) {
    for (uint32_t i = 0; i < scripts.calls; i++) {
        uint32_t call = script % (PASSES * scripts.kinds);
        if (!is_right((int)(call % PASSES), (enum kind)(call / PASSES)))
            return 0;
        script /= PASSES * scripts.kinds;
    }
    return 1;
}

/* A new store, whose passes close those of the one before. */
static int opens(void) {
    memset(pins, 0, sizeof pins);
    current = (struct version){0, NO_VALUE, 1};
    changes = 0;
    return mst_open(1, rows, passes, PASSES) == MST_OK;
}

/* All scripts, over a new store each. Returns how many there are. */
static uint32_t all_are_right(uint32_t of_rows, struct scripts scripts) {
    uint32_t count = 1;
    rows = of_rows;
    for (uint32_t i = 0; i < scripts.calls; i++)
        count *= PASSES * scripts.kinds;
    for (uint32_t script = 0; script < count && wrong == 0; script++)
        if (!opens() || !script_is_right(scripts, script)) {
            printf("script %u over %u rows\n", script, rows);
            EXPECT(!"a script of right answers");
        }
    return count;
}

int main(void) {
    static const struct scripts at_rest = {5, 4}, moving = {4, 5};
    for (uint32_t of_rows = 4; of_rows <= 6; of_rows++)
        EXPECT(all_are_right(of_rows, at_rest) == 248832); /* 12 to the power of 5 */
    for (uint32_t of_rows = 4; of_rows <= 8; of_rows++)
        EXPECT(all_are_right(of_rows, moving) == 50625); /* 15 to the power of 4 */
    for (int i = 0; i < PASSES; i++)
        EXPECT(mst_close(&passes[i]) == MST_OK);
    return ended("at_rest");
}
