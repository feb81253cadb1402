/*
 * Threads that pin, read, prove and verify while others put and migrate: each proof is taken in the
 * format and by the root digest of its version, with the value that is read there.
 */
#include "mst_verifier.h"
#include "racing.h"

#define WRITES 1000 /* how many migrations one thread makes, and how many puts another */
#define AUDITS 500  /* how often each auditor pins a version */
#define PROOF_ROOM 1024

/* In format 2 the key 9 stands above 1. */
static const char *const keys[] = {"1", "9"};
static const char *const values[] = {"a", "b"};

static mst_pass passes[4];

static int moves(mst_pass *pass, int unused) {
    (void)unused;
    return moves_to_and_fro(pass, WRITES / 2);
}

/* Whether each put finds the value of the put before it. */
static int puts_on(mst_pass *pass, int unused) {
    uint8_t room[MST_VALUE_LONGEST];
    const char *old = NULL;
    (void)unused;
    for (int i = 0; i < WRITES; i++) {
        const char *value = values[i % 2];
        if (!is_value(mst_put(pass, BYTES(keys[0]), BYTES(value), room, sizeof room), room, old))
            return 0;
        old = value;
    }
    return 1;
}

static int is_proved(mst_pass *pass, const char *key) {
    uint8_t found[MST_VALUE_LONGEST], judged[MST_VALUE_LONGEST], root[MST_ROOT_LENGTH];
    uint8_t proof[PROOF_ROOM];
    size_t length = 0;
    int32_t format = mst_format(pass), told = mst_get(pass, BYTES(key), found, sizeof found);
    if (format < 1 || mst_root(pass, root, sizeof root) != MST_ROOT_LENGTH
        || mst_prove(pass, BYTES(key), proof, sizeof proof, &length) != MST_OK)
        return 0;
    int32_t verdict = mst_verify((uint32_t)format, root, sizeof root, BYTES(key), proof, length,
                                 judged, sizeof judged);
    return verdict == told && (told == 1 || told == MST_ABSENT)
        && (told != 1 || judged[0] == found[0]);
}

static int audits(mst_pass *pass, int number) {
    for (int i = 0; i < AUDITS; i++)
        if (mst_pin(pass) != MST_OK || !is_proved(pass, keys[number])
            || !is_proved(pass, keys[1 - number]) || mst_unpin(pass) != MST_OK)
            return 0;
    return 1;
}

int main(void) {
    struct work work[] = {
        {moves, &passes[0], 0, 0},
        {puts_on, &passes[1], 0, 0},
        {audits, &passes[2], 0, 0},
        {audits, &passes[3], 1, 0},
    };
    EXPECT(mst_open(1, 64, passes, 4) == MST_OK);
    EXPECT(puts_at(&passes[1], keys[1], "1", NULL));
    EXPECT(all_work(work, 4));
    /* the last writes were seen */
    EXPECT(has(&passes[0], keys[0], values[1]) && mst_format(&passes[0]) == 1);
    EXPECT(has_version(&passes[0], 1 + 2 * WRITES));
    for (int i = 0; i < 4; i++)
        EXPECT(mst_close(&passes[i]) == MST_OK);
    return ended("auditors");
}
