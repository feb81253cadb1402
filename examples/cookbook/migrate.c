/* Turns a store to format 2 while a reader pins the version before. */
#include "mst_store.h"
#include <stdio.h>

enum {
    KEYS = 1000,
    BOTH_TREES = KEYS * 17 / 16 + KEYS * 5 / 4 /* the rows in format 1, and in format 2 */
};

/* Prints what a version's proofs are like. */
static void tell(const char *whose, mst_pass *pass) {
    uint8_t proof[65536];
    size_t length = 0;

    int32_t told = mst_prove(pass, (const uint8_t *)"user 1", 6, proof, sizeof proof, &length);
    if (told != MST_OK)
        fprintf(stderr, "%s\n", mst_error_text(told));
    printf("%s: format %d, a proof of %zu bytes\n", whose, (int)mst_format(pass), length);
}

int main(void) {
    mst_pass passes[2] = {MST_PASS_CLOSED, MST_PASS_CLOSED};
    mst_pass *writer = &passes[0], *reader = &passes[1];
    uint8_t value[32] = {0};
    char name[16];

    int32_t told = mst_open(1, BOTH_TREES + 400, passes, 2);
    for (int number = 0; told >= MST_ABSENT && number < KEYS; number++) {
        size_t length = (size_t)snprintf(name, sizeof name, "user %d", number);
        told = mst_put(writer, (const uint8_t *)name, length, value, sizeof value, NULL, 0);
    }
    mst_pin(reader);
    told = mst_migrate(writer, 2);
    if (told < 0) /* too few rows are free for both trees, or memory was refused */
        fprintf(stderr, "%s\n", mst_error_text(told));
    tell("the pinned version", reader);
    tell("the version now", writer);
    mst_close(reader); /* ends the pin too */
    mst_close(writer);
    return told < 0;
}
