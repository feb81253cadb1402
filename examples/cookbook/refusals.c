/* Refusals, and what to do then. */
#include "mst_store.h"
#include <stdio.h>

#define TEXT(text) (const uint8_t *)(text), sizeof(text) - 1

/* Puts a pair and prints whether that went through. After a refusal all is as it was. */
static void put(const char *what, mst_pass *pass, const uint8_t *key, size_t key_length,
                const uint8_t *value, size_t value_length) {
    uint8_t old[MST_VALUE_LONGEST];
    int32_t told = mst_try_put(pass, key, key_length, value, value_length, old, sizeof old);
    if (told == MST_BUSY) /* another pass has the turn: this call waits for it */
        told = mst_put(pass, key, key_length, value, value_length, old, sizeof old);
    printf("%s: %s\n", what, told >= MST_ABSENT ? "done" : "refused");
    if (told < MST_ABSENT)
        fprintf(stderr, "%s\n", mst_error_text(told));
}

int main(void) {
    mst_pass passes[2] = {MST_PASS_CLOSED, MST_PASS_CLOSED};
    mst_pass *writer = &passes[0], *reader = &passes[1];
    uint8_t bytes[65] = {0};

    printf("a store of 3 rows: %s\n", mst_open(1, 3, passes, 2) == MST_OK ? "done" : "refused");
    if (mst_open(1, 10, passes, 2) != MST_OK) /* for three keys and the path of one change */
        return 1;
    put("a key of 33 bytes", writer, bytes, 33, TEXT("35"));
    put("a value of 65 bytes", writer, TEXT("apple"), bytes, 65);
    mst_put(writer, TEXT("plum"), TEXT("35"), NULL, 0);
    mst_put(writer, TEXT("pear"), TEXT("35"), NULL, 0);
    mst_put(writer, TEXT("apple"), TEXT("30"), NULL, 0);
    mst_pin(reader);
    put("a change beside a pinned version", writer, TEXT("apple"), TEXT("31"));
    put("one more", writer, TEXT("apple"), TEXT("35")); /* too few rows are free */
    mst_unpin(reader);
    put("the same after the unpin", writer, TEXT("apple"), TEXT("35"));
    mst_close(writer);
    mst_close(reader);
    return 0;
}
