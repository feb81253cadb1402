/* A report of one version, while a writer goes on. */
#include "mst_store.h"
#include <stdio.h>

#define TEXT(text) (const uint8_t *)(text), sizeof(text) - 1
#define PRINTED(bytes, length) (int)(length), (const char *)(bytes)

/* Prints all accounts of the version that the pass pins. */
static void report(mst_pass *pinned) {
    uint8_t room[100 * MST_PAIR_LONGEST];
    size_t count = 0, length = 0;
    uint64_t version = 0;
    mst_pair pair;

    mst_version(pinned, &version);
    printf("version %llu:\n", (unsigned long long)version);
    int32_t told = mst_range(pinned, NULL, 0, NULL, 0, 100, room, sizeof room, &count, &length);
    if (told != MST_OK) /* only if memory is refused: the room is long enough */
        fprintf(stderr, "%s\n", mst_error_text(told));
    for (size_t at = 0; at < length;) {
        at = mst_pair_at(room, at, &pair);
        printf("  %.*s %.*s\n", PRINTED(pair.key, pair.key_length),
               PRINTED(pair.value, pair.value_length));
    }
}

int main(void) {
    mst_pass passes[2] = {MST_PASS_CLOSED, MST_PASS_CLOSED};
    mst_pass *writer = &passes[0], *reader = &passes[1];

    if (mst_open(1, 100, passes, 2) != MST_OK)
        return 1;
    mst_put(writer, TEXT("ann"), TEXT("60"), NULL, 0);
    mst_put(writer, TEXT("bob"), TEXT("40"), NULL, 0);
    mst_pin(reader);
    mst_put(writer, TEXT("ann"), TEXT("10"), NULL, 0);
    mst_put(writer, TEXT("bob"), TEXT("90"), NULL, 0);
    report(reader);
    mst_unpin(reader);
    mst_pin(reader);
    report(reader);
    mst_unpin(reader);
    mst_close(writer);
    mst_close(reader);
    return 0;
}
