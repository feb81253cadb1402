/*
 * mst_open, mst_close and mst_sharded_open as the header has them. The proved calls, which the
 * library has under other names, close all hands of their arrays before they look at the count; so
 * they get no array that they need not read. And they know of no line: these give each pass of a
 * new store its place there, and take it back.
 */
#include "line.h"

int32_t proved_mst_open(uint32_t format, uint32_t rows, mst_pass *passes, size_t count);
int32_t proved_mst_close(mst_pass *pass);
int32_t proved_mst_sharded_open(uint32_t format, uint32_t rows, const uint8_t *splits,
                                size_t splits_length, mst_handle *handles, size_t count);

/* No hands are as refused as too many, and with the same number. */
static size_t fewer(size_t count) {
    return count <= MST_PASSES_MOST ? count : 0;
}

static void close_all(mst_pass *passes, size_t count) {
    for (size_t i = 0; i < count; i++)
        mst_close(&passes[i]);
}

int32_t mst_open(uint32_t format, uint32_t rows, mst_pass *passes, size_t count) {
    size_t hands = fewer(count);
    close_all(passes, hands);
    int32_t told = proved_mst_open(format, rows, passes, hands);
    if (told != MST_OK || line_open(passes, hands))
        return told;
    close_all(passes, hands);
    return MST_MEMORY;
}

int32_t mst_close(mst_pass *pass) {
    int32_t told = proved_mst_close(pass);
    if (told == MST_OK)
        line_close(pass);
    return told;
}

int32_t mst_sharded_open(uint32_t format, uint32_t rows, const uint8_t *splits,
                         size_t splits_length, mst_handle *handles, size_t count) {
    return proved_mst_sharded_open(format, rows, splits, splits_length, handles, fewer(count));
}
