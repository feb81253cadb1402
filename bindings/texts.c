/* What the library says of itself and of its numbers. It keeps no state and takes no memory. */
#include "mst_store.h"
#include "mst_verifier.h"
#include <stddef.h>

const char *mst_library_version(void) {
    return MST_VERSION_TEXT;
}

/* The tests of a proof of one map. */
static const char *of_proof(int32_t told) {
    switch (told) {
    case MST_P1_FORMAT_BYTE: return "the proof fails P1: its first byte is not the format's";
    case MST_P2_CUT_SHORT: return "the proof fails P2: it is cut short";
    case MST_P3_LEFT_OVER: return "the proof fails P3: bytes are left over";
    case MST_P4_NO_NODE: return "the proof fails P4: a text is not that of a node";
    case MST_P5_OTHER_DIGEST: return "the proof fails P5: a digest is another";
    case MST_P6_LAYER_NOT_BELOW: return "the proof fails P6: a layer is not below that above it";
    case MST_P7_KEY_OUTSIDE: return "the proof fails P7: a key lies outside its node's gap";
    case MST_P8_UNFINISHED: return "the proof fails P8: the text of a child is missing";
    case MST_P9_TEXT_BEHIND: return "the proof fails P9: a text follows the one that decides";
    case MST_P10_OTHER_VALUE: return "the proof fails P10: the answer claimed is not what is held";
    default: return NULL;
    }
}

/* Whether a call returns this number of a proof of a sharded map. S4 and S9 test a part of it, and
 * tell the part's test, P1 to P10. */
static int is_of_sharded_proof(int32_t told) {
    if (told > -100 || told <= -1000)
        return 0;
    int32_t test = MST_SHARDED_TEST(told), part = MST_PART_TEST(told);
    return test == 4 || test == 9 ? part >= 1 && part <= 10 : part == 0;
}

/* The tests of a proof of a sharded map, by their hundreds. */
static const char *of_sharded_proof(int32_t told) {
    switch (is_of_sharded_proof(told) ? MST_SHARDED_TEST(told) : 0) {
    case 1: return "the proof fails S1: its first byte is not the format's";
    case 2: return "the proof fails S2: it is cut short";
    case 3: return "the proof fails S3: the lower bound is no key";
    case 4: return "the proof fails S4: the directory's proof fails";
    case 5: return "the proof fails S5: the directory has no shard with this lower bound";
    case 6: return "the proof fails S6: the directory lists no digest of the shard";
    case 7: return "the proof fails S7: the key is below the shard's lower bound";
    case 8: return "the proof fails S8: the key is not below the shard's upper bound";
    case 9: return "the proof fails S9: the shard's proof fails";
    default: return NULL;
    }
}

/* Refusals of the store, and those that the verifier shares with it. */
static const char *of_store(int32_t told) {
    switch (told) {
    case MST_ABSENT: return "there is no such key, pair or shard";
    case MST_SHORT_ROOM: return "the room is too short";
    case MST_UNKNOWN_FORMAT: return "no format has this number";
    case MST_BAD_ROOT: return "a root digest has 32 bytes";
    case MST_BAD_KEY: return "a key has 1 to 32 bytes";
    case MST_BAD_VALUE: return "a value has 0 to 64 bytes";
    case MST_CLOSED: return "the hand holds no pass";
    case MST_WRONG_STATE: return "a pinned pass does not do this, or a free one does not unpin";
    case MST_MEMORY: return "a growth of memory was refused";
    case MST_BAD_SHAPE: return "a store has 4 to 65535 rows and 1 to 32 passes";
    case MST_BUSY: return "another pass has the turn";
    case MST_VERSIONS_SPENT: return "version numbers are spent";
    case MST_NO_FREE_ROWS: return "fewer rows are free than the write or the migration needs";
    case MST_ROWS_PINNED: return "a version is pinned, so the rows are not counted";
    case MST_BAD_BATCH: return "the bytes are no batch of edits";
    case MST_BAD_SPLITS: return "the bytes are no splits of a sharded map";
    case MST_OVERTAKEN: return "another than the writer of blocks has written";
    case MST_MOVING: return "a block is just being published";
    default: return NULL;
    }
}

const char *mst_error_text(int32_t told) {
    const char *text = of_store(told);
    if (told >= 0)
        return "no error: an answer";
    if (text == NULL)
        text = of_proof(told);
    if (text == NULL)
        text = of_sharded_proof(told);
    return text != NULL ? text : "no call returns this number";
}
