/*
 * What vectors cannot say: formats, sizes of roots and keys, null pointers, any bytes; and that no
 * call asks for memory: while they are made, each growth is refused and counted.
 */
#include "../store/heap.h"
#include "vectors.h"

static const char *const root_word =
    "d4a8a9fc55058427163bd8a1f09ca5ec542de1cdaf28df100be5472e47b72503";
static const char *const proof_word = "0101000000110100000200016101310003616263017800";
static const char *const empty_word =
    "e3b0c44298fc1c149afbf4c8996fb92427ae41e4649b934ca495991b7852b855";

/* A proof of a sharded map of 3 shards, for `grape`, which has the value `12`. */
static const char *const sharded_root_word =
    "560004d6aa72c4d5e445ebac7da9c577f835b74157c2e1e9396c80eb35069274";
static const char *const sharded_proof_word =
    "030164000000790101000000730100000300010021ec36763611dd79560de2a0e8c31f633c3aabf205e095b97b88e6"
    "291d7cdfbb25640001642129eedf210a2163cba998603ba5ccd361a81859d2d0ad26cd90de11e16891961a6d00016d"
    "20ba1a0981e678c0fdf1830c949f49a99dc78f238a43684e3d4baafe65f43c1aa20001010000002f010100010143ab"
    "ea0939ba46bc566b5181453c3c283b8232d50ace4a606467e5c084faae6e05677261706502313200";

static size_t passed, failed;

static void is(const char *what, int64_t told, int64_t wanted)
{
    told == wanted ? passed++ : failed++;
    if (told != wanted)
        printf("%s: %lld, and not %lld\n", what, (long long)told, (long long)wanted);
}

/* From here on each growth is refused. */
static void refuse_memory(void)
{
    asked = 0;
    count_from(0);
}

static void grant_memory(void)
{
    is("growths", asked, 0);
    counting = 0;
}

static uint64_t state = 88172645463325252u;

static uint64_t some(void)
{
    state ^= state << 13;
    state ^= state >> 7;
    return state ^= state << 17;
}

/* The same of a proof of a sharded map. */
static void sharded_edges(void)
{
    size_t size, n;
    uint8_t *root = bytes_of(sharded_root_word, &n), *proof = bytes_of(sharded_proof_word, &size);
    uint8_t key[300] = "grape", room[MST_VALUE_ROOM];
    refuse_memory();
    is("present", mst_verify_sharded(1, root, 32, key, 5, proof, size, room, 64), 2);
    is("its value", room[0] == '1' && room[1] == '2', 1);
    is("just its room", mst_verify_sharded(1, root, 32, key, 5, proof, size, room, 2), 2);
    is("less room", mst_verify_sharded(1, root, 32, key, 5, proof, size, room, 1), MST_SHORT_ROOM);
    is("no room, null", mst_verify_sharded(1, root, 32, key, 5, proof, size, NULL, 0),
       MST_SHORT_ROOM);
    is("a null proof", mst_verify_sharded(1, root, 32, key, 5, NULL, 0, room, 64),
       MST_S2_CUT_SHORT);
    is("a null key", mst_verify_sharded(1, root, 32, NULL, 0, proof, size, room, 64), MST_BAD_KEY);
    is("a null root", mst_verify_sharded(1, NULL, 0, key, 5, proof, size, room, 64), MST_BAD_ROOT);
    is("all null", mst_verify_sharded(1, NULL, 0, NULL, 0, NULL, 0, NULL, 0), MST_BAD_ROOT);
    is("all null, no format", mst_verify_sharded(0, NULL, 0, NULL, 0, NULL, 0, NULL, 0),
       MST_UNKNOWN_FORMAT);
    is("format 0", mst_verify_sharded(0, root, 32, key, 5, proof, size, room, 64),
       MST_UNKNOWN_FORMAT);
    is("a proof of format 1 in format 2",
       mst_verify_sharded(2, root, 32, key, 5, proof, size, room, 64), MST_S1_FORMAT_BYTE);
    for (uint32_t format = 3; format; format *= 2)
        is("a format", mst_verify_sharded(format, root, 32, key, 5, proof, size, room, 64),
           MST_UNKNOWN_FORMAT);
    for (size_t length = 0; length < sizeof key; length++) {
        /* below `grape` the shard has a child, which is not shown */
        int32_t told = length == 0 || length > 32 ? MST_BAD_KEY
                       : length < 5               ? MST_S9_SHARD - 8
                       : length == 5              ? 2
                                                  : MST_ABSENT;
        is("a key", mst_verify_sharded(1, root, 32, key, length, proof, size, room, 64), told);
        is("a root", mst_verify_sharded(1, key, length, key, 5, proof, size, room, 64),
           length == 32 ? MST_S4_DIRECTORY - 5 : MST_BAD_ROOT);
    }
    is("the test of S9 P10", MST_SHARDED_TEST(MST_S9_SHARD - 10), 9);
    is("the part's test of S9 P10", MST_PART_TEST(MST_S9_SHARD - 10), 10);
    is("the part's test of S5", MST_PART_TEST(MST_S5_NOT_LISTED), 0);
    for (int i = 0; i < 200000; i++) {
        uint8_t bytes[96];
        size_t length = some() % (sizeof bytes + 1);
        for (size_t at = 0; at < length; at++)
            bytes[at] = some() % 3 ? (uint8_t)some() : (uint8_t)(some() % 5);
        if (length && some() % 2)
            bytes[0] = 3;
        int32_t told =
            mst_verify_sharded(1, root, 32, bytes, length % 33, bytes, length, room, some() % 65);
        is("any bytes",
           told == MST_BAD_KEY || (told <= MST_S1_FORMAT_BYTE && told >= MST_S4_DIRECTORY - 10), 1);
    }
    grant_memory();
    free(root);
    free(proof);
}

/* The first texts of proofs: the length of each, or -1 where the bytes are cut short before it. */
static void first_texts(void)
{
    static const struct {
        const char *proof;
        size_t size;
        int64_t told;
    } cases[] = {
        {"\1\2\0\0\0\2\n\v\0\0\0\1\f", 13, 2}, /* the second text does not matter */
        {"\377\1\0\0\0\0", 6, 0},              /* nor does the format */
        {"\1\0\0\0\0\1\252", 7, -1},           /* no text */
        {"\1\1\0\0\0\2\n", 7, -1},             /* one that is cut short */
        {"\1\1\0\0", 4, -1},                    /* a length that is */
    };
    for (size_t at = 0; at < sizeof cases / sizeof *cases; at++)
        is("a first text", mst_top_text((const uint8_t *)cases[at].proof, cases[at].size),
           cases[at].told);
}

int main(void)
{
    size_t size, n;
    uint8_t *root = bytes_of(root_word, &n), *empty = bytes_of(empty_word, &n),
            *proof = bytes_of(proof_word, &size);
    uint8_t key[300] = "a", room[MST_VALUE_ROOM];
    const uint8_t nothing[2] = {1, 0};
    refuse_memory();
    is("present", mst_verify(1, root, 32, key, 1, proof, size, room, 64), 1);
    is("its value", room[0], '1');
    is("just its room", mst_verify(1, root, 32, key, 1, proof, size, room, 1), 1);
    is("no room", mst_verify(1, root, 32, key, 1, proof, size, room, 0), MST_SHORT_ROOM);
    is("no room, null", mst_verify(1, root, 32, key, 1, proof, size, NULL, 0), MST_SHORT_ROOM);
    is("no room is needed", mst_verify(1, empty, 32, key, 1, nothing, 2, NULL, 0), MST_ABSENT);
    is("a null proof", mst_verify(1, root, 32, key, 1, NULL, 0, room, 64), MST_P2_CUT_SHORT);
    is("a null key", mst_verify(1, root, 32, NULL, 0, proof, size, room, 64), MST_BAD_KEY);
    is("a null root", mst_verify(1, NULL, 0, key, 1, proof, size, room, 64), MST_BAD_ROOT);
    is("all null", mst_verify(1, NULL, 0, NULL, 0, NULL, 0, NULL, 0), MST_BAD_ROOT);
    is("all null, no format", mst_verify(0, NULL, 0, NULL, 0, NULL, 0, NULL, 0),
       MST_UNKNOWN_FORMAT);
    is("a proof of format 1 in format 2", mst_verify(2, root, 32, key, 1, proof, size, room, 64),
       MST_P1_FORMAT_BYTE);
    is("format 0", mst_verify(0, root, 32, key, 1, proof, size, room, 64), MST_UNKNOWN_FORMAT);
    is("format 3", mst_verify(3, root, 32, key, 1, proof, size, room, 64), MST_UNKNOWN_FORMAT);
    for (uint32_t format = 4; format; format *= 2)
        is("a format", mst_verify(format, root, 32, key, 1, proof, size, room, 64),
           MST_UNKNOWN_FORMAT);
    for (size_t length = 0; length < sizeof key; length++) {
        int32_t told = length == 0 || length > 32 ? MST_BAD_KEY : length == 1 ? 1 : MST_ABSENT;
        is("a key", mst_verify(1, root, 32, key, length, proof, size, room, 64), told);
        is("a root", mst_verify(1, key, length, key, 1, proof, size, room, 64),
           length == 32 ? MST_P5_OTHER_DIGEST : MST_BAD_ROOT);
    }
    is("the first text", mst_top_text(proof, size), 17);
    is("more behind it", mst_top_text(proof, size - 1), -1);
    is("no text", mst_top_text(nothing, 2), -1);
    is("no bytes", mst_top_text(NULL, 0), -1);
    first_texts();
    for (int i = 0; i < 200000; i++) {
        uint8_t bytes[96];
        size_t length = some() % (sizeof bytes + 1);
        for (size_t at = 0; at < length; at++)
            bytes[at] = some() % 3 ? (uint8_t)some() : (uint8_t)(some() % 3);
        int32_t told =
            mst_verify(1, root, 32, bytes, length % 33, bytes, length, room, some() % 65);
        is("any bytes",
           told == MST_BAD_KEY || (told <= MST_P1_FORMAT_BYTE && told >= MST_P9_TEXT_BEHIND), 1);
        int64_t text = mst_top_text(bytes, length);
        is("any first text", text >= -1 && text + 6 <= (int64_t)(length < 6 ? 6 : length), 1);
    }
    grant_memory();
    free(root);
    free(empty);
    free(proof);
    sharded_edges();
    printf("%zu as wanted, %zu not\n", passed, failed);
    return failed > 0;
}
