/*
 * Texts of nodes and pieces of proofs, as bytes of any kind, without a store: the worked example of
 * docs/FORMAT.md in both formats, all that is shorter, each change of a byte, and random bytes.
 * Each lies in memory of just its length, so that memcheck, or cc with -fsanitize=address, sees a
 * read behind it.
 */
#include "../../bindings/nodes.c"
#include "tests.h"
#include <stdlib.h>

#define TEXT_ROOM 256
#define RANDOM_TEXTS 200000

/* The keys of the example; the values are x, y and z. */
static const struct octets low_key = {(const uint8_t *)"1", 1};
static const struct octets top_key = {(const uint8_t *)"39", 2};
static const struct octets high_key = {(const uint8_t *)"a", 1};
static const struct octets none = {NULL, 0};

static uint64_t state = 88172645463325252u;

struct text_room {
    uint8_t bytes[TEXT_ROOM], digest[MST_ROOT_LENGTH];
    size_t length;
};

/* Of each format: the top node, and the children on its sides. */
static struct text_room tops[3], lows[3], highs[3];

static uint32_t random_below(uint32_t limit) {
    state ^= state << 13;
    state ^= state >> 7;
    state ^= state << 17;
    return (uint32_t)(state >> 32) % limit;
}

/* ---- texts ---- */

static void add(struct text_room *to, const uint8_t *bytes, size_t length) {
    memcpy(to->bytes + to->length, bytes, length);
    to->length += length;
}

static void add_byte(struct text_room *to, size_t byte) {
    uint8_t one = (uint8_t)byte;
    add(to, &one, 1);
}

static void add_child(struct text_room *to, const struct text_room *child) {
    add_byte(to, child != NULL);
    if (child != NULL)
        add(to, child->digest, sizeof child->digest);
}

static void add_held(struct text_room *to, uint32_t format, struct octets value) {
    uint8_t digest[MST_ROOT_LENGTH];
    sha256(value.at, value.length, digest);
    if (format == 1)
        add_byte(to, value.length);
    add(to, format == 1 ? value.at : digest, format == 1 ? value.length : sizeof digest);
}

/* A node of one entry, whose value is a letter. */
static struct text_room text_of(uint32_t format, struct octets key, char letter,
                                const struct text_room *before, const struct text_room *behind) {
    uint8_t value = (uint8_t)letter;
    struct text_room made = {{0}, {0}, 0};
    add_byte(&made, format);
    add_byte(&made, (size_t)layer_of(format, key.at, key.length));
    add_byte(&made, 0);
    add_byte(&made, 1);
    add_child(&made, before);
    add_byte(&made, key.length);
    add(&made, key.at, key.length);
    add_held(&made, format, (struct octets){&value, 1});
    add_child(&made, behind);
    sha256(made.bytes, made.length, made.digest);
    return made;
}

static void make_texts(void) {
    for (uint32_t format = 1; format <= 2; format++) {
        lows[format] = text_of(format, low_key, 'x', NULL, NULL);
        highs[format] = text_of(format, high_key, 'z', NULL, NULL);
        tops[format] = text_of(format, top_key, 'y', &lows[format], &highs[format]);
    }
}

/* ---- reading ---- */

/* Bytes in memory of just their length, to be freed. */
static struct octets apart(const uint8_t *bytes, size_t length) {
    uint8_t *at = malloc(length);
    if (length > 0)
        memcpy(at, bytes, length);
    return (struct octets){at, length};
}

static int lies_in(struct octets whole, const uint8_t *at, size_t length) {
    return at >= whole.at && length <= whole.length
        && (size_t)(at - whole.at) <= whole.length - length;
}

/* Whether the text is read to its end; what is read lies in it. */
static int is_read(uint32_t format, struct octets text) {
    struct reader reader;
    struct gap gap = {NULL, {NULL, 0}, {NULL, 0}};
    if (!begin_node(&reader, format, text))
        return 0;
    do {
        if (!read_gap(&reader, &gap))
            return 0;
        EXPECT(gap.child == NULL || lies_in(text, gap.child, MST_ROOT_LENGTH));
        EXPECT((gap.key.at == NULL) == (gap.held.at == NULL));
        EXPECT(gap.key.at == NULL || lies_in(text, gap.key.at, gap.key.length));
        EXPECT(gap.key.at == NULL || lies_in(text, gap.held.at, gap.held.length));
    } while (gap.key.at != NULL);
    return 1;
}

static int32_t judge(uint32_t format, struct octets text, const uint8_t *digest) {
    struct stand stand = {digest, 256, none, none};
    int layer;
    return judge_node(format, text, &stand, &layer);
}

/* The texts of both formats: whole, cut short, with a byte more, and with each byte changed. */
static void each_is_read(uint32_t format, const struct text_room *made) {
    uint8_t bytes[TEXT_ROOM + 1] = {0};
    memcpy(bytes, made->bytes, made->length);
    for (size_t length = 0; length <= made->length + 1; length++) {
        struct octets text = apart(bytes, length);
        int is_whole = length == made->length;
        EXPECT(is_read(format, text) == is_whole && !is_read(3 - format, text));
        EXPECT(judge(format, text, made->digest) == (is_whole ? MST_OK : MST_P4_NO_NODE));
        free((void *)(uintptr_t)text.at);
    }
    for (size_t at = 0; at < made->length; at++) {
        for (unsigned change = 1; change < 256; change++) {
            bytes[at] ^= (uint8_t)change;
            struct octets text = apart(bytes, made->length);
            int32_t told = judge(format, text, made->digest);
            EXPECT(told == MST_P4_NO_NODE || told == MST_P5_OTHER_DIGEST);
            EXPECT(is_read(format, text) || told == MST_P4_NO_NODE);
            free((void *)(uintptr_t)text.at);
            bytes[at] ^= (uint8_t)change;
        }
    }
}

/* Where a node may stand: below the layer above it, and between the keys next to its gap. */
static void each_stands(uint32_t format) {
    const struct text_room *low = &lows[format], *top = &tops[format];
    struct octets text = {low->bytes, low->length}, above = {top->bytes, top->length};
    struct stand stand = {low->digest, layer_of(format, top_key.at, 2), none, top_key};
    int layer = -1;
    EXPECT(judge_node(format, text, &stand, &layer) == MST_OK && layer < stand.upper);
    stand.high = low_key;
    EXPECT(judge_node(format, text, &stand, &layer) == MST_P7_KEY_OUTSIDE);
    stand.high = none;
    stand.low = low_key;
    EXPECT(judge_node(format, text, &stand, &layer) == MST_P7_KEY_OUTSIDE);
    stand.upper = layer;
    EXPECT(judge_node(format, text, &stand, &layer) == MST_P6_LAYER_NOT_BELOW);
    stand.digest = top->digest;
    EXPECT(judge_node(format, text, &stand, &layer) == MST_P5_OTHER_DIGEST);
    stand.low = none;
    stand.upper = 256;
    EXPECT(judge_node(format, above, &stand, &layer) == MST_OK);
    EXPECT(layer == layer_of(format, top_key.at, 2));
    EXPECT(judge_node(3 - format, above, &stand, &layer) == MST_P4_NO_NODE);
}

/* Random bytes that begin as a text does. */
static void random_texts(void) {
    uint8_t bytes[TEXT_ROOM];
    size_t read = 0;
    for (unsigned tries = 0; tries < RANDOM_TEXTS; tries++) {
        uint32_t format = 1 + random_below(2), length = random_below(80);
        for (size_t at = 0; at < length; at++)
            bytes[at] = (uint8_t)random_below(random_below(2) ? 256 : 3);
        bytes[0] = (uint8_t)format;
        bytes[2] = 0;
        bytes[3] = (uint8_t)random_below(4);
        struct octets text = apart(bytes, length);
        read += (size_t)is_read(format, text);
        free((void *)(uintptr_t)text.at);
    }
    EXPECT(read > 0);
}

/* ---- pieces ---- */

/* Whether the proof has this piece; what is told lies in it. */
static int has_piece(struct octets proof, uint32_t number, const uint8_t *wanted, size_t length) {
    const uint8_t *piece = NULL;
    size_t told_length = 77;
    int32_t told = mst_proof_piece(proof.at, proof.length, number, &piece, &told_length);
    if (told != MST_OK) {
        EXPECT(told == MST_ABSENT && piece == NULL && told_length == 77);
        return 0;
    }
    EXPECT(lies_in(proof, piece, told_length));
    return told_length == length && memcmp(piece, wanted, length) == 0;
}

/* The proof of the key in the low child: two texts, and in format 2 a tail. */
static void pieces(uint32_t format) {
    static const uint8_t tail[] = {1, 1, 'x'};
    const struct text_room *texts[] = {&tops[format], &lows[format]};
    size_t tail_length = format == 2 ? sizeof tail : 0, ends[2];
    struct text_room proof = {{0}, {0}, 0};
    add_byte(&proof, format);
    add_byte(&proof, 2);
    for (int at = 0; at < 2; at++) {
        const uint8_t length[] = {0, 0, 0, (uint8_t)texts[at]->length};
        add(&proof, length, sizeof length);
        add(&proof, texts[at]->bytes, texts[at]->length);
        ends[at] = proof.length;
    }
    add(&proof, tail, tail_length);
    for (size_t length = 0; length <= proof.length; length++) {
        struct octets cut = apart(proof.bytes, length);
        for (uint32_t at = 0; at < 2; at++)
            EXPECT(has_piece(cut, at, texts[at]->bytes, texts[at]->length)
                   == (length >= ends[at]));
        size_t behind = length > ends[1] ? length - ends[1] : 0;
        EXPECT(has_piece(cut, 2, tail, behind) == (behind > 0));
        EXPECT(!has_piece(cut, 3, NULL, 0) && !has_piece(cut, UINT32_MAX, NULL, 0));
        free((void *)(uintptr_t)cut.at);
    }
}

static void random_proofs(void) {
    uint8_t bytes[TEXT_ROOM];
    for (unsigned tries = 0; tries < RANDOM_TEXTS; tries++) {
        uint32_t length = random_below(60);
        for (size_t at = 0; at < length; at++)
            bytes[at] = (uint8_t)random_below(random_below(4) ? 2 : 256);
        struct octets proof = apart(bytes, length);
        for (uint32_t number = 0; number < 4; number++)
            has_piece(proof, number, NULL, SIZE_MAX);
        free((void *)(uintptr_t)proof.at);
    }
}

/* A value of two bytes, cut short, with a byte more, changed, and others. */
static void tails(void) {
    static const uint8_t bytes[] = {1, 2, 'x', 'y', 0}, absent[] = {0}, odd[] = {2};
    uint8_t digest[MST_ROOT_LENGTH], long_tail[67] = {1, 65}, long_digest[MST_ROOT_LENGTH];
    struct octets held = {digest, sizeof digest}, value = none;
    sha256(bytes + 2, 2, digest);
    for (size_t length = 0; length <= sizeof bytes; length++) {
        struct octets tail = apart(bytes, length);
        int32_t wanted = length < 4 ? MST_P2_CUT_SHORT : length > 4 ? MST_P3_LEFT_OVER : MST_OK;
        EXPECT(open_tail(tail, held, &value) == wanted);
        EXPECT(length != 4 || (value.at == tail.at + 2 && value.length == 2));
        free((void *)(uintptr_t)tail.at);
    }
    EXPECT(open_tail((struct octets){absent, 1}, held, &value) == MST_P10_OTHER_VALUE);
    EXPECT(open_tail((struct octets){odd, 1}, held, &value) == MST_P10_OTHER_VALUE);
    digest[31] ^= 1;
    EXPECT(open_tail((struct octets){bytes, 4}, held, &value) == MST_P10_OTHER_VALUE);
    sha256(long_tail + 2, 65, long_digest);
    EXPECT(open_tail((struct octets){long_tail, 67}, (struct octets){long_digest, 32}, &value)
           == MST_P10_OTHER_VALUE);
}

int main(void) {
    make_texts();
    EXPECT(tops[1].length == 75 && tops[1].digest[0] == 0x37 && tops[1].digest[31] == 0xac);
    for (uint32_t format = 1; format <= 2; format++) {
        each_is_read(format, &tops[format]);
        each_is_read(format, &lows[format]);
        each_stands(format);
        pieces(format);
    }
    random_texts();
    random_proofs();
    tails();
    return ended("nodes");
}
