/*
 * A verifier by hand in portable C, by docs/FORMAT.md, with nothing proved: what the speed of the
 * library is measured against. Of the header it has `mst_verify` and `mst_verify_sharded`. It
 * stands in the library's place:
 *
 *     cc -O2 -Iinclude examples/verify.c verifiers/c/mst_verifier.c -o verify
 */
#include "mst_verifier.h"

#include <string.h>

static const uint32_t K[64] = {
    0x428a2f98, 0x71374491, 0xb5c0fbcf, 0xe9b5dba5, 0x3956c25b, 0x59f111f1, 0x923f82a4, 0xab1c5ed5,
    0xd807aa98, 0x12835b01, 0x243185be, 0x550c7dc3, 0x72be5d74, 0x80deb1fe, 0x9bdc06a7, 0xc19bf174,
    0xe49b69c1, 0xefbe4786, 0x0fc19dc6, 0x240ca1cc, 0x2de92c6f, 0x4a7484aa, 0x5cb0a9dc, 0x76f988da,
    0x983e5152, 0xa831c66d, 0xb00327c8, 0xbf597fc7, 0xc6e00bf3, 0xd5a79147, 0x06ca6351, 0x14292967,
    0x27b70a85, 0x2e1b2138, 0x4d2c6dfc, 0x53380d13, 0x650a7354, 0x766a0abb, 0x81c2c92e, 0x92722c85,
    0xa2bfe8a1, 0xa81a664b, 0xc24b8b70, 0xc76c51a3, 0xd192e819, 0xd6990624, 0xf40e3585, 0x106aa070,
    0x19a4c116, 0x1e376c08, 0x2748774c, 0x34b0bcb5, 0x391c0cb3, 0x4ed8aa4a, 0x5b9cca4f, 0x682e6ff3,
    0x748f82ee, 0x78a5636f, 0x84c87814, 0x8cc70208, 0x90befffa, 0xa4506ceb, 0xbef9a3f7, 0xc67178f2};

static uint32_t turned(uint32_t x, int n)
{
    return x >> n | x << (32 - n);
}

/* One block of 64 bytes (FIPS 180-4, section 6.2.2). */
static void compress(uint32_t h[8], const uint8_t *block)
{
    uint32_t w[64], s[8];
    for (int i = 0; i < 16; i++)
        w[i] = (uint32_t)block[4 * i] << 24 | (uint32_t)block[4 * i + 1] << 16
               | (uint32_t)block[4 * i + 2] << 8 | block[4 * i + 3];
    for (int i = 16; i < 64; i++)
        w[i] = (turned(w[i - 2], 17) ^ turned(w[i - 2], 19) ^ w[i - 2] >> 10) + w[i - 7]
             + (turned(w[i - 15], 7) ^ turned(w[i - 15], 18) ^ w[i - 15] >> 3) + w[i - 16];
    memcpy(s, h, sizeof s);
    for (int i = 0; i < 64; i++) {
        uint32_t one = s[7] + (turned(s[4], 6) ^ turned(s[4], 11) ^ turned(s[4], 25))
                       + ((s[4] & s[5]) ^ (~s[4] & s[6])) + K[i] + w[i];
        uint32_t two = (turned(s[0], 2) ^ turned(s[0], 13) ^ turned(s[0], 22))
                       + ((s[0] & s[1]) ^ (s[0] & s[2]) ^ (s[1] & s[2]));
        s[7] = s[6], s[6] = s[5], s[5] = s[4], s[4] = s[3] + one;
        s[3] = s[2], s[2] = s[1], s[1] = s[0], s[0] = one + two;
    }
    for (int i = 0; i < 8; i++)
        h[i] += s[i];
}

static void sha256(const uint8_t *bytes, size_t length, uint8_t digest[32])
{
    uint32_t h[8] = {0x6a09e667, 0xbb67ae85, 0x3c6ef372, 0xa54ff53a,
                     0x510e527f, 0x9b05688c, 0x1f83d9ab, 0x5be0cd19};
    uint8_t last[128] = {0};
    size_t at = 0, rest = length % 64, padded = rest < 56 ? 64 : 128;
    for (; at + 64 <= length; at += 64)
        compress(h, bytes + at);
    if (rest > 0)
        memcpy(last, bytes + at, rest);
    last[rest] = 0x80;
    for (size_t i = 0; i < 8; i++)
        last[padded - 1 - i] = (uint8_t)((uint64_t)length * 8 >> 8 * i);
    for (size_t i = 0; i < padded; i += 64)
        compress(h, last + i);
    for (int i = 0; i < 32; i++)
        digest[i] = (uint8_t)(h[i / 4] >> (24 - 8 * (i % 4)));
}

struct text { const uint8_t *at; size_t left; };

/* This many bytes from the front, or null if fewer are left. */
static const uint8_t *take(struct text *from, size_t count)
{
    const uint8_t *at = from->at;
    if (from->left < count)
        return NULL;
    from->at += count;
    from->left -= count;
    return at;
}

static int compared(const uint8_t *a, size_t m, const uint8_t *b, size_t n)
{
    int order = memcmp(a, b, m < n ? m : n);
    return order ? order : (m > n) - (m < n);
}

static int layer_of(uint32_t format, const uint8_t *key, size_t length)
{
    uint8_t digest[32];
    int zeros = 0;
    sha256(key, length, digest);
    while (zeros < 64 && (digest[zeros / 2] >> (zeros % 2 ? 0 : 4) & 15) == 0)
        zeros++;
    /* Each hexadecimal digit is two of base four. */
    if (format == 2)
        zeros = 2 * zeros + (zeros < 64 && (digest[zeros / 2] >> (zeros % 2 ? 0 : 4) & 15) < 4);
    return zeros;
}

struct bound { const uint8_t *key; size_t length; };

/* What a search for a key finds in a node: its entry, or the gap with its bounds and child. */
struct found {
    int layer, is_held;
    const uint8_t *value, *child;
    size_t value_length;
    struct bound low, high, first, last;
};

/* Reads a child; 0 if the text is cut short or the flag is not 0 or 1. */
static int read_child(struct text *text, const uint8_t **child)
{
    const uint8_t *flag = take(text, 1);
    *child = NULL;
    return flag != NULL && *flag <= 1 && (*flag == 0 || (*child = take(text, 32)) != NULL);
}

/* What a node holds of a value: the value, in format 2 its SHA-256; NULL outside the grammar. */
static const uint8_t *read_held(uint32_t format, struct text *text, size_t *length)
{
    const uint8_t *n = format == 1 ? take(text, 1) : NULL;
    if (format == 1 && (n == NULL || *n > 64))
        return NULL;
    *length = format == 1 ? *n : 32;
    return take(text, *length);
}

/* What a proof of format 2 claims: its value's length, -1 for absence, -2 for no answer at all. */
struct claim { const uint8_t *value; int length; };

/* Reads the tail of a proof; 0 if it is cut short. */
static int read_tail(struct text *text, struct claim *to)
{
    const uint8_t *first = take(text, 1), *n;
    *to = (struct claim){NULL, -2};
    if (first == NULL)
        return 0;
    if (*first != 1)
        return to->length = *first == 0 ? -1 : -2, 1;
    if ((n = take(text, 1)) == NULL || (to->value = take(text, *n)) == NULL)
        return 0;
    to->length = *n > 64 ? -2 : *n;
    return 1;
}

/* Whether the claim is that of an answer of which this is held, or of absence if it is NULL. */
static int is_opened(const struct claim *claim, const uint8_t *held)
{
    uint8_t digest[32];
    if (held == NULL || claim->length < 0)
        return held == NULL && claim->length == -1;
    sha256(claim->value, (size_t)claim->length, digest);
    return memcmp(digest, held, 32) == 0;
}

/* Reads a node text whole; 0 if it is outside the grammar. */
static int read_node(uint32_t format, struct text text, struct bound key, struct found *to)
{
    const uint8_t *head = take(&text, 4), *child;
    struct bound before = {NULL, 0};
    memset(to, 0, sizeof *to);
    if (head == NULL || head[0] != format || (head[2] | head[3]) == 0 || !read_child(&text, &child))
        return 0;
    to->layer = head[1];
    to->child = child;
    for (int left = head[2] << 8 | head[3]; left > 0; left--) {
        const uint8_t *size = take(&text, 1), *k, *v;
        size_t length = 0;
        if (size == NULL || *size < 1 || *size > 32 || (k = take(&text, *size)) == NULL
            || (v = read_held(format, &text, &length)) == NULL || !read_child(&text, &child)
            || layer_of(format, k, *size) != to->layer)
            return 0;
        if (before.key != NULL && compared(before.key, before.length, k, *size) >= 0)
            return 0;
        int order = compared(k, *size, key.key, key.length);
        before = (struct bound){k, *size};
        if (to->first.key == NULL)
            to->first = before;
        if (order <= 0)
            to->child = child;
        if (order < 0)
            to->low = before;
        if (order > 0 && to->high.key == NULL)
            to->high = before;
        if (order == 0)
            to->is_held = 1, to->value = v, to->value_length = length;
    }
    to->last = before;
    return text.left == 0;
}

/* The length that four bytes spell, the high one first. */
static size_t length_in(const uint8_t *n)
{
    return (size_t)n[0] << 24 | (size_t)n[1] << 16 | (size_t)n[2] << 8 | n[3];
}

/* The verdict on a proof of no texts with this claim. */
static int32_t verdict_of_none(const uint8_t *root, const struct claim *claim)
{
    uint8_t digest[32];
    sha256(NULL, 0, digest);
    if (memcmp(digest, root, 32))
        return -15;
    return claim->length == -1 ? -1 : -20;
}

int32_t mst_verify(uint32_t format, const uint8_t *root, size_t root_length, const uint8_t *key,
                   size_t key_length, const uint8_t *proof, size_t proof_length, uint8_t *room,
                   size_t room_length)
{
    struct text rest = {proof, proof_length}, frame;
    struct bound low = {NULL, 0}, high = {NULL, 0};
    const uint8_t *head = take(&rest, 1), *count, *expected = root;
    struct claim claim = {NULL, -1};
    int upper = 256;
    uint8_t digest[32];
    if (format != 1 && format != 2)
        return -3;
    if (root_length != 32)
        return -4;
    if (key_length < 1 || key_length > 32)
        return -5;
    if (head == NULL)
        return -12;
    if (*head != format)
        return -11;
    if ((count = take(&rest, 1)) == NULL)
        return -12;
    frame = rest;
    for (int i = 0; i < *count; i++) {
        const uint8_t *n = take(&rest, 4);
        if (n == NULL || take(&rest, length_in(n)) == NULL)
            return -12;
    }
    if (format == 2 && !read_tail(&rest, &claim))
        return -12;
    if (rest.left > 0)
        return -13;
    if (*count == 0)
        return verdict_of_none(root, &claim);
    for (int i = 0; i < *count; i++) {
        const uint8_t *n = take(&frame, 4);
        struct text text = {NULL, length_in(n)};
        struct found node;
        text.at = take(&frame, text.left);
        if (!read_node(format, text, (struct bound){key, key_length}, &node))
            return -14;
        sha256(text.at, text.left, digest);
        if (memcmp(digest, expected, 32))
            return -15;
        if (node.layer >= upper)
            return -16;
        if ((low.key && compared(node.first.key, node.first.length, low.key, low.length) <= 0)
            || (high.key && compared(node.last.key, node.last.length, high.key, high.length) >= 0))
            return -17;
        if (node.is_held || node.child == NULL) {
            if (i + 1 < *count)
                return -19;
            if (format == 2 && !is_opened(&claim, node.is_held ? node.value : NULL))
                return -20;
            if (!node.is_held)
                return -1;
            if (format == 2)
                node.value = claim.value, node.value_length = (size_t)claim.length;
            if (node.value_length > room_length)
                return -2;
            memcpy(room, node.value, node.value_length);
            return (int32_t)node.value_length;
        }
        if (i + 1 == *count)
            return -18;
        expected = node.child;
        upper = node.layer;
        low = node.low.key ? node.low : low;
        high = node.high.key ? node.high : high;
    }
    return -18;
}

/* The parts of a proof of a sharded map: the lower bound, the directory's proof, the shard's. */
struct parts { struct text low, directory, shard; };

/* Cuts a proof into its parts; returns 0, or the test S1 to S3 that it fails. */
static int32_t read_parts(uint32_t format, struct text rest, struct parts *to)
{
    const uint8_t *head = take(&rest, 1), *size, *four;
    if (head == NULL)
        return MST_S2_CUT_SHORT;
    if (*head != format + 2)
        return MST_S1_FORMAT_BYTE;
    if ((size = take(&rest, 1)) == NULL || (to->low.at = take(&rest, *size)) == NULL)
        return MST_S2_CUT_SHORT;
    if (*size < 1 || *size > 32)
        return MST_S3_NO_KEY;
    to->low.left = *size;
    if ((four = take(&rest, 4)) == NULL)
        return MST_S2_CUT_SHORT;
    to->directory.left = length_in(four);
    if ((to->directory.at = take(&rest, to->directory.left)) == NULL)
        return MST_S2_CUT_SHORT;
    to->shard = rest;
    return 0;
}

/* What is told of a part: a test that it fails has its number behind that of the part. */
static int32_t told_of_part(int32_t part, int32_t told)
{
    return told <= MST_P1_FORMAT_BYTE ? part - (MST_P1_FORMAT_BYTE + 1 - told) : told;
}

int32_t mst_verify_sharded(uint32_t format, const uint8_t *root, size_t root_length,
                           const uint8_t *key, size_t key_length, const uint8_t *proof,
                           size_t proof_length, uint8_t *room, size_t room_length)
{
    struct parts it;
    uint8_t held[MST_VALUE_ROOM];
    int32_t told;
    if (format != 1 && format != 2)
        return MST_UNKNOWN_FORMAT;
    if (root_length != 32)
        return MST_BAD_ROOT;
    if (key_length < 1 || key_length > 32)
        return MST_BAD_KEY;
    if ((told = read_parts(format, (struct text){proof, proof_length}, &it)) != 0)
        return told;
    told = mst_verify(format, root, 32, it.low.at, it.low.left, it.directory.at, it.directory.left,
                      held, sizeof held);
    if (told == MST_ABSENT)
        return MST_S5_NOT_LISTED;
    if (told < 0)
        return told_of_part(MST_S4_DIRECTORY, told);
    if (told < 32)
        return MST_S6_NO_LISTING;
    if (compared(key, key_length, it.low.at, it.low.left) < 0)
        return MST_S7_KEY_BELOW;
    if (told > 32 && compared(key, key_length, held + 32, (size_t)told - 32) >= 0)
        return MST_S8_KEY_NOT_BELOW;
    told = mst_verify(format, held, 32, key, key_length, it.shard.at, it.shard.left, room,
                      room_length);
    return told_of_part(MST_S9_SHARD, told);
}
