/*
 * Texts of nodes and pieces of proofs. The verifier by hand has the reader of texts and SHA-256;
 * its calls get other names, since the library has none of its own that verify.
 */
#define mst_verify verify_by_hand
#define mst_verify_sharded verify_sharded_by_hand
#include "../verifiers/c/mst_verifier.c"
#undef mst_verify
#undef mst_verify_sharded
#include "mst_store.h"
#include "nodes.h"

int order_of_keys(struct octets one, struct octets other) {
    return compared(one.at, one.length, other.at, other.length);
}

static int is_between(const struct stand *stand, const struct found *node) {
    struct octets first = {node->first.key, node->first.length};
    struct octets last = {node->last.key, node->last.length};
    return (stand->low.at == NULL || order_of_keys(stand->low, first) < 0)
        && (stand->high.at == NULL || order_of_keys(last, stand->high) < 0);
}

int32_t judge_node(uint32_t format, struct octets text, const struct stand *stand, int *layer) {
    static const uint8_t any_key[1] = {0};
    struct text whole = {text.at, text.length};
    struct found node;
    uint8_t digest[MST_ROOT_LENGTH];
    if (!read_node(format, whole, (struct bound){any_key, sizeof any_key}, &node))
        return MST_P4_NO_NODE;
    sha256(text.at, text.length, digest);
    if (memcmp(digest, stand->digest, sizeof digest) != 0)
        return MST_P5_OTHER_DIGEST;
    if (node.layer >= stand->upper)
        return MST_P6_LAYER_NOT_BELOW;
    if (!is_between(stand, &node))
        return MST_P7_KEY_OUTSIDE;
    *layer = node.layer;
    return MST_OK;
}

int begin_node(struct reader *reader, uint32_t format, struct octets text) {
    struct text rest = {text.at, text.length};
    const uint8_t *head = take(&rest, 4);
    if (head == NULL || head[0] != format || (head[2] | head[3]) == 0)
        return 0;
    reader->rest = (struct octets){rest.at, rest.left};
    reader->format = format;
    reader->entries = (size_t)head[2] << 8 | head[3];
    return 1;
}

static int read_key(struct text *text, struct octets *key) {
    const uint8_t *size = take(text, 1);
    if (size == NULL || *size < 1 || *size > MST_KEY_LONGEST)
        return 0;
    key->length = *size;
    key->at = take(text, key->length);
    return key->at != NULL;
}

int read_gap(struct reader *reader, struct gap *gap) {
    struct text rest = {reader->rest.at, reader->rest.length};
    *gap = (struct gap){NULL, {NULL, 0}, {NULL, 0}};
    if (!read_child(&rest, &gap->child))
        return 0;
    if (reader->entries == 0)
        return rest.left == 0;
    if (!read_key(&rest, &gap->key))
        return 0;
    gap->held.at = read_held(reader->format, &rest, &gap->held.length);
    reader->rest = (struct octets){rest.at, rest.left};
    reader->entries--;
    return gap->held.at != NULL;
}

int32_t open_tail(struct octets tail, struct octets held, struct octets *value) {
    struct text rest = {tail.at, tail.length};
    struct claim claim;
    if (!read_tail(&rest, &claim))
        return MST_P2_CUT_SHORT;
    if (rest.left > 0)
        return MST_P3_LEFT_OVER;
    if (!is_opened(&claim, held.at))
        return MST_P10_OTHER_VALUE;
    *value = (struct octets){claim.value, (size_t)claim.length};
    return MST_OK;
}

int32_t mst_proof_piece(const uint8_t *proof, size_t proof_length, uint32_t number,
                        const uint8_t **piece, size_t *length) {
    struct text rest = {proof, proof_length};
    const uint8_t *head = take(&rest, 2), *four, *text;
    if (head == NULL)
        return MST_ABSENT;
    for (uint32_t at = 0; at < head[1]; at++) {
        if ((four = take(&rest, 4)) == NULL || (text = take(&rest, length_in(four))) == NULL)
            return MST_ABSENT;
        if (at == number) {
            *piece = text;
            *length = length_in(four);
            return MST_OK;
        }
    }
    if (number != head[1] || rest.left == 0)
        return MST_ABSENT;
    *piece = rest.at;
    *length = rest.left;
    return MST_OK;
}
