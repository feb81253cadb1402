/*
 * The texts of nodes and the pieces of proofs, read as they come from others: bytes of any kind and
 * any length. Nothing here takes memory, or reads behind the bytes that it is given.
 */
#ifndef NODES_H
#define NODES_H

#include <stddef.h>
#include <stdint.h>

/* Bytes that stand elsewhere. Where there are none, not even an empty value, `at` is null. */
struct octets {
    const uint8_t *at;
    size_t length;
};

/* Below 0, 0 or above 0 as one key is below another, equal to it or above it. */
int order_of_keys(struct octets one, struct octets other);

/* Where a node has to stand: what is known of it before its text is there. */
struct stand {
    const uint8_t *digest;   /* of the node */
    int upper;               /* the layer of the node above */
    struct octets low, high; /* the keys next to its gap; none where nothing bounds it */
};

/*
 * Returns MST_OK if this is the text of the node that stands there, and sets *layer to its layer.
 * Otherwise returns the first of P4 to P7 of docs/FORMAT.md that fails.
 */
int32_t judge_node(uint32_t format, struct octets text, const struct stand *stand, int *layer);

/* A gap between the entries of a node, and the entry behind it. */
struct gap {
    const uint8_t *child; /* the digest of the gap's child; null if the gap is empty */
    struct octets key;    /* of the entry; none behind the last gap */
    struct octets held;   /* what it holds of the value: the value, in format 2 its SHA-256 */
};

/* A text that is read from the front. */
struct reader {
    struct octets rest;
    uint32_t format;
    size_t entries; /* how many are not read yet */
};

/* Reads what stands before the first gap. Returns 0 if no text of a node begins so. */
int begin_node(struct reader *reader, uint32_t format, struct octets text);

/*
 * Reads the next gap, of which there is one more than entries. Returns 0 if the bytes are none, or
 * if bytes are left over behind the last one.
 */
int read_gap(struct reader *reader, struct gap *gap);

/*
 * Reads the tail of a proof in format 2. Returns MST_OK if its value is that of which a node holds
 * this SHA-256, and sets *value to it. Otherwise returns P2, P3 or P10.
 */
int32_t open_tail(struct octets tail, struct octets held, struct octets *value);

#endif
