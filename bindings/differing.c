/*
 * Where two maps differ: a walk over both trees at once, by rising keys. What comes next on a side
 * is the child of a gap, or an entry. Where both sides come to one digest, both pass its subtree
 * unread. Otherwise ours is gone down into first, which costs no question, down to its next entry;
 * only if no subtree that begins there has the digest, the text is asked for.
 *
 * Each text is judged before it is read: it is that of the digest that led to it, below the node
 * above and between the keys next to its gap. So all that is told rests on the root digest alone.
 */
#include "mst_store.h"
#include "mst_verifier.h"
#include "nodes.h"
#include "paging.h"
#include <stdlib.h>
#include <string.h>

enum {
    NODES_MOST = 129,   /* on a path, whose layers fall from 128 at most */
    ABOVE_LAYERS = 256, /* the layer of what stands above the root */
    /* of a text: its head and first child, and 65,535 entries with their children */
    TEXT_LONGEST = 4 + 33 + 65535 * (1 + MST_KEY_LONGEST + 1 + MST_VALUE_LONGEST + 33)
};

typedef int32_t asking(void *with, const uint8_t *key, size_t key_length, uint32_t number,
                       const uint8_t **piece, size_t *length);

/* A node of which some is passed. What comes next is the gap's child, or if there is none or it is
 * passed, the entry behind it. */
struct node {
    const uint8_t *digest; /* in the text of the node above */
    uint8_t *text;
    size_t room; /* what was allocated for texts at this place */
    int layer;
    struct octets low, high; /* the keys next to the gap: the last one passed, and a bound */
    struct reader reader;
    struct gap gap;
};

/* One of the two trees. The first node has no text: its one gap has the root as its child. */
struct side {
    asking *ask;
    void *with;
    size_t depth; /* how many nodes there are down to what comes next */
    size_t fresh; /* of the nodes from this one on nothing is passed yet */
    struct node nodes[NODES_MOST + 1];
};

/* Our pass, and the room of its proofs. */
struct own {
    mst_pass *pass;
    uint8_t *proof;
    size_t room;
};

struct walk {
    uint32_t format;
    int32_t (*tell)(void *with, const mst_difference *difference);
    void *with;
    struct own own;
    uint8_t root[MST_ROOT_LENGTH]; /* of ours */
    struct side ours, theirs;
};

/* ---- what comes next on a side ---- */

static struct node *lowest(struct side *side) {
    return &side->nodes[side->depth - 1];
}

static const uint8_t *next_child(struct side *side) {
    return lowest(side)->gap.child;
}

/* None if a child comes next, or nothing at all. */
static struct octets next_key(struct side *side) {
    struct octets none = {NULL, 0};
    return next_child(side) != NULL ? none : lowest(side)->gap.key;
}

/* Something was passed: leaves the nodes of which nothing is left, but not the first one. */
static void leave_passed(struct side *side) {
    while (side->depth > 1 && next_child(side) == NULL && lowest(side)->gap.key.at == NULL)
        side->depth--;
    side->fresh = side->depth;
}

static void pass_child(struct side *side) {
    lowest(side)->gap.child = NULL;
    leave_passed(side);
}

static int32_t pass_entry(struct side *side) {
    struct node *node = lowest(side);
    node->low = node->gap.key;
    if (!read_gap(&node->reader, &node->gap))
        return MST_P4_NO_NODE;
    leave_passed(side);
    return MST_OK;
}

static int is_digest(const uint8_t *one, const uint8_t *other) {
    return memcmp(one, other, MST_ROOT_LENGTH) == 0;
}

/* Passes the subtree with this digest if it begins where the side stands, read or not. */
static int passes(struct side *side, const uint8_t *digest) {
    if (next_child(side) != NULL && is_digest(next_child(side), digest)) {
        pass_child(side);
        return 1;
    }
    for (size_t at = side->fresh; at < side->depth; at++) {
        if (is_digest(side->nodes[at].digest, digest)) {
            side->depth = at;
            leave_passed(side);
            return 1;
        }
    }
    return 0;
}

/* ---- down into a node ---- */

static int32_t keep(struct node *node, struct octets text) {
    if (text.length == 0 || text.length > TEXT_LONGEST)
        return MST_P4_NO_NODE;
    if (text.length > node->room) {
        free(node->text);
        node->text = malloc(text.length);
        node->room = node->text != NULL ? text.length : 0;
    }
    if (node->text == NULL)
        return MST_MEMORY;
    memcpy(node->text, text.at, text.length);
    return MST_OK;
}

/* The node stands at its first gap, if the text is that of the one that stands there. */
static int32_t begin(struct node *node, uint32_t format, struct octets text,
                     const struct stand *stand) {
    int32_t told = keep(node, text);
    struct octets kept = {node->text, text.length};
    if (told == MST_OK)
        told = judge_node(format, kept, stand, &node->layer);
    if (told != MST_OK)
        return told;
    node->digest = stand->digest;
    node->low = stand->low;
    node->high = stand->high;
    if (!begin_node(&node->reader, format, kept) || !read_gap(&node->reader, &node->gap))
        return MST_P4_NO_NODE;
    return MST_OK;
}

/* The least key above the lower bound of a gap: the proof of each key in the gap goes through the
 * gap's child. Returns its length, or 0 if there is none. */
static size_t least_in(struct octets low, uint8_t *key) {
    key[0] = 0;
    return low.at == NULL ? 1 : least_above(low.at, low.length, key);
}

/* Goes down into the child that comes next: the texts above it are there, so it asks for the one
 * behind them. */
static int32_t go_down(uint32_t format, struct side *side) {
    struct node *upper = lowest(side);
    struct octets behind = upper->gap.key, text = {NULL, 0};
    struct stand stand = {upper->gap.child, upper->layer, upper->low,
                          behind.at != NULL ? behind : upper->high};
    uint8_t key[MST_KEY_LONGEST];
    size_t key_length = least_in(stand.low, key);
    if (side->depth > NODES_MOST)
        return MST_P6_LAYER_NOT_BELOW;
    if (key_length == 0)
        return MST_P7_KEY_OUTSIDE;
    int32_t told = side->ask(side->with, key, key_length, (uint32_t)side->depth - 1, &text.at,
                             &text.length);
    if (told == MST_OK)
        told = begin(&side->nodes[side->depth], format, text, &stand);
    if (told != MST_OK)
        return told;
    upper->gap.child = NULL;
    side->depth++;
    return MST_OK;
}

/* ---- what differs ---- */

/* The value of the entry that comes next. In format 2 it stands in the tail of the key's proof,
 * behind the texts that are there. */
static int32_t value_of(uint32_t format, struct side *side, struct octets *value) {
    struct gap *gap = &lowest(side)->gap;
    struct octets tail = {NULL, 0};
    *value = gap->held;
    if (format == 1)
        return MST_OK;
    int32_t told = side->ask(side->with, gap->key.at, gap->key.length, (uint32_t)side->depth - 1,
                             &tail.at, &tail.length);
    return told != MST_OK ? told : open_tail(tail, gap->held, value);
}

/* Tells of the key that comes next on one side, or on both. */
static int32_t tell_next(struct walk *walk, int is_ours, int is_theirs) {
    struct octets key = next_key(is_ours ? &walk->ours : &walk->theirs);
    struct octets ours = {NULL, 0}, theirs = {NULL, 0};
    int32_t told = MST_OK;
    if (is_ours)
        told = value_of(walk->format, &walk->ours, &ours);
    if (told == MST_OK && is_theirs)
        told = value_of(walk->format, &walk->theirs, &theirs);
    if (told != MST_OK)
        return told;
    mst_difference difference = {key.at, ours.at, theirs.at,
                                 key.length, ours.length, theirs.length};
    return walk->tell(walk->with, &difference);
}

static int is_equal(struct octets one, struct octets other) {
    return one.length == other.length && memcmp(one.at, other.at, one.length) == 0;
}

/* Passes the lesser of two entries, or both if their keys are equal. A side at its end has none. */
static int32_t pass_entries(struct walk *walk) {
    struct octets ours = next_key(&walk->ours), theirs = next_key(&walk->theirs);
    int order = (ours.at == NULL) - (theirs.at == NULL);
    int32_t told = MST_OK;
    if (order == 0)
        order = order_of_keys(ours, theirs);
    if (order != 0 || !is_equal(lowest(&walk->ours)->gap.held, lowest(&walk->theirs)->gap.held))
        told = tell_next(walk, order <= 0, order >= 0);
    if (told == MST_OK && order <= 0)
        told = pass_entry(&walk->ours);
    if (told == MST_OK && order >= 0)
        told = pass_entry(&walk->theirs);
    return told;
}

static int is_at_end(struct side *side) {
    return next_child(side) == NULL && next_key(side).at == NULL;
}

static int32_t walk_on(struct walk *walk) {
    struct side *ours = &walk->ours, *theirs = &walk->theirs;
    if (next_child(theirs) != NULL && passes(ours, next_child(theirs))) {
        pass_child(theirs);
        return MST_OK;
    }
    if (next_child(ours) != NULL)
        return go_down(walk->format, ours);
    if (next_child(theirs) != NULL)
        return go_down(walk->format, theirs);
    return pass_entries(walk);
}

/* ---- both sides ---- */

/* Finds a piece of a proof of our own. */
static int32_t ask_own(void *with, const uint8_t *key, size_t key_length, uint32_t number,
                       const uint8_t **piece, size_t *piece_length) {
    struct own *own = with;
    size_t length = 0;
    int32_t told;
    while ((told = mst_prove(own->pass, key, key_length, own->proof, own->room, &length))
           == MST_SHORT_ROOM) {
        free(own->proof);
        own->proof = malloc(length);
        own->room = own->proof != NULL ? length : 0;
        if (own->proof == NULL)
            return MST_MEMORY;
    }
    return told != MST_OK ? told : mst_proof_piece(own->proof, length, number, piece, piece_length);
}

/* The side stands above the root, if its map has one. */
static void stand_above(struct side *side, asking *ask, void *with, const uint8_t *root) {
    static const uint8_t of_none[MST_ROOT_LENGTH] = {
        0xe3, 0xb0, 0xc4, 0x42, 0x98, 0xfc, 0x1c, 0x14, 0x9a, 0xfb, 0xf4, 0xc8, 0x99, 0x6f, 0xb9,
        0x24, 0x27, 0xae, 0x41, 0xe4, 0x64, 0x9b, 0x93, 0x4c, 0xa4, 0x95, 0x99, 0x1b, 0x78, 0x52,
        0xb8, 0x55};
    side->ask = ask;
    side->with = with;
    side->depth = side->fresh = 1;
    memset(side->nodes, 0, sizeof side->nodes);
    side->nodes[0].layer = ABOVE_LAYERS;
    side->nodes[0].gap.child = is_digest(root, of_none) ? NULL : root;
}

static void free_texts(struct side *side) {
    for (size_t at = 0; at <= NODES_MOST; at++)
        free(side->nodes[at].text);
}

/* The walk from the roots on; our pass is pinned. */
static int32_t walk_both(struct walk *walk, mst_pass *pass, const uint8_t *root, asking *ask) {
    walk->own = (struct own){pass, NULL, 0};
    walk->format = (uint32_t)mst_format(pass);
    mst_root(pass, walk->root, sizeof walk->root);
    stand_above(&walk->ours, ask_own, &walk->own, walk->root);
    stand_above(&walk->theirs, ask, walk->with, root);
    int32_t told = MST_OK;
    while (told == MST_OK && !(is_at_end(&walk->ours) && is_at_end(&walk->theirs)))
        told = walk_on(walk);
    free_texts(&walk->ours);
    free_texts(&walk->theirs);
    free(walk->own.proof);
    return told;
}

int32_t mst_differing(mst_pass *ours, const uint8_t *root, size_t root_length,
                      int32_t (*ask)(void *with, const uint8_t *key, size_t key_length,
                                     uint32_t number, const uint8_t **piece, size_t *length),
                      int32_t (*tell)(void *with, const mst_difference *difference), void *with) {
    int32_t pinned = mst_pin(ours), told = MST_MEMORY;
    struct walk *walk;
    if (pinned == MST_CLOSED)
        return MST_CLOSED;
    if (root_length != MST_ROOT_LENGTH) {
        told = MST_BAD_ROOT;
    } else if ((walk = malloc(sizeof *walk)) != NULL) {
        walk->tell = tell;
        walk->with = with;
        told = walk_both(walk, ours, root, ask);
        free(walk);
    }
    if (pinned == MST_OK)
        mst_unpin(ours);
    return told;
}
