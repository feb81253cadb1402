/*
 * The verifier of proofs, for C.
 *
 * A map of short keys and values has a root digest of 32 bytes. Its store gives, with an answer for
 * a key, a proof of it. From the root digest and its format, the key and the proof, mst_verify says
 * what the proof shows: the key's value, or that the key is absent, or which test the proof fails.
 * It needs neither the store nor the map. docs/FORMAT.md has the bytes of a proof and the tests. If
 * the root digest is a map's, the answer is that map's, unless two texts have one SHA-256. Whether a
 * root digest is the newest no verifier knows: let its maker sign it together with its format, its
 * kind (of one map or of a sharded map) and a number that never falls, and check format, kind and
 * number (and the map's name, if one key signs for several maps).
 *
 * mst_verify_sharded does the same for a sharded map: several trees, each for an interval of the
 * keys, and one root digest. A root digest does not tell its kind. Take the kind from where you take
 * the root digest, never from the proof: the wrong call may accept a false answer.
 *
 * The library takes no memory, keeps no state and starts no thread. Its calls may be made from any
 * threads at once, as long as no two of them write to the same room; from a signal handler too.
 * They only read what is const here. Of the C library they call at most memcpy, memmove, memset and
 * memcmp.
 *
 * A call returns a number, for bytes of any kind and any length. Pointers must be valid for their
 * lengths; if a length is 0, the pointer is not read and may be null. The room must not overlap
 * what is read. The numbers below never change.
 *
 *     uint8_t value[MST_VALUE_ROOM];
 *     int32_t told = mst_verify(1, root, 32, key, key_length, proof, proof_length,
 *                               value, sizeof value);
 *     if (told >= 0)
 *         use(value, told);              // the key has this value, of `told` bytes
 *     else if (told == MST_ABSENT)
 *         say("no such key");            // the map has no such key
 *     else
 *         distrust(told);                // nothing is shown; the value's bytes are as they were
 *
 * Link with libmst_verifier, which `make -C bindings` makes along with the store's library, or with
 * libmst_verifier.a alone, which `rt lib` makes in crates/mst_verifier.
 */
#ifndef MST_VERIFIER_H
#define MST_VERIFIER_H

#include <stddef.h>
#include <stdint.h>

#ifdef __cplusplus
extern "C" {
#endif

/* The version of this header, as that of mst_store.h: MAJOR.MINOR.PATCH. */
#define MST_VERSION_MAJOR 0
#define MST_VERSION_MINOR 4
#define MST_VERSION_PATCH 0
#define MST_VERSION_TEXT "0.4.0-dev"
#define MST_VERSION_NUMBER \
    (MST_VERSION_MAJOR * 1000000 + MST_VERSION_MINOR * 1000 + MST_VERSION_PATCH)

/* Room for every value: values have 0 to 64 bytes. Keys have 1 to 32. */
#define MST_VALUE_ROOM 64

/* What mst_verify returns below 0. */

/* The proof shows that the map has no such key. This is an answer, not a refusal. */
#define MST_ABSENT (-1)

/* The proof shows a value that is longer than the room. MST_VALUE_ROOM is always enough. */
#define MST_SHORT_ROOM (-2)

/* No format has this number. There are formats 1 and 2. */
#define MST_UNKNOWN_FORMAT (-3)

/* A root digest has 32 bytes. */
#define MST_BAD_ROOT (-4)

/* A key has 1 to 32 bytes. */
#define MST_BAD_KEY (-5)

/* The proof fails this test first: P1 to P10 of docs/FORMAT.md are -11 to -20. */
#define MST_P1_FORMAT_BYTE (-11)     /* the first byte is not the format's */
#define MST_P2_CUT_SHORT (-12)       /* the format, the count, a length, a text or the tail is cut
                                        short */
#define MST_P3_LEFT_OVER (-13)       /* bytes are left over after the last text, or the tail */
#define MST_P4_NO_NODE (-14)         /* a text is not that of a node */
#define MST_P5_OTHER_DIGEST (-15)    /* a digest is not the root's, or not the one the node above
                                        has */
#define MST_P6_LAYER_NOT_BELOW (-16) /* a layer is not below that of the node above */
#define MST_P7_KEY_OUTSIDE (-17)     /* a key lies outside the gap in which its node stands */
#define MST_P8_UNFINISHED (-18)      /* the key's gap has a child, and no text follows */
#define MST_P9_TEXT_BEHIND (-19)     /* a text follows although the key was decided */
#define MST_P10_OTHER_VALUE (-20)    /* format 2: the answer claimed is not what is held */

/* What up to version 0.3.0 the numbers of P1 and S1 were called. */
#define MST_P1_VERSION MST_P1_FORMAT_BYTE
#define MST_S1_VERSION MST_S1_FORMAT_BYTE

/*
 * Says what the proof shows of the key, in the map with this root digest.
 *
 * Returns 0 to 64 if the key has a value of that many bytes, which now stands first in the room.
 * All other results are the numbers above. The format is tested first, then the root digest, the
 * key, the proof, and the room last. The room's bytes after the value stay, and all of them stay if
 * no value is returned.
 */
int32_t mst_verify(uint32_t format,
                   const uint8_t *root, size_t root_length,
                   const uint8_t *key, size_t key_length,
                   const uint8_t *proof, size_t proof_length,
                   uint8_t *room, size_t room_length);

/*
 * What mst_verify_sharded returns besides: that a proof of a sharded map fails one of the tests S1
 * to S9 of docs/FORMAT.md first. S1 is -100, S2 is -200, and so on. S4 and S9 test the two parts of
 * the proof, and the number then tells the test of the part too: S4 P5 is -405, S9 P10 is -910.
 */
#define MST_S1_FORMAT_BYTE (-100)   /* the first byte is not 03 in format 1, 04 in format 2 */
#define MST_S2_CUT_SHORT (-200)     /* the format, the lower bound, a length or the directory's
                                       proof is cut short */
#define MST_S3_NO_KEY (-300)        /* the lower bound has no bytes, or more than 32 */
#define MST_S4_DIRECTORY (-400)     /* the directory's proof fails P1 to P10: -401 to -410 */
#define MST_S5_NOT_LISTED (-500)    /* the directory has no shard with this lower bound */
#define MST_S6_NO_LISTING (-600)    /* what the directory holds has fewer bytes than a digest */
#define MST_S7_KEY_BELOW (-700)     /* the key is below the shard's lower bound */
#define MST_S8_KEY_NOT_BELOW (-800) /* the key is not below the shard's upper bound */
#define MST_S9_SHARD (-900)         /* the shard's proof fails P1 to P10: -901 to -910 */

/* Of a number that is -100 or less: which of S1 to S9 the proof fails, and for S4 and S9 which of
 * P1 to P10 the part fails, otherwise 0. */
#define MST_SHARDED_TEST(told) (-(told) / 100)
#define MST_PART_TEST(told) (-(told) % 100)

/*
 * Says what the proof shows of the key, in the sharded map with this root digest: that of the
 * directory, in which each shard has its bounds and its root digest. The proof has a part that
 * shows the shard, and a part that shows what the shard has of the key. The bounds stand in the
 * proof, so nothing of them need be known.
 *
 * The results are those of mst_verify, but that -11 to -20 are never returned: a proof that is
 * refused gets one of the numbers from -100 down. What is tested, and when, is the same too.
 *
 * If the root digest comes from whom you do not trust, it may be that of a directory whose shards
 * overlap or leave keys out: then two proofs may show two answers for a key, with no two texts that
 * have one SHA-256. That all bounds meet, only a look at the whole directory tells.
 */
int32_t mst_verify_sharded(uint32_t format,
                           const uint8_t *root, size_t root_length,
                           const uint8_t *key, size_t key_length,
                           const uint8_t *proof, size_t proof_length,
                           uint8_t *room, size_t room_length);

/* The first text that a proof of one map frames begins after this many bytes. */
#define MST_TOP_TEXT_AT 6

/*
 * Returns the length of the first text that a proof of one map frames: proof[MST_TOP_TEXT_AT] and
 * what follows. If the proof is a true one, this is the text of the top node of its map's tree.
 * Returns -1 if the proof frames no text, as that of the empty map, or if the first is cut short.
 * Nothing is verified: only the bytes up to the end of that text are looked at, and of the
 * format's byte and the count only whether the count is 0.
 */
int64_t mst_top_text(const uint8_t *proof, size_t proof_length);

#ifdef __cplusplus
}
#endif

#endif
