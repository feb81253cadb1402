/*
 * The store, for C: an in-memory, multi-version ordered map of short keys and values. Each version
 * has a root digest, its Merkle root, against which a verifier checks a proof of inclusion or of
 * absence (mst_verifier.h).
 *
 * A pass is a per-thread handle of a store, and a hand is the struct in which a caller keeps one. A
 * pin holds an MVCC snapshot: the pinned pass reads one version until it unpins. The turn is the
 * write lock. A row is a memory cell for one pair or one node of the tree; a store is opened with a
 * fixed number of them. A room is a buffer of the caller's, into which a call writes its answer.
 *
 * mst_open makes a store of the empty map and puts a pass into each hand of an array. Each thread
 * uses a hand of its own. Reads take none of the store's locks, and by their code wait for no other
 * thread (a tool checks it, nothing proves it; mst_range, mst_prove and mst_differing call malloc,
 * which may have locks). One pass at a time has the turn; meanwhile mst_try_put and its like return
 * MST_BUSY for another pass, while mst_put, mst_remove, mst_apply and mst_migrate wait, and
 * mst_put_within and its like wait for a time that is given. The store is freed when its last pass
 * is closed.
 *
 *     mst_pass passes[2] = {MST_PASS_CLOSED, MST_PASS_CLOSED};
 *     uint8_t root[MST_ROOT_LENGTH];
 *     if (mst_open(1, 1000, passes, 2) != MST_OK)    // format 1, 1,000 rows, two passes
 *         give_up();
 *     mst_put(&passes[0], key, key_length, value, value_length, NULL, 0); // no old value wanted
 *     mst_root(&passes[1], root, sizeof root);       // in another thread, say
 *     mst_close(&passes[0]);
 *     mst_close(&passes[1]);                         // the store is gone
 *
 * What to know before use; docs/LIMITS.md has figures, and what to do:
 *   - a put or a remove that returns MST_SHORT_ROOM has been made;
 *   - a pin keeps the rows of its version. If one is forgotten, writes find no free rows in the end
 *     and are refused;
 *   - a thread that ends within a write keeps the turn for good: then no pass of this store writes,
 *     and reads go on. One that ends within a read may leave its pin for good;
 *   - calls that wait let those go first that have waited long, but calls that try do not: where
 *     those take the turn again and again, a writer may starve;
 *   - keys that an attacker chooses can make a node of the tree large, and with it reads and writes
 *     slow and proofs long.
 *
 * What a caller owes, and nothing checks:
 *   - a hand is MST_PASS_CLOSED before its first call, and is neither copied nor written by the
 *     caller. It may be moved to another place, if the old place is not used again;
 *   - a hand is in one call at a time. If it goes from one thread to another, it goes with a lock,
 *     with the start or the end of a thread, or with a sequentially consistent atomic;
 *   - pointers are valid for their lengths, that of mst_open for its count of hands, that of
 *     mst_pinned_versions for as many numbers as it has room for, and what a call writes overlaps
 *     nothing else that it is given. If a length is 0, the pointer is not read and may be null. A
 *     null room of mst_put, mst_remove, mst_put_within and mst_remove_within may have any length;
 *   - during a call no other thread writes what the call reads (key, value, bounds, edits), or
 *     touches what it may write (the hand, rooms, and where it tells lengths and numbers);
 *   - malloc, posix_memalign, realloc and free are of one allocator, and malloc and realloc align to
 *     16 bytes. They return: neither an exception nor longjmp leads out of them, and no thread is
 *     cancelled within a call (pthread_cancel with asynchronous cancellation). A thread whose
 *     cancellation is deferred may be cancelled where a call that waits sleeps: then nothing is
 *     written;
 *   - a thread has stack left for a call: 16 KiB are enough over maps of random keys. Keys that
 *     were chosen to make a tree deep, of at most 129 layers, take less than 128 KiB, and a call
 *     then nests less than 140 functions;
 *   - no call is made in a signal handler, or in the forked child of a process with threads.
 *
 * A length that is out of its limits is refused without a look at the bytes, however great it is,
 * and so is a count of hands.
 *
 * A call returns a number, for bytes of any kind and any length. Keys have 1 to 32 bytes, values 0
 * to 64. The numbers below never change, one that no call returns any more gets no other meaning,
 * and those of mst_verifier.h have the same meaning here. If several refusals apply, a call returns
 * the one that its comment lists first.
 *
 * Link with libmst_store, which `make -C bindings` makes: `pkg-config --cflags --libs mst_store`
 * says how, after `make -C bindings install`. docs/STORE_C.md has examples. If you link the proved
 * archive libmst_exports.a itself, compile the C files of bindings/ but opening.c along with your
 * program, and link the kit's object for memory. Calls that wait then form no queue, and the calls
 * that open close all hands of their array before they look at its count.
 */
#ifndef MST_STORE_H
#define MST_STORE_H

#include <stddef.h>
#include <stdint.h>

#ifdef __cplusplus
extern "C" {
#endif

/*
 * The version of this header, and of the library if that is of the same release: MAJOR.MINOR.PATCH,
 * between two releases with -dev behind it. MST_VERSION_NUMBER is greater for each later release; a
 * -dev build has the number of the release to come.
 */
#define MST_VERSION_MAJOR 0
#define MST_VERSION_MINOR 4
#define MST_VERSION_PATCH 0
#define MST_VERSION_TEXT "0.4.0-dev"
#define MST_VERSION_NUMBER \
    (MST_VERSION_MAJOR * 1000000 + MST_VERSION_MINOR * 1000 + MST_VERSION_PATCH)

/*
 * A hand: what holds a pass for its thread, or nothing. Calls write to it, so it has 256 bytes: the
 * hands of threads that stand side by side are then in cache lines of their own.
 */
typedef struct mst_pass {
    void *at;    /* the library's alone */
    void *place; /* the library's alone: the pass's place in the queue */
    uint64_t padding[30];
} mst_pass;

/* A hand that holds nothing. */
#ifdef __cplusplus
#define MST_PASS_CLOSED {}
#else
#define MST_PASS_CLOSED {0}
#endif

/* Room for every key, every value, and a root digest, in bytes. */
#define MST_KEY_LONGEST 32
#define MST_VALUE_LONGEST 64
#define MST_ROOT_LENGTH 32

/* The most bytes that a pair takes in the room of mst_range: two lengths, a key and a value. */
#define MST_PAIR_LONGEST (4 + MST_KEY_LONGEST + MST_VALUE_LONGEST)

/* The most bytes that an edit takes in a batch: its kind, two lengths, a key and a value. */
#define MST_EDIT_LONGEST (5 + MST_KEY_LONGEST + MST_VALUE_LONGEST)

/* The limits of a store: rows, and passes. A map takes a row for each of its pairs and nodes. */
#define MST_ROWS_LEAST 4
#define MST_ROWS_MOST 65535
#define MST_PASSES_MOST 32

/*
 * What was asked is done. Calls with an answer return that in its place: mst_get, mst_next,
 * mst_root, puts and removes a length, mst_format and migrations a format.
 */
#define MST_OK 0

/* There is no such key, pair or shard. This is an answer, not a refusal. */
#define MST_ABSENT (-1)

/*
 * A room, the caller's buffer for an answer, is too short. A put or a remove has been made all the
 * same, and only the old value is lost: a room of MST_VALUE_LONGEST bytes is never too short for
 * it. mst_put and mst_remove take a null room from a caller that does not want the old value.
 */
#define MST_SHORT_ROOM (-2)

/* No format has this number. There are formats 1 and 2. */
#define MST_UNKNOWN_FORMAT (-3)

/* A key has 1 to 32 bytes. */
#define MST_BAD_KEY (-5)

/* A value has 0 to 64 bytes. */
#define MST_BAD_VALUE (-6)

/* The hand holds no pass; of a sharded map it holds nothing. */
#define MST_CLOSED (-7)

/*
 * A pinned pass neither writes, migrates, pins, counts rows nor lists pinned versions; a free one
 * does not unpin. Of a sharded map the writer alone makes blocks, only a reader takes a snapshot,
 * and only a snapshot lists pairs and proves answers; a block that was begun is only committed or
 * cancelled, and a part of one only prepared, until its block is.
 */
#define MST_WRONG_STATE (-8)

/*
 * A growth of memory was refused. Nothing has changed, but that mst_open and mst_sharded_open have
 * closed what their hands held.
 */
#define MST_MEMORY (-9)

/* A store has 4 to 65,535 rows and 1 to 32 passes. */
#define MST_BAD_SHAPE (-10)

/*
 * Another pass has the turn: it writes, migrates, counts rows or lists pinned versions. Nothing has
 * changed: try again. Of a block, and of the free rows of a shard: a thread has died within a call,
 * and the shard takes no more edits; of a block that was begun: a part of it is just being
 * prepared.
 */
#define MST_BUSY (-21)

/* The store has made all the versions that it can number. Nothing has changed. */
#define MST_VERSIONS_SPENT (-22)

/* The write or the migration needs more rows than are free. Nothing has changed. */
#define MST_NO_FREE_ROWS (-23)

/* Some pass pins a version, so the rows are not counted. */
#define MST_ROWS_PINNED (-24)

/* The bytes are no batch: an edit is of no known kind, cut short, or a remove with a value. */
#define MST_BAD_BATCH (-25)

/*
 * The bytes are no splits of a sharded map: a length is that of no key, the last key is cut short,
 * the keys do not rise strictly from above the key of one zero byte, or are more than 1,023.
 */
#define MST_BAD_SPLITS (-26)

/*
 * Of a block: a shard or the directory has a version that is not the writer's last, so another has
 * written. No call leads to this. Nothing has changed.
 */
#define MST_OVERTAKEN (-29)

/* A block is just being published, so there is no snapshot of one block: try again. */
#define MST_MOVING (-30)

/* ---- the library itself ---- */

/* Returns the version of the library that is linked, as MST_VERSION_TEXT is that of this header. */
const char *mst_library_version(void);

/*
 * Returns what a number means that a call of this header or of mst_verifier.h has returned, in one
 * line of English without an end: "a key has 1 to 32 bytes". Of a number of 0 or more, and of one
 * that no call returns, it says so. The text is the library's, and stays for ever.
 */
const char *mst_error_text(int32_t told);

/* ---- opening and closing ---- */

/*
 * Opens a store of the empty map in format 1 or 2, with `rows` rows, and puts a pass into each of
 * the `count` hands. What a hand held before is closed, whatever the call returns. Returns MST_OK;
 * MST_UNKNOWN_FORMAT for another format; MST_BAD_SHAPE if rows or count are out of their limits;
 * MST_MEMORY. If it does not return MST_OK, all hands are empty. But of more than 32 hands none is
 * looked at: they stay as they are.
 */
int32_t mst_open(uint32_t format, uint32_t rows, mst_pass *passes, size_t count);

/*
 * Closes the pass, and ends its pin if it has one. Returns MST_OK, and then the hand is empty, or
 * MST_CLOSED. The store is freed with its last pass.
 */
int32_t mst_close(mst_pass *pass);

/* ---- reads: of the current version by a free pass, of the pinned one by a pinned pass ---- */

/*
 * Returns the length of the key's value, 0 to 64, and its bytes stand first in the room. Otherwise
 * returns MST_CLOSED; MST_BAD_KEY; MST_ABSENT; MST_SHORT_ROOM if the room is shorter than the
 * value. With each of these the room is as it was.
 */
int32_t mst_get(mst_pass *pass, const uint8_t *key, size_t key_length,
                uint8_t *room, size_t room_length);

/*
 * Finds the pair of the least key above `key`, or of the least key of all if key_length is 0.
 * Returns the value's length: its bytes stand first in room, those of the key first in key_room,
 * and *next_length is the key's length. Otherwise returns MST_CLOSED; MST_BAD_KEY if the key is
 * longer than 32 bytes; MST_ABSENT if there is no such pair; MST_SHORT_ROOM if one of the two rooms
 * is too short. With each of these both rooms and *next_length are as they were.
 */
int32_t mst_next(mst_pass *pass, const uint8_t *key, size_t key_length,
                 uint8_t *key_room, size_t key_room_length, size_t *next_length,
                 uint8_t *room, size_t room_length);

/*
 * Finds the first pairs of one version, at most `limit`, whose keys are at least `from` and below
 * `to`, by rising keys. A bound of length 0 does not bind. For the pairs behind a key, page by
 * page, there is mst_page_after below. Returns MST_OK: *count is the number of the pairs and
 * *length that of their bytes, which stand first in the room, one pair after the other: the length
 * of the key in two bytes, the high one first, that of the value in two bytes, the key, the value.
 * mst_pair_at below reads them. Returns MST_CLOSED; MST_BAD_KEY if a bound is longer than 32 bytes;
 * MST_MEMORY: the room, *count and *length are as they were. Returns MST_SHORT_ROOM if the room is
 * too short: *count and *length are those of all these pairs, and the room is as it was. By the
 * next call a free pass may find more; a pinned one finds these.
 */
int32_t mst_range(mst_pass *pass, const uint8_t *from, size_t from_length,
                  const uint8_t *to, size_t to_length, uint32_t limit,
                  uint8_t *room, size_t room_length, size_t *count, size_t *length);

/*
 * Returns 32, the length of the root digest in the format of the version, and its bytes stand first
 * in `root`. Otherwise returns MST_CLOSED; MST_SHORT_ROOM if root_length is less than 32.
 */
int32_t mst_root(mst_pass *pass, uint8_t *root, size_t root_length);

/*
 * Makes the proof of the key's answer, which mst_verify judges in the format and by the root digest
 * of the same version. Returns MST_OK: its bytes stand first in the room, and *length is their
 * number. Returns MST_CLOSED, MST_BAD_KEY, MST_MEMORY: room and *length are as they were. Returns
 * MST_SHORT_ROOM if the room is too short: *length is the length of the proof, and the room is as
 * it was. By the next call the proof of a free pass may be longer; that of a pinned one stays.
 */
int32_t mst_prove(mst_pass *pass, const uint8_t *key, size_t key_length,
                  uint8_t *room, size_t room_length, size_t *length);

/*
 * Sets *version to the number of the version, which is the number of writes and migrations before
 * it; a batch is one write. Returns MST_OK or MST_CLOSED.
 *
 * Sent with a message, this number, or that of mst_made, is all that read-your-writes over threads
 * needs: a pass that is not pinned and has here at least the number that it was sent has seen, in
 * this call and in each later one, all that the sender had written and read.
 */
int32_t mst_version(mst_pass *pass, uint64_t *version);

/*
 * Sets *count to the number of pairs that the map has. Returns MST_OK or MST_CLOSED. It reads the
 * tree: the head of each node, and a word of each entry that is not in the lowest layer.
 */
int32_t mst_len(mst_pass *pass, uint64_t *count);

/*
 * Returns the format of the version, 1 or 2, in which its root digest and its proofs are. Otherwise
 * returns MST_CLOSED.
 */
int32_t mst_format(mst_pass *pass);

/*
 * Sets *rows to the number of rows that the current version takes. Returns MST_OK; MST_CLOSED;
 * MST_WRONG_STATE for a pinned pass; MST_BUSY; MST_ROWS_PINNED.
 */
int32_t mst_rows(mst_pass *pass, uint32_t *rows);

/*
 * Sets *rows to the number of rows that are free to the next write, also while versions are pinned.
 * As long as no pass writes, pins or unpins, a write that takes at most that many rows is not
 * refused with MST_NO_FREE_ROWS, and one that takes more is. Returns MST_OK; MST_CLOSED;
 * MST_WRONG_STATE for a pinned pass; MST_BUSY.
 */
int32_t mst_free_rows(mst_pass *pass, uint32_t *rows);

/*
 * Finds the versions that are pinned. Returns MST_OK: their numbers stand first in `versions`, in
 * rising order, each once, and *count is how many they are: MST_PASSES_MOST at most, and no more
 * than the store has passes. The current version is among them only if it is pinned. Returns
 * MST_SHORT_ROOM if `versions` has room for fewer: *count is their number, and the room is as it
 * was. Returns MST_CLOSED; MST_WRONG_STATE for a pinned pass; MST_BUSY: both are as they were.
 */
int32_t mst_pinned_versions(mst_pass *pass, uint64_t *versions, size_t room_count, size_t *count);

/*
 * Sets *version to the version that the last write of this pass made: its last put, remove, batch
 * or migration that was not refused. Unlike mst_version it is never one that another pass made
 * since. Returns MST_OK; MST_CLOSED; MST_ABSENT if the pass has made none.
 */
int32_t mst_made(mst_pass *pass, uint64_t *version);

/* ---- writes, which make a version each: puts, removes, batches and migrations ---- */

/*
 * Gives the key the value, if no other pass has the turn. Returns what mst_get would return before
 * it: a length and the bytes of the old value, or MST_ABSENT if the key is new. Returns
 * MST_SHORT_ROOM if the old value did not fit: the put has been made, so do not repeat it; the old
 * value is lost, and the room is as it was. A room of MST_VALUE_LONGEST bytes is never too short.
 * Returns MST_CLOSED, MST_BAD_KEY, MST_BAD_VALUE, MST_WRONG_STATE for a pinned pass, MST_BUSY,
 * MST_VERSIONS_SPENT, MST_NO_FREE_ROWS: nothing is written.
 */
int32_t mst_try_put(mst_pass *pass, const uint8_t *key, size_t key_length,
                    const uint8_t *value, size_t value_length, uint8_t *room, size_t room_length);

/*
 * Takes the key out, if no other pass has the turn. Returns what mst_try_put returns, without
 * MST_BAD_VALUE; with MST_SHORT_ROOM the key is out.
 */
int32_t mst_try_remove(mst_pass *pass, const uint8_t *key, size_t key_length,
                       uint8_t *room, size_t room_length);

/*
 * Makes a batch of edits as one version, if no other pass has the turn: each read sees all of them
 * or none. They are made in their order, so of edits of one key the last decides, and a remove of a
 * key that is not there changes nothing. No edits make a version too. The edits stand in `length`
 * bytes, one after the other: a byte 1 for a put or 2 for a remove, the length of the key in two
 * bytes, the high one first, that of the value in two bytes, the key, the value. A remove has no
 * value. mst_edit_put and mst_edit_remove below write them.
 *
 * Returns MST_OK; MST_CLOSED; if an edit is not valid, for the first such one MST_BAD_KEY or
 * MST_BAD_VALUE if a length is out of its limits, otherwise MST_BAD_BATCH, and *place is the number
 * of that edit, from 0; MST_WRONG_STATE for a pinned pass; MST_MEMORY if there is none for the list
 * of the edits; MST_BUSY, MST_VERSIONS_SPENT, MST_MEMORY, MST_NO_FREE_ROWS. If it does not return
 * MST_OK, nothing is written. Where no edit is refused, *place is as it was.
 *
 * It takes a row for each pair and each node of the new tree that the old one has not, and memory
 * for the edits and these nodes, which it gives back. No edits take no row and no memory.
 */
int32_t mst_try_apply(mst_pass *pass, const uint8_t *edits, size_t length, size_t *place);

/*
 * Turns the tree of the map to format 1 or 2, if no other pass has the turn. The map stays, and so
 * do the pinned versions, each in its format. Returns the format before: 1 or 2. Returns
 * MST_CLOSED; MST_UNKNOWN_FORMAT for another format; MST_WRONG_STATE for a pinned pass, MST_BUSY,
 * MST_VERSIONS_SPENT, MST_MEMORY, MST_NO_FREE_ROWS: nothing is written.
 *
 * It takes a row for each pair and each node of the new tree, in addition to those of the old one,
 * and memory for the pairs and that tree, which it gives back. A migration to the current format
 * takes no row and no memory.
 */
int32_t mst_try_migrate(mst_pass *pass, uint32_t format);

/* ---- pins ---- */

/*
 * Pins the current version: until mst_unpin each read by this pass is of it. Returns MST_OK,
 * MST_CLOSED, or MST_WRONG_STATE if the pass is pinned already.
 */
int32_t mst_pin(mst_pass *pass);

/* Ends the pin. Returns MST_OK, MST_CLOSED, or MST_WRONG_STATE if the pass is not pinned. */
int32_t mst_unpin(mst_pass *pass);

/* ---- pairs in the room of mst_range ---- */

/* A pair in that room. */
typedef struct mst_pair {
    const uint8_t *key, *value;
    size_t key_length, value_length;
} mst_pair;

/*
 * Reads the pair that begins `at` bytes into the room, and returns where the next one begins. After
 * the last pair that is the *length of mst_range.
 *
 *     for (size_t at = 0; at < length;) {
 *         mst_pair pair;
 *         at = mst_pair_at(room, at, &pair);
 *         use(pair.key, pair.key_length, pair.value, pair.value_length);
 *     }
 */
size_t mst_pair_at(const uint8_t *room, size_t at, mst_pair *pair);

/*
 * As mst_range, but of the pairs whose keys are above `after`: those behind the last pair of the
 * page before. Behind an `after` of length 0 are all pairs. Returns MST_BAD_KEY if `after` or `to`
 * is longer than 32 bytes.
 *
 *     uint8_t room[100 * MST_PAIR_LONGEST], last[MST_KEY_LONGEST];
 *     size_t count, length, last_length = 0;
 *     while (mst_page_after(pass, last, last_length, NULL, 0, 100, room, sizeof room, &count,
 *                           &length) == MST_OK && count > 0) {
 *         mst_pair pair;
 *         for (size_t at = 0; at < length;)
 *             at = mst_pair_at(room, at, &pair);
 *         last_length = pair.key_length;
 *         memcpy(last, pair.key, last_length);
 *     }
 *
 * Each page is of one version. All pages of a pinned pass are of the same one; those of a free pass
 * are not, if another pass writes between them.
 */
int32_t mst_page_after(mst_pass *pass, const uint8_t *after, size_t after_length,
                       const uint8_t *to, size_t to_length, uint32_t limit,
                       uint8_t *room, size_t room_length, size_t *count, size_t *length);

/* ---- edits in the bytes of a batch ---- */

/*
 * Writes a put of the key at `at` bytes into the room, which needs MST_EDIT_LONGEST bytes from
 * there, and returns where the next edit goes. After the last edit that is the batch's length.
 *
 *     uint8_t edits[2 * MST_EDIT_LONGEST];
 *     size_t length = 0, place;
 *     length = mst_edit_put(edits, length, key, key_length, value, value_length);
 *     length = mst_edit_remove(edits, length, other, other_length);
 *     int32_t told = mst_apply(pass, edits, length, &place);
 *
 * It never writes more than MST_EDIT_LONGEST bytes. If a length is out of its limits, it writes no
 * more than the lengths, at most 65,535 each, and the call with the batch returns MST_BAD_KEY or
 * MST_BAD_VALUE.
 */
size_t mst_edit_put(uint8_t *room, size_t at, const uint8_t *key, size_t key_length,
                    const uint8_t *value, size_t value_length);

/* As mst_edit_put, a remove of the key. */
size_t mst_edit_remove(uint8_t *room, size_t at, const uint8_t *key, size_t key_length);

/* ---- where two maps differ ---- */

/*
 * Finds a piece of a proof that mst_prove made: with `number` 0 the text of the top node, with 1
 * that of the node below it, and so on. In format 2 there is one more piece behind the texts, in
 * which the value stands. Returns MST_OK: *piece is where it begins, within the proof, and *length
 * how many bytes it has. Returns MST_ABSENT if the proof has no such piece, or is cut short before
 * its end. It takes bytes of any kind, and verifies nothing.
 */
int32_t mst_proof_piece(const uint8_t *proof, size_t proof_length, uint32_t number,
                        const uint8_t **piece, size_t *length);

/* A key at which two maps differ, with its two values. One that is absent is null; an empty one is
 * not. */
typedef struct mst_difference {
    const uint8_t *key, *ours, *theirs;
    size_t key_length, ours_length, theirs_length;
} mst_difference;

/*
 * Tells where the map of our pass differs from another one, of which only the root digest need be
 * trusted: calls `tell` once for each such key, by rising keys. It goes down both trees from their
 * root digests, passes subtrees with equal digests unread, and asks for the others node by node.
 *
 * `ask` is to set *piece and *length to the piece with this number of the other map's proof of this
 * key, as mst_prove and mst_proof_piece find it, all of one version of the other map: in this
 * process, or by a message to another one. The bytes have to stay until the next call of `ask`, or
 * until mst_differing returns. No piece is asked for twice. Each text is tested by its digest, its
 * form, its layer and its keys, as mst_verify tests the texts of a proof, and in format 2 each
 * value by its digest. So if the root digest is a map's, what `tell` is told is so, unless two
 * texts have one SHA-256.
 *
 *     static int32_t ask(void *with, const uint8_t *key, size_t key_length, uint32_t number,
 *                        const uint8_t **piece, size_t *length) {
 *         struct other *other = with;    // a pinned pass, and a room
 *         size_t proof;
 *         int32_t told = mst_prove(other->pass, key, key_length, other->room, sizeof other->room,
 *                                  &proof);
 *         return told != MST_OK ? told
 *             : mst_proof_piece(other->room, proof, number, piece, length);
 *     }
 *
 * The root digest has 32 bytes and is of the format of our version. A free pass is pinned for the
 * call, so our map stays too. `ask` and `tell` make no call with our hand; what `tell` is given
 * stays until it returns. `with` is handed to both. If one of them returns another number than
 * MST_OK, the call ends and returns it.
 *
 * Returns MST_OK if each difference was told. Otherwise returns MST_CLOSED; of mst_verifier.h
 * MST_BAD_ROOT for a root digest of another length, and for a piece that is not the one asked for
 * MST_P4_NO_NODE, MST_P5_OTHER_DIGEST, MST_P6_LAYER_NOT_BELOW, MST_P7_KEY_OUTSIDE, or of a value
 * MST_P2_CUT_SHORT, MST_P3_LEFT_OVER, MST_P10_OTHER_VALUE; MST_MEMORY.
 */
int32_t mst_differing(mst_pass *ours, const uint8_t *root, size_t root_length,
                      int32_t (*ask)(void *with, const uint8_t *key, size_t key_length,
                                     uint32_t number, const uint8_t **piece, size_t *length),
                      int32_t (*tell)(void *with, const mst_difference *difference), void *with);

/* ---- writes that wait for the turn ---- */

/*
 * As mst_try_put, but waits instead of returning MST_BUSY: it tries again after a moment, then
 * after giving the processor up, then after sleeps, from a microsecond up to a millisecond.
 *
 * A call that has waited for 45 milliseconds joins the queue. From then on each call of this store
 * that waits, and has not waited as long, leaves the turn to it: it sleeps instead of trying. So a
 * thread that writes without a pause does not keep the turn from the others. A call that waits but
 * gives no sign of it for 50 milliseconds, such as one of a thread that was stopped or has died,
 * holds nobody up any longer. Calls that try leave the turn to nobody, and of no call it is
 * promised when it gets the turn.
 *
 * A null room says that the old value is not wanted. Whatever room_length is, the call then returns
 * what it returns with a room of MST_VALUE_LONGEST bytes, and so never MST_SHORT_ROOM. To
 * mst_try_put and mst_try_remove a null room is one of 0 bytes, and has to have that length.
 */
int32_t mst_put(mst_pass *pass, const uint8_t *key, size_t key_length,
                const uint8_t *value, size_t value_length, uint8_t *room, size_t room_length);

/* As mst_try_remove, but waits, and takes a null room, as mst_put does. */
int32_t mst_remove(mst_pass *pass, const uint8_t *key, size_t key_length,
                   uint8_t *room, size_t room_length);

/* As mst_try_apply, but waits as mst_put does. */
int32_t mst_apply(mst_pass *pass, const uint8_t *edits, size_t length, size_t *place);

/* As mst_try_migrate, but waits as mst_put does. */
int32_t mst_migrate(mst_pass *pass, uint32_t format);

/*
 * As mst_put, but waits for no longer than so many microseconds: then it returns MST_BUSY, and
 * nothing is written. It tries at least once, and with 0 exactly once, as mst_try_put does. Of the
 * time that a sleep takes the system may add some, mostly less than 100 microseconds; a write that
 * has begun is ended, however long it takes. UINT64_MAX is without end.
 */
int32_t mst_put_within(mst_pass *pass, const uint8_t *key, size_t key_length,
                       const uint8_t *value, size_t value_length,
                       uint8_t *room, size_t room_length, uint64_t microseconds);

/* As mst_remove, but waits for no longer than mst_put_within does. */
int32_t mst_remove_within(mst_pass *pass, const uint8_t *key, size_t key_length,
                          uint8_t *room, size_t room_length, uint64_t microseconds);

/* As mst_apply, but waits for no longer than mst_put_within does. */
int32_t mst_apply_within(mst_pass *pass, const uint8_t *edits, size_t length, size_t *place,
                         uint64_t microseconds);

/* As mst_migrate, but waits for no longer than mst_put_within does. */
int32_t mst_migrate_within(mst_pass *pass, uint32_t format, uint64_t microseconds);

/* ---- sharded maps ---- */

/*
 * A sharded map is one map whose keys are split into intervals, its shards, each of which is a
 * store of its own. So it has more keys than a store has rows. It has one writer, and readers, each
 * for a thread of its own. The writer makes blocks: a block is a batch of edits of all shards that
 * is one version of the whole map, with one number and one root digest, made whole or not at all.
 * Block 0 is the empty map. Readers take snapshots: a snapshot shows exactly one block, unless
 * SHA-256 collides on the nodes of its trees. Readers do not wait while a block is made; only
 * mst_sharded_snapshot waits, for the moment while one is published. A map keeps its format, its
 * splits and its rows; mst_sharded_copy copies its pairs into a map with others.
 *
 *     mst_handle hands[2] = {MST_HANDLE_CLOSED, MST_HANDLE_CLOSED};
 *     mst_handle *writer = &hands[0], *reader = &hands[1];
 *     uint8_t splits[MST_SPLIT_LONGEST], edits[2 * MST_EDIT_LONGEST], root[MST_ROOT_LENGTH];
 *     size_t length = mst_split(splits, 0, (const uint8_t *)"m", 1), place, shard;
 *     uint64_t number;
 *     if (mst_sharded_open(1, 1000, splits, length, hands, 2) != MST_OK)    // two shards
 *         give_up();
 *     length = mst_edit_put(edits, 0, (const uint8_t *)"apple", 5, (const uint8_t *)"30", 2);
 *     length = mst_edit_remove(edits, length, (const uint8_t *)"pear", 4);
 *     mst_sharded_apply(writer, edits, length, &place, &shard, &number);    // block 1
 *     mst_sharded_snapshot(reader);                         // in another thread, say
 *     mst_sharded_number(reader, &number);                  // 1
 *     mst_sharded_root(reader, root, sizeof root);          // that of block 1, as the writer's
 *     mst_sharded_release(reader);
 *     mst_sharded_close(writer);
 *     mst_sharded_close(reader);                            // the map is gone
 *
 * What is owed for the hands of passes is owed for these too.
 */

/*
 * A hand of a sharded map: what holds the writer, a reader, a snapshot, a block that was begun, or
 * a part of one for its thread, or nothing. It has 256 bytes, as that of a pass.
 */
typedef struct mst_handle {
    void *at; /* the library's alone */
    uint64_t padding[31];
} mst_handle;

/* A hand that holds nothing. */
#ifdef __cplusplus
#define MST_HANDLE_CLOSED {}
#else
#define MST_HANDLE_CLOSED {0}
#endif

/* The most bytes that a split takes: a byte for its length, and a key. */
#define MST_SPLIT_LONGEST (1 + MST_KEY_LONGEST)

/* The most splits of a sharded map. */
#define MST_SPLITS_MOST 1023

/*
 * Opens a sharded map of the empty map in format 1 or 2. Its writer goes into the first of the
 * `count` hands, and a reader into each of the others. What a hand held before is closed, whatever
 * the call returns. Each shard is a store with `rows` rows and `count` passes. The splits stand in
 * `splits_length` bytes, one after the other: each is a byte for the length of a key, and the key.
 * They rise strictly, from above the key of one zero byte. The keys from a split on, and below the
 * next one, are those of a shard, so there is one shard more than splits. mst_split below writes a
 * split. Block 0, the empty map, is made.
 *
 * Returns MST_OK; MST_UNKNOWN_FORMAT for another format; MST_BAD_SPLITS; MST_BAD_SHAPE if rows or
 * count are out of their limits; MST_MEMORY, which is asked for only after these tests. If it does
 * not return MST_OK, all hands are empty. But of more than 32 hands none is looked at: they stay as
 * they are.
 */
int32_t mst_sharded_open(uint32_t format, uint32_t rows, const uint8_t *splits,
                         size_t splits_length, mst_handle *handles, size_t count);

/*
 * Closes the writer, the reader or the snapshot, whose pins end first. Returns MST_OK, and then the
 * hand is empty, or MST_CLOSED. The map is freed with the last hand that is closed. Once the writer
 * is closed, no more blocks are made, and readers go on. The same if a block that was begun is
 * closed: its writer is lost with it. Where a part is closed nothing is lost, since its block has a
 * share of it: so it may be committed or cancelled as before.
 */
int32_t mst_sharded_close(mst_handle *hand);

/*
 * Writes a split at `at` bytes into the room, which needs MST_SPLIT_LONGEST bytes from there, and
 * returns where the next one goes. After the last split that is the length of all. Of a key that is
 * longer than 32 bytes it writes only a length, so that mst_sharded_open refuses it.
 */
size_t mst_split(uint8_t *room, size_t at, const uint8_t *key, size_t key_length);

/*
 * Returns how many shards the map has, 1 to 1,024; or MST_CLOSED; MST_WRONG_STATE for a block that
 * was begun or a part of one.
 */
int32_t mst_sharded_shards(mst_handle *hand);

/*
 * Sets *rows to the number of rows that are free to the next block in a shard, as mst_free_rows of
 * a store. Shards are numbered from 0, and the number of the shards is that of the directory.
 * Returns MST_OK; MST_CLOSED; MST_WRONG_STATE for what is no writer; MST_ABSENT if there is no such
 * shard; MST_BUSY.
 */
int32_t mst_sharded_free_rows(mst_handle *writer, size_t shard, uint32_t *rows);

/*
 * Makes the next block of edits of all shards, in the form of mst_try_apply. Readers see none of
 * them before all are made and hashed. A shard with no edits gets no version.
 *
 * Returns MST_OK, and *number is the number of the block: one more than that of the block before.
 * Otherwise nothing has changed in any shard, and *number is as it was. Returns MST_CLOSED; if an
 * edit is not valid, for the first such one MST_BAD_KEY, MST_BAD_VALUE or MST_BAD_BATCH, and *place
 * is the number of that edit, from 0; MST_WRONG_STATE for what is no writer. Then returns MST_BUSY,
 * MST_VERSIONS_SPENT, MST_MEMORY, MST_NO_FREE_ROWS or MST_OVERTAKEN if a shard refused its edits:
 * *shard is the number of this shard, from 0. If it was the directory, or there is no memory for
 * the lists of the edits (MST_MEMORY), then *shard is the number of the shards.
 *
 * Where no edit is refused, *place is as it was; where no block is refused, *shard is.
 */
int32_t mst_sharded_apply(mst_handle *writer, const uint8_t *edits, size_t length,
                          size_t *place, size_t *shard, uint64_t *number);

/*
 * Sets *number to the number of the writer's last block, or of the snapshot's block: how many
 * blocks led to this map. Two snapshots with one number show one map, unless SHA-256 collides.
 * Returns MST_OK; MST_CLOSED; MST_WRONG_STATE for what is neither.
 */
int32_t mst_sharded_number(mst_handle *hand, uint64_t *number);

/*
 * Turns the reader into a snapshot of one block: until mst_sharded_release each read is of it.
 * Returns MST_OK; MST_CLOSED; MST_WRONG_STATE for what is no reader; MST_MOVING while a block is
 * just being published: the hand still holds the reader, so try again. It takes no memory.
 *
 * If no block was made since the reader's last snapshot, this compares numbers alone; otherwise the
 * root digest of each shard with what the directory lists.
 */
int32_t mst_sharded_try_snapshot(mst_handle *reader);

/*
 * Turns the snapshot into a reader: its pins end. Returns MST_OK, MST_CLOSED, or MST_WRONG_STATE
 * for what is no snapshot.
 */
int32_t mst_sharded_release(mst_handle *snapshot);

/*
 * As mst_get: the writer reads its last block, a snapshot its block, a reader the current version
 * of the key's shard. Two such reads of a reader need not be of one block. Returns what mst_get
 * returns, or for the writer MST_OVERTAKEN if another than the writer has written to the key's
 * shard, to which no call leads; right after MST_BAD_KEY comes MST_WRONG_STATE for a block that was
 * begun or a part of one.
 */
int32_t mst_sharded_get(mst_handle *hand, const uint8_t *key, size_t key_length,
                        uint8_t *room, size_t room_length);

/*
 * As mst_next, in the map of a snapshot. Returns what mst_next returns; right after MST_BAD_KEY
 * comes MST_WRONG_STATE for what is no snapshot. It takes no memory.
 */
int32_t mst_sharded_next(mst_handle *snapshot, const uint8_t *key, size_t key_length,
                         uint8_t *key_room, size_t key_room_length, size_t *next_length,
                         uint8_t *room, size_t room_length);

/*
 * As mst_range, in the map of a snapshot. Returns what mst_range returns; right after MST_BAD_KEY
 * comes MST_WRONG_STATE for what is no snapshot.
 */
int32_t mst_sharded_range(mst_handle *snapshot, const uint8_t *from, size_t from_length,
                          const uint8_t *to, size_t to_length, uint32_t limit,
                          uint8_t *room, size_t room_length, size_t *count, size_t *length);

/*
 * Sets *count to the number of pairs that a snapshot has in all shards together. Returns MST_OK;
 * MST_CLOSED; MST_WRONG_STATE for what is no snapshot. It reads the tree of each shard.
 */
int32_t mst_sharded_len(mst_handle *snapshot, uint64_t *count);

/*
 * Returns the format of a snapshot, 1 or 2, in which its root digest and its proofs are. Returns
 * MST_CLOSED; MST_WRONG_STATE for what is no snapshot.
 */
int32_t mst_sharded_format(mst_handle *snapshot);

/*
 * Returns 32, the length of the root digest of all shards together, and its bytes stand first in
 * `root`: that of the writer's last block, or of the snapshot's block. It depends on the content,
 * the format and the splits alone. Returns MST_CLOSED; MST_WRONG_STATE for what is neither;
 * MST_SHORT_ROOM if root_length is less than 32. It takes no memory.
 */
int32_t mst_sharded_root(mst_handle *hand, uint8_t *root, size_t root_length);

/*
 * Makes the proof of the key's answer, which mst_verify_sharded judges in the format and by the
 * root digest of the same snapshot. Returns MST_OK: its bytes stand first in the room, and *length
 * is their number. Returns MST_CLOSED; MST_BAD_KEY; MST_WRONG_STATE for what is no snapshot;
 * MST_MEMORY: room and *length are as they were. Returns MST_SHORT_ROOM if the room is too short:
 * *length is the length of the proof, and the room is as it was.
 */
int32_t mst_sharded_prove(mst_handle *snapshot, const uint8_t *key, size_t key_length,
                          uint8_t *room, size_t room_length, size_t *length);

/*
 * Lists a pair for each shard of a snapshot, in the order of their keys: its lower bound as the key,
 * and as the value its root digest, 32 bytes, followed by its upper bound, if it has one. These are
 * the pairs of the directory, whose root digest is that of mst_sharded_root. They stand in the room
 * as those of mst_range, and MST_PAIR_LONGEST bytes for each shard are enough. Returns MST_OK or
 * MST_SHORT_ROOM as mst_range; MST_CLOSED; MST_WRONG_STATE for what is no snapshot; MST_MEMORY:
 * room, *count and *length are as they were.
 */
int32_t mst_sharded_directory(mst_handle *snapshot, uint8_t *room, size_t room_length,
                              size_t *count, size_t *length);

/*
 * As mst_sharded_try_snapshot, but while a block is being published it tries again, after pauses as
 * those of mst_put, instead of returning MST_MOVING. It is not promised when a try falls between
 * two blocks; and if the writer's thread has died within mst_sharded_apply, none may.
 */
int32_t mst_sharded_snapshot(mst_handle *reader);

/*
 * Puts all pairs of a snapshot, as one block, into another sharded map: one of the other format,
 * with other splits, or with more rows. The second hand holds the writer of that map. So a map is
 * migrated, split anew, or enlarged, while its readers go on. Keys that the other map has besides
 * keep their values. Blocks that are made after the snapshot are not copied: make none meanwhile,
 * or make each of them in the other map too, once the copy is made.
 *
 *     mst_handle more[2] = {MST_HANDLE_CLOSED, MST_HANDLE_CLOSED};
 *     if (mst_sharded_open(2, 2000, NULL, 0, more, 2) == MST_OK
 *         && mst_sharded_snapshot(reader) == MST_OK)
 *         told = mst_sharded_copy(reader, &more[0], &shard, &number);    // its block 1
 *
 * Returns MST_OK, and *number is the number of the block. Otherwise nothing has changed in any
 * shard, and *number is as it was. Returns MST_CLOSED or MST_WRONG_STATE if the first hand holds no
 * snapshot; MST_MEMORY if there is none for the list of all pairs: *shard is the number of the
 * shards of the other map. Then returns what mst_sharded_apply returns, and tells *shard as that
 * does. Both hands are in the call until it returns.
 *
 * It takes memory for all pairs as edits, and besides for a list of the pairs first, and for what
 * mst_sharded_apply takes then. It gives all back.
 */
int32_t mst_sharded_copy(mst_handle *snapshot, mst_handle *writer, size_t *shard,
                         uint64_t *number);

/* ---- one block by several threads ---- */

/*
 * A block may be made in parts, one for each shard: most of the work of a block is to make its
 * edits in free rows and to hash them, and threads may do that for several shards at a time.
 *
 *     mst_handle parts[2] = {MST_HANDLE_CLOSED, MST_HANDLE_CLOSED};     // one for each shard
 *     if (mst_sharded_begin(writer, edits, length, &place, parts, 2) != MST_OK)
 *         give_up();
 *     mst_sharded_prepare(&parts[0]);       // in one thread
 *     mst_sharded_prepare(&parts[1]);       // in another
 *     mst_sharded_commit(writer, &shard, &number);      // once both are done
 *     mst_sharded_close(&parts[0]);
 *     mst_sharded_close(&parts[1]);
 *
 * A part is a shard's of this one block. Each call of it is for one thread at a time, as of each
 * hand; calls of different parts, and of the block, may be made at the same time.
 *
 * mst_sharded_apply_in_threads below does all this in one call, by threads that it starts.
 */

/*
 * Begins the next block, of edits in the form of mst_try_apply. The writer's hand then holds the
 * block, and with it the writer. There have to be as many hands for the parts as shards: each gets
 * the part of the shard with its number, whether that has edits or not. What they held before is
 * closed. Readers see nothing of the block before mst_sharded_commit.
 *
 * Returns MST_OK. Otherwise the writer is as it was. Returns MST_CLOSED; MST_WRONG_STATE for what
 * is no writer; MST_BAD_SHAPE if there are not as many hands as shards: the hands for the parts are
 * as they were. Returns MST_BAD_KEY, MST_BAD_VALUE, MST_BAD_BATCH as mst_sharded_apply, with *place
 * as there; MST_MEMORY: the hands for the parts are empty.
 */
int32_t mst_sharded_begin(mst_handle *writer, const uint8_t *edits, size_t length, size_t *place,
                          mst_handle *parts, size_t count);

/*
 * Prepares a part: makes its edits in free rows of its shard, and hashes them. Nothing of it is
 * published. Parts may be prepared in any order, or not at all: mst_sharded_commit prepares what is
 * not prepared. Of a part that is prepared, or has no edits, nothing is left to do.
 *
 * Returns MST_OK; MST_CLOSED; MST_WRONG_STATE for what is no part, or the part of a block that was
 * committed or cancelled; MST_BUSY if the block is just being committed or cancelled. Returns
 * MST_BUSY, MST_VERSIONS_SPENT, MST_MEMORY, MST_NO_FREE_ROWS or MST_OVERTAKEN too if the shard
 * refuses its edits: then mst_sharded_commit will return this number, or that of a shard before it.
 */
int32_t mst_sharded_prepare(mst_handle *part);

/*
 * Makes the block that was begun, as mst_sharded_apply makes one of the same edits: returns what
 * that returns, without MST_BAD_KEY, MST_BAD_VALUE and MST_BAD_BATCH, and tells *shard and *number
 * as that does. Whatever it returns, the hand then holds the writer. But MST_CLOSED and
 * MST_WRONG_STATE for what is no block that was begun, and MST_BUSY while a part is just being
 * prepared: *shard is as it was, and the hand holds the block still. So call it once all calls of
 * mst_sharded_prepare have returned. The hands of the parts hold nothing of use any more, and are
 * to be closed.
 */
int32_t mst_sharded_commit(mst_handle *block, size_t *shard, uint64_t *number);

/*
 * Takes the block that was begun back: nothing has changed, and all rows that were taken are free
 * again. Returns MST_OK, and the hand holds the writer; MST_CLOSED; MST_WRONG_STATE for what is no
 * block that was begun; MST_BUSY while a part is just being prepared: the hand holds the block. It
 * takes no memory.
 */
int32_t mst_sharded_cancel(mst_handle *block);

/*
 * Makes a block as mst_sharded_apply does, in one call, by at most `threads` threads: this one and
 * others, which it starts, and which have ended when it returns. It begins the block, the threads
 * prepare its parts, each the next one that nobody has taken, and this thread commits it. 0 threads
 * are as 1, which is mst_sharded_apply. There are never more threads than shards. Where a thread
 * cannot be started, the others do its work.
 *
 * Returns what mst_sharded_apply returns of the same edits, and tells *place, *shard and *number as
 * that does. Whatever it returns, the hand holds what it held before, and after a refusal nothing
 * has changed in any shard. Before it looks at the edits it takes memory for a hand of each shard;
 * if there is none it returns MST_MEMORY, and *shard is the number of the shards.
 *
 * The hand and the edits are in the call until it returns. It starts its threads anew each time, so
 * a block of few edits may take longer than by mst_sharded_apply. They have the stack that
 * pthread_create gives by default, and take no signals. A thread leaves this call by its return
 * alone: one that is cancelled meanwhile goes on to the end of the call (pthread_cancel with
 * deferred cancellation).
 */
int32_t mst_sharded_apply_in_threads(mst_handle *writer, const uint8_t *edits, size_t length,
                                     size_t threads, size_t *place, size_t *shard,
                                     uint64_t *number);

/* ---- several threads that write blocks ---- */

/*
 * A group is a writer of blocks for any number of threads (group commit). While one of them makes a
 * block, the edits of the others wait, and then all that wait are made as one block.
 *
 *     mst_sharded_group *group;
 *     if (mst_sharded_group_open(writer, &group) != MST_OK)     // the writer's hand is empty now
 *         give_up();
 *     int32_t told = mst_sharded_group_apply(group, edits, length, &place, &shard, &number);
 *                                              // in any thread, with edits of its own
 *     mst_sharded_group_close(group, writer);  // once all threads are done: the hand has it again
 */

/* A group. The library takes memory for it, and a caller has only its address. */
typedef struct mst_sharded_group mst_sharded_group;

/*
 * Makes a group of the writer in the hand, and sets *group to its address. Returns MST_OK, and then
 * the hand is empty. Otherwise the hand and *group are as they were: returns MST_CLOSED;
 * MST_WRONG_STATE for what is no writer; MST_MEMORY.
 *
 * While the group has the writer, nobody can make a call that wants one: to ask for free rows by
 * mst_sharded_free_rows, close the group first.
 */
int32_t mst_sharded_group_open(mst_handle *writer, mst_sharded_group **group);

/*
 * Makes the edits, in the form of mst_try_apply, in a block of the group's writer. Any number of
 * threads may be in this call at a time. It returns once the edits are published or refused.
 *
 * Returns MST_OK, and *number is the number of the block that has the edits; the numbers that a
 * thread is told rise. The root digest of this block is not told: a snapshot that is taken
 * afterwards has it only if no later block was made, which its number tells. Otherwise none of the
 * edits is made: returns what mst_sharded_apply returns, without MST_CLOSED and MST_WRONG_STATE,
 * and tells *place, of an edit among these, and *shard as that does. What is not told is as it was.
 *
 * If no block is being made when the call comes, it makes one of its edits at once. Calls that come
 * meanwhile wait, first awake and then asleep. Then the first of them, or a call that comes before
 * it is awake, makes one block of all that wait, up to 1,048,576 bytes of edits, and so on. Before
 * it begins, it waits some microseconds for calls like those that have just returned. Calls that
 * are awake help to prepare the parts of their block. In a block the edits of each call follow
 * those of the calls that came before it. So a call may make the edits of others with its own; if
 * that block is refused, or there is no memory for it, it makes one block for each of its calls.
 *
 * If a block of several calls is refused, each of them gets a block of its own, in the same order.
 * So a call is refused only if mst_sharded_apply would refuse its edits alone, after those of the
 * calls before it. Bad edits go into no block with others. A block of several calls takes memory
 * for all their edits, and for what mst_sharded_begin takes; if there is none, each call gets a
 * block of its own.
 *
 * It reads nothing. While a group has the writer, no call reads the map and writes it at once: what
 * a reader or a snapshot tells may be changed by another call before these edits are made. If edits
 * depend on what the map has, such as those of a counter, updates may be lost. Hold a lock around
 * the read and this call in all threads that write, or let one thread write without a group.
 *
 * A thread leaves this call by its return alone. One that is cancelled meanwhile goes on to the end
 * of the call (pthread_cancel with deferred cancellation). If a thread ends within it, others may
 * wait without end.
 */
int32_t mst_sharded_group_apply(mst_sharded_group *group, const uint8_t *edits, size_t length,
                                size_t *place, size_t *shard, uint64_t *number);

/*
 * Ends the group, and puts its writer into the hand. What the hand held before is closed. No other
 * call may be in the group then, and none may follow. Returns MST_OK.
 */
int32_t mst_sharded_group_close(mst_sharded_group *group, mst_handle *writer);

#ifdef __cplusplus
}
#endif

#endif
