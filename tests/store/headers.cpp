// The C headers in C++: each macro of theirs, and calls, so that a compiler may warn of them.
#include "mst_store.h"
#include "mst_verifier.h"

namespace {

mst_pass one = MST_PASS_CLOSED;
mst_pass two[2] = {MST_PASS_CLOSED, MST_PASS_CLOSED};
mst_handle three = MST_HANDLE_CLOSED;
mst_sharded_group *four;
mst_handle five = MST_HANDLE_CLOSED;

} // namespace

// Declared first, since a compiler may want that too.
int32_t each_call(uint8_t *room, size_t length);
extern "C" int32_t ask(void *, const uint8_t *, size_t, uint32_t, const uint8_t **, size_t *);
extern "C" int32_t tell(void *, const mst_difference *);

int32_t each_call(uint8_t *room, size_t length) {
    mst_pair pair = mst_pair();
    size_t place = mst_pair_at(room, length, &pair);
    size_t end = mst_edit_put(room, 0, room, length, room, place);
    end = mst_edit_remove(room, end, room, length);
    int32_t told = mst_put(&one, room, end, room, length, room, length);
    told += mst_remove(&two[0], room, end, room, length);
    told += mst_apply(&two[1], room, end, &place) + mst_migrate(&one, 1);
    told += mst_put_within(&one, room, end, room, length, room, length, 1);
    told += mst_remove_within(&two[0], room, end, room, length, 1);
    told += mst_apply_within(&two[1], room, end, &place, 1) + mst_migrate_within(&one, 1, 1);
    uint64_t number = length;
    told += mst_sharded_snapshot(&three) + mst_sharded_group_open(&three, &four);
    told += mst_sharded_copy(&three, &three, &place, &number);
    told += mst_sharded_begin(&three, room, length, &place, &five, 1) + mst_sharded_prepare(&five);
    told += mst_sharded_commit(&three, &place, &number) + mst_sharded_cancel(&three);
    told += mst_sharded_apply_in_threads(&three, room, length, 4, &place, &end, &number);
    told += mst_sharded_group_apply(four, room, length, &place, &end, &number);
    told += mst_sharded_group_close(four, &three);
    const uint8_t *piece;
    told += mst_proof_piece(room, length, 0, &piece, &place);
    told += mst_differing(&one, room, length, ask, tell, room);
    told += mst_verify(1, room, 32, room, length, room, length, room, length);
    return told + MST_SHARDED_TEST(told) + MST_PART_TEST(told) + MST_VERSION_NUMBER;
}
