//! What more than one kind of hand answers.
use crate::raw_sharded::{self as raw, ShardedHand};
use crate::{reads, Error, ROOT_LENGTH, VALUE_LONGEST};

/// The number of the writer's last block, or of a snapshot's.
pub(super) fn number_of(hand: &mut ShardedHand) -> u64 {
    let mut number = 0;
    // Safety: both pointers are valid.
    let code = unsafe { raw::mst_sharded_number(hand, &mut number) };
    // The hand holds the writer or a snapshot, so nothing is refused.
    assert_eq!(code, 0, "the library and this crate do not fit");
    number
}

/// The root digest of the writer's last block, or of a snapshot's.
pub(super) fn root_of(hand: &mut ShardedHand) -> [u8; ROOT_LENGTH] {
    let mut root = [0; ROOT_LENGTH];
    // Safety: the root is no other's.
    let code = unsafe { raw::mst_sharded_root(hand, root.as_mut_ptr(), root.len()) };
    // As for the number, and the root is long enough.
    assert_eq!(code, ROOT_LENGTH as i32, "the library and this crate do not fit");
    root
}

pub(super) fn value_of(hand: &mut ShardedHand, key: &[u8]) -> Result<Option<Vec<u8>>, Error> {
    let mut room = [0; VALUE_LONGEST];
    // Safety: each pointer is valid for the length that goes with it, and the room is no other's.
    let code = unsafe {
        raw::mst_sharded_get(hand, key.as_ptr(), key.len(), room.as_mut_ptr(), room.len())
    };
    reads::value(code, &room).map_err(Error::of)
}

pub(super) fn shards_of(hand: &mut ShardedHand) -> usize {
    // Safety: the hand is valid, and holds something, so the answer is 1 to 1,024.
    unsafe { raw::mst_sharded_shards(hand) as usize }
}
