//! Readers, and the snapshots that they take.
use super::answers::{number_of, root_of, shards_of, value_of};
use super::{BlockError, Writer};
use crate::raw::SHORT_ROOM;
use crate::raw_sharded::{self as raw, ShardedHand};
use crate::{reads, Error, Format, Items, Pair, KEY_LONGEST, ROOT_LENGTH, VALUE_LONGEST};
use std::fmt;

/// A reader of a sharded map: one thread's at a time. It takes snapshots, one at a time.
pub struct Reader {
    pub(super) hand: ShardedHand,
    pub(super) room: Vec<u8>,
}

impl fmt::Debug for Reader {
    fn fmt(&self, out: &mut fmt::Formatter<'_>) -> fmt::Result {
        out.debug_tuple("Reader").field(&self.hand).finish()
    }
}

impl Reader {
    /// Returns how many shards there are.
    pub fn shards(&mut self) -> usize {
        shards_of(&mut self.hand)
    }

    /// Returns the value that the key has now, or None if the key is absent. Two such reads need
    /// not be of one block.
    pub fn get(&mut self, key: &[u8]) -> Result<Option<Vec<u8>>, Error> {
        value_of(&mut self.hand, key)
    }

    /// Returns a snapshot of one block, or None while a block is just being published.
    pub fn try_snapshot(&mut self) -> Option<Snapshot<'_>> {
        self.end_a_leaked_snapshot();
        // Safety: the hand is valid.
        match unsafe { raw::mst_sharded_try_snapshot(&mut self.hand) } {
            0 => Some(Snapshot(self)),
            // The hand holds a reader, so nothing else is refused.
            code => {
                assert_eq!(code, raw::MOVING, "the library and this crate do not fit");
                None
            }
        }
    }

    /// As [`Reader::try_snapshot`], but tries again while a block is being published. It is not
    /// promised when a try falls between two blocks; and if the writer's thread has died within
    /// [`Writer::apply`], none may.
    pub fn snapshot(&mut self) -> Snapshot<'_> {
        self.end_a_leaked_snapshot();
        // Safety: the hand is valid.
        let code = unsafe { raw::mst_sharded_snapshot(&mut self.hand) };
        // As in try_snapshot.
        assert_eq!(code, 0, "the library and this crate do not fit");
        Snapshot(self)
    }

    /// If a [`Snapshot`] was leaked, the hand still holds it. A reader is refused with no effect.
    fn end_a_leaked_snapshot(&mut self) {
        // Safety: the hand is valid.
        unsafe { raw::mst_sharded_release(&mut self.hand) };
    }
}

/// A reader while it has a snapshot of exactly one block, unless SHA-256 collides: all reads are of
/// this block. Its pins end when it is dropped.
#[derive(Debug)]
#[must_use = "the pins end when this is dropped"]
pub struct Snapshot<'a>(&'a mut Reader);

impl Snapshot<'_> {
    /// Returns how many shards there are.
    pub fn shards(&mut self) -> usize {
        self.0.shards()
    }

    /// Returns the number of the block: how many blocks led to this map.
    pub fn number(&mut self) -> u64 {
        number_of(&mut self.0.hand)
    }

    /// Returns the root digest of all shards. It depends on their pairs, their format and the
    /// splits alone.
    pub fn root(&mut self) -> [u8; ROOT_LENGTH] {
        root_of(&mut self.0.hand)
    }

    /// Returns the value of the key, or None if the key is absent.
    pub fn get(&mut self, key: &[u8]) -> Result<Option<Vec<u8>>, Error> {
        self.0.get(key)
    }

    /// Returns the pair of the least key above `after`, or of the least key of all if `after` is
    /// empty; None if there is no such pair.
    pub fn next(&mut self, after: &[u8]) -> Result<Option<Pair>, Error> {
        let (mut room, mut found, mut length) = ([0; VALUE_LONGEST], [0; KEY_LONGEST], 0);
        // Safety: each pointer is valid for the length that goes with it, and no room is another's.
        let code = unsafe {
            raw::mst_sharded_next(
                &mut self.0.hand,
                after.as_ptr(),
                after.len(),
                found.as_mut_ptr(),
                found.len(),
                &mut length,
                room.as_mut_ptr(),
                room.len(),
            )
        };
        let value = reads::value(code, &room).map_err(Error::of)?;
        Ok(value.map(|value| (found[..length].to_vec(), value)))
    }

    /// Returns the first pairs, at most `limit`, whose keys are at least `from` and below `to`. An
    /// empty bound does not bind.
    pub fn range(&mut self, from: &[u8], to: &[u8], limit: usize) -> Result<Vec<Pair>, Error> {
        let hand: *mut ShardedHand = &mut self.0.hand;
        let limit = u32::try_from(limit).unwrap_or(u32::MAX);
        reads::listed(|room, count, length| {
            // Safety: as in next.
            unsafe {
                raw::mst_sharded_range(
                    hand,
                    from.as_ptr(),
                    from.len(),
                    to.as_ptr(),
                    to.len(),
                    limit,
                    room.as_mut_ptr(),
                    room.len(),
                    count,
                    length,
                )
            }
        })
    }

    /// Goes over the pairs whose keys are at least `from` and below `to`, by rising keys, and reads
    /// them in pages of at most 64. An empty bound does not bind. An [`Error`] is the last item, as
    /// of [`Reads::items`](crate::Reads::items).
    pub fn items(&mut self, from: &[u8], to: &[u8]) -> Items<'_, Self> {
        Items::new(self, from, to)
    }

    /// Returns of each shard its lower bound, with its root digest of 32 bytes and its upper bound,
    /// which is empty if there is none: the pairs whose root digest is that of the snapshot.
    pub fn directory(&mut self) -> Result<Vec<Pair>, Error> {
        let hand: *mut ShardedHand = &mut self.0.hand;
        reads::listed(|room, count, length| {
            // Safety: as in next.
            unsafe {
                raw::mst_sharded_directory(hand, room.as_mut_ptr(), room.len(), count, length)
            }
        })
    }

    /// Returns how many pairs all shards have together. It counts them anew each time, by the nodes
    /// of their trees. [`Snapshot::next`] tells sooner whether there is any.
    #[allow(clippy::len_without_is_empty)] // next tells that without a count
    pub fn len(&mut self) -> u64 {
        let mut count = 0;
        // Safety: both pointers are valid.
        let code = unsafe { raw::mst_sharded_len(&mut self.0.hand, &mut count) };
        // The hand holds a snapshot, so nothing is refused.
        assert_eq!(code, 0, "the library and this crate do not fit");
        count
    }

    /// Returns the format of the map, in which the root digest and the proofs are.
    pub fn format(&mut self) -> Format {
        // Safety: the hand is valid. It holds a snapshot, so nothing is refused.
        let code = unsafe { raw::mst_sharded_format(&mut self.0.hand) };
        Format::told(code).expect("the library and this crate have the same formats")
    }

    /// Returns the proof of the key's answer, for a verifier of sharded maps and the format and the
    /// root digest of this snapshot.
    pub fn prove(&mut self, key: &[u8]) -> Result<Vec<u8>, Error> {
        let Reader { hand, room } = &mut *self.0;
        if room.is_empty() {
            room.resize(4096, 0);
        }
        loop {
            let mut length = 0;
            // Safety: each pointer is valid for the length that goes with it.
            let code = unsafe {
                raw::mst_sharded_prove(
                    &mut *hand,
                    key.as_ptr(),
                    key.len(),
                    room.as_mut_ptr(),
                    room.len(),
                    &mut length,
                )
            };
            match code {
                0 => return Ok(room[..length].to_vec()),
                SHORT_ROOM => room.resize(length.max(2 * room.len()), 0),
                code => return Err(Error::of(code)),
            }
        }
    }

    /// Puts all pairs, as one block, into another sharded map, by its writer, and returns the number
    /// of this block. The other map may be of the other format, with other splits, or with more
    /// rows: so a map is migrated, split anew, or enlarged, while its readers go on. Keys that the
    /// other map has besides keep their values. Blocks that are made after the snapshot are not
    /// copied.
    ///
    /// If the block is refused, nothing has changed in any shard. There may also be no memory for
    /// the list of all pairs.
    pub fn copy_to(&mut self, writer: &mut Writer) -> Result<u64, BlockError> {
        let (mut shard, mut number) = (usize::MAX, 0);
        // Safety: both hands are valid, and so are the other pointers.
        let code = unsafe {
            raw::mst_sharded_copy(&mut self.0.hand, writer.ended(), &mut shard, &mut number)
        };
        writer.made(code, number, shard)
    }
}

impl reads::Listing for Snapshot<'_> {
    fn list(&mut self, from: &[u8], to: &[u8], limit: usize) -> Result<Vec<Pair>, Error> {
        self.range(from, to, limit)
    }
}

impl Drop for Snapshot<'_> {
    fn drop(&mut self) {
        // Safety: the hand is valid.
        unsafe { raw::mst_sharded_release(&mut self.0.hand) };
    }
}
