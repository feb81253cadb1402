//! The writer, which makes blocks.
use super::answers::{number_of, root_of, shards_of, value_of};
use super::block::cancel;
use super::{Block, BlockError, Group, GroupError, Part};
use crate::raw::ABSENT;
use crate::raw_sharded::{self as raw, ShardedHand};
use crate::{edits, Edit, Error, ROOT_LENGTH};

/// The writer of a sharded map, which alone makes its blocks: one thread's at a time.
///
/// Once it is dropped, no more blocks are made, and the readers go on.
#[derive(Debug)]
pub struct Writer {
    pub(super) hand: ShardedHand,
}

impl Writer {
    /// Returns how many shards there are.
    pub fn shards(&mut self) -> usize {
        shards_of(self.ended())
    }

    /// Returns how many rows are free to the next block in the shard with this number, from 0, or
    /// in the directory, which has the number of the shards; `None` if there is no such shard.
    pub fn free_rows(&mut self, shard: usize) -> Result<Option<u32>, Error> {
        let mut rows = 0;
        // Safety: both pointers are valid.
        match unsafe { raw::mst_sharded_free_rows(self.ended(), shard, &mut rows) } {
            0 => Ok(Some(rows)),
            ABSENT => Ok(None),
            code => Err(Error::of(code)),
        }
    }

    /// Makes the edits of all shards as the next block, and returns its number: one more than that
    /// of the block before. Of those of one key the last decides. Readers see none of them before
    /// all are made. No edits make a block too.
    ///
    /// If the block is refused, nothing has changed in any shard.
    pub fn apply(&mut self, edits: &[Edit<'_>]) -> Result<u64, BlockError> {
        let packed = edits::packed(edits);
        let (mut place, mut number) = (0, 0);
        let mut shard = usize::MAX;
        // Safety: the bytes are valid for their length, and so are the other pointers.
        let code = unsafe {
            raw::mst_sharded_apply(
                self.ended(),
                packed.as_ptr(),
                packed.len(),
                &mut place,
                &mut shard,
                &mut number,
            )
        };
        self.made(code, number, shard).map_err(|it| it.at(place))
    }

    /// As [`Writer::apply`], but by at most so many threads: this one, and others, which have ended
    /// when it returns. Each makes and hashes the edits of other shards. It starts them anew each
    /// time, so a block of few edits may take longer than by [`Writer::apply`]. Where a thread
    /// cannot be started, the others do its work.
    pub fn apply_in_threads(
        &mut self,
        edits: &[Edit<'_>],
        threads: usize,
    ) -> Result<u64, BlockError> {
        let packed = edits::packed(edits);
        let (mut place, mut number) = (0, 0);
        let mut shard = usize::MAX;
        // Safety: as in apply.
        let code = unsafe {
            raw::mst_sharded_apply_in_threads(
                self.ended(),
                packed.as_ptr(),
                packed.len(),
                threads,
                &mut place,
                &mut shard,
                &mut number,
            )
        };
        self.made(code, number, shard).map_err(|it| it.at(place))
    }

    /// Begins the next block, of these edits, and returns it with its parts, one for each shard, in
    /// their order, for threads that the caller has.
    ///
    /// If an edit is not valid, or memory is refused, nothing has changed.
    ///
    /// ```
    /// use mst_store::sharded::{open, Options};
    /// use mst_store::Edit::Put;
    ///
    /// let (mut writer, _) = open(Options { rows: 1000, splits: &[b"m"], ..Options::default() })?;
    /// let (block, mut parts) = writer.begin(&[Put(b"apple", b"30"), Put(b"pear", b"12")]).unwrap();
    /// std::thread::scope(|threads| {
    ///     for part in &mut parts {
    ///         threads.spawn(|| part.prepare());
    ///     }
    /// });
    /// assert_eq!(block.commit(), Ok(1));
    /// # Ok::<(), mst_store::Error>(())
    /// ```
    pub fn begin(&mut self, edits: &[Edit<'_>]) -> Result<(Block<'_>, Vec<Part>), BlockError> {
        let packed = edits::packed(edits);
        let (mut place, hand) = (0, self.ended());
        let count = shards_of(hand);
        let mut parts: Vec<_> = (0..count).map(|_| Part { hand: ShardedHand::EMPTY }).collect();
        // Safety: as in apply; a part is its hand alone, and there are `count` of them.
        let code = unsafe {
            raw::mst_sharded_begin(
                hand,
                packed.as_ptr(),
                packed.len(),
                &mut place,
                parts.as_mut_ptr().cast(),
                count,
            )
        };
        match code {
            0 => Ok((Block { writer: self }, parts)),
            code => Err(BlockError { shard: None, error: Error::of(code) }.at(place)),
        }
    }

    /// The hand with the writer: if a [`Block`] was leaked, the hand still holds that, and it is
    /// cancelled.
    pub(super) fn ended(&mut self) -> &mut ShardedHand {
        cancel(&mut self.hand);
        &mut self.hand
    }

    /// The number of a block that a call has made, or why it has not.
    pub(super) fn made(&mut self, code: i32, number: u64, shard: usize) -> Result<u64, BlockError> {
        match code {
            0 => Ok(number),
            code => Err(BlockError::of(code, shard, self.shards())),
        }
    }

    /// Returns the value of the key in the last block, or None if the key is absent: so a block can
    /// depend on what the map has.
    pub fn get(&mut self, key: &[u8]) -> Result<Option<Vec<u8>>, Error> {
        value_of(self.ended(), key)
    }

    /// Returns the number of the last block; 0 is that of the empty map.
    pub fn number(&mut self) -> u64 {
        number_of(self.ended())
    }

    /// Returns the root digest of all shards after the last block, as a snapshot of it has it.
    pub fn root(&mut self) -> [u8; ROOT_LENGTH] {
        root_of(self.ended())
    }

    /// Turns the writer into a [`Group`], by which any number of threads write.
    ///
    /// If memory is refused ([`Error::Memory`]), the error has the writer, as it was.
    #[allow(clippy::result_large_err)] // the writer comes back without a box, which takes memory
    pub fn into_group(self) -> Result<Group, GroupError> {
        let mut writer = self;
        let hand = writer.ended();
        let shards = shards_of(hand);
        Group::open(hand, shards).map_err(|error| GroupError { writer, error })
    }
}
