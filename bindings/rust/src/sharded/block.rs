//! Blocks that were begun, and their parts.
use super::{BlockError, Writer};
use crate::raw_sharded::{self as raw, ShardedHand};
use crate::Error;
use std::thread;

/// A part of a block that was begun: the edits of one shard. It is one thread's at a time.
///
/// If it is dropped before its block ends, the block loses nothing.
#[derive(Debug)]
#[repr(transparent)]
pub struct Part {
    pub(super) hand: ShardedHand,
}

impl Part {
    /// Makes the edits in free rows, and hashes them: readers see nothing of it. Parts may be
    /// prepared in any order, each in any thread, or not at all. If nothing is left to do, it does
    /// nothing.
    ///
    /// If the shard refuses its edits, it returns why, and so will [`Block::commit`], unless a shard
    /// before it refuses its own. While another thread ends the block it returns [`Error::Busy`],
    /// and then [`Error::WrongState`].
    pub fn prepare(&mut self) -> Result<(), Error> {
        // Safety: the hand is valid.
        match unsafe { raw::mst_sharded_prepare(&mut self.hand) } {
            0 => Ok(()),
            code => Err(Error::of(code)),
        }
    }
}

/// A block that was begun, by [`Writer::begin`]. If it is dropped, it is cancelled: nothing has
/// changed.
#[derive(Debug)]
#[must_use = "the block is cancelled when this is dropped"]
pub struct Block<'a> {
    pub(super) writer: &'a mut Writer,
}

impl Block<'_> {
    /// Makes the block, as [`Writer::apply`] makes one of the same edits, and returns its number.
    /// It prepares the parts that are not prepared, and waits for one that another thread is just
    /// preparing.
    ///
    /// If the block is refused, nothing has changed in any shard.
    pub fn commit(self) -> Result<u64, BlockError> {
        let (mut shard, mut number) = (usize::MAX, 0);
        loop {
            // Safety: the pointers are valid.
            let code =
                unsafe { raw::mst_sharded_commit(&mut self.writer.hand, &mut shard, &mut number) };
            // Of a part that is just being prepared no shard is told.
            if code != raw::BUSY || shard != usize::MAX {
                return self.writer.made(code, number, shard);
            }
            thread::yield_now();
        }
    }

    /// Takes the block back, as a drop does: nothing has changed. It waits for a part that another
    /// thread is just preparing.
    pub fn cancel(self) {}
}

impl Drop for Block<'_> {
    fn drop(&mut self) {
        cancel(&mut self.writer.hand);
    }
}

/// Takes the block of a hand back, if it holds one. A writer is refused with no effect.
pub(super) fn cancel(hand: &mut ShardedHand) {
    // Safety: the hand is valid.
    while unsafe { raw::mst_sharded_cancel(hand) } == raw::BUSY {
        thread::yield_now();
    }
}
