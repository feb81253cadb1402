//! Why a block is refused.
use crate::Error;
use std::fmt;

/// Why a block was not made: nothing has changed in any shard.
#[derive(Debug, Clone, Copy, PartialEq, Eq, Hash)]
pub struct BlockError {
    /// The number of the shard that refused its edits, from 0. None if a key or a value has a bad
    /// length, if the directory of the shards refused its own edits, or if there was no memory for
    /// the lists of the edits.
    pub shard: Option<usize>,
    /// Why the block was refused.
    pub error: Error,
}

impl BlockError {
    /// Of a code that a call returns for a map of so many shards. The number of a shard that it has
    /// not told is none of these.
    pub(super) fn of(code: i32, shard: usize, shards: usize) -> BlockError {
        BlockError { shard: (shard < shards).then_some(shard), error: Error::of(code) }
    }

    /// The same, with the place of the edit that was refused, if one was.
    pub(super) fn at(self, place: usize) -> BlockError {
        BlockError { error: self.error.at(place), ..self }
    }
}

impl fmt::Display for BlockError {
    fn fmt(&self, out: &mut fmt::Formatter<'_>) -> fmt::Result {
        match self.shard {
            Some(shard) => write!(out, "shard {shard}: {}", self.error),
            None => self.error.fmt(out),
        }
    }
}

impl std::error::Error for BlockError {
    fn source(&self) -> Option<&(dyn std::error::Error + 'static)> {
        Some(&self.error)
    }
}
