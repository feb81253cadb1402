//! Sharded maps: one map over many stores, its shards, each for an interval of keys.
//!
//! The [`Writer`] of a map alone makes blocks: a block is edits of all shards as one version of the
//! whole map, with one number and one root digest, made whole or not at all. Each [`Reader`] takes
//! snapshots, each of exactly one block, unless SHA-256 collides. They may be sent to other threads,
//! one to each, and close when they are dropped. The map is freed with the last of them. By a
//! [`Group`] several threads share a writer.
//!
//! ```
//! use mst_store::sharded::{open, Options};
//! use mst_store::Edit::{Put, Remove};
//!
//! let two_shards = Options { rows: 1000, readers: 1, splits: &[b"m"], ..Options::default() };
//! let (mut writer, mut readers) = open(two_shards)?;
//! assert_eq!(writer.apply(&[Put(b"apple", b"30"), Remove(b"pear")]).unwrap(), 1);
//! let mut then = readers[0].snapshot();
//! assert_eq!(then.number(), 1);
//! assert_eq!(then.root(), writer.root());
//! assert_eq!(then.get(b"apple")?, Some(b"30".to_vec()));
//! # Ok::<(), mst_store::Error>(())
//! ```
//!
//! A snapshot takes its reader until it is dropped:
//!
//! ```compile_fail
//! # use mst_store::sharded::{open, Options};
//! let options = Options { rows: 1000, readers: 1, ..Options::default() };
//! let (_, mut readers) = open(options).unwrap();
//! let then = readers[0].snapshot();
//! readers[0].get(b"apple");
//! drop(then);
//! ```
mod answers;
mod block;
mod error;
mod group;
mod reader;
mod writer;

pub use block::{Block, Part};
pub use error::BlockError;
pub use group::{Group, GroupError};
pub use reader::{Reader, Snapshot};
pub use writer::Writer;

use crate::raw_sharded::{self as raw, ShardedHand};
use crate::{edits, Error, Format};

/// The shape and the format of a sharded map. By default there are no rows, which is refused, so
/// they have to be given.
#[derive(Debug, Clone, Copy, Default, PartialEq, Eq, Hash)]
pub struct Options<'a> {
    /// The rows of each shard, 4 to 65,535.
    pub rows: u32,
    /// The readers, 0 to 31.
    pub readers: usize,
    /// At most 1,023 keys that rise strictly, from above that of one zero byte: the keys from one
    /// of them on, and below the next, are those of a shard. By default there is one shard.
    pub splits: &'a [&'a [u8]],
    /// The format of the map, by default [`Format::One`].
    pub format: Format,
}

/// Opens a sharded map of the empty map, which is block 0, and returns its writer and its readers,
/// as many as are asked for.
///
/// The map keeps its format; [`Snapshot::copy_to`] copies it to a map of another.
pub fn open(options: Options<'_>) -> Result<(Writer, Vec<Reader>), Error> {
    let Options { rows, readers, splits, format } = options;
    // 33 hands are as refused as any greater number, and take no room.
    let count = readers.min(32) + 1;
    let packed = edits::splits(splits);
    let mut hands: Vec<ShardedHand> = (0..count).map(|_| ShardedHand::EMPTY).collect();
    // Safety: the hands are empty, and there are `count` of them; the bytes are valid for their
    // length.
    let code = unsafe {
        raw::mst_sharded_open(
            format.number(),
            rows,
            packed.as_ptr(),
            packed.len(),
            hands.as_mut_ptr(),
            count,
        )
    };
    if code != 0 {
        return Err(Error::of(code));
    }
    let writer = Writer { hand: hands.remove(0) };
    Ok((writer, hands.into_iter().map(|hand| Reader { hand, room: Vec::new() }).collect()))
}
