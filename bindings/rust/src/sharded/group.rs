//! Groups: several threads that write a sharded map by its one writer (group commit).
use super::{BlockError, Writer};
use crate::raw_sharded::{self as raw, ShardedHand};
use crate::{edits, Edit, Error};
use std::fmt;
use std::mem::ManuallyDrop;
use std::ptr;

/// The writer of a sharded map for any number of threads (group commit), by [`Writer::into_group`].
/// While one of them makes a block, the edits of the others wait, and then all that wait are made
/// as one block.
///
/// Once it is dropped, its writer is too: no more blocks are made, and the readers go on.
///
/// ```
/// use mst_store::sharded::{open, Options};
/// use mst_store::Edit::Put;
///
/// let (writer, _) = open(Options { rows: 1000, splits: &[b"m"], ..Options::default() })?;
/// let group = writer.into_group()?;
/// std::thread::scope(|threads| {
///     threads.spawn(|| group.apply(&[Put(b"apple", b"30")]).unwrap());
///     threads.spawn(|| group.apply(&[Put(b"pear", b"12")]).unwrap());
/// });
/// let mut writer = group.into_writer();
/// assert_eq!(writer.get(b"apple")?, Some(b"30".to_vec()));
/// assert_eq!(writer.get(b"pear")?, Some(b"12".to_vec()));
/// # Ok::<(), mst_store::Error>(())
/// ```
///
/// While it is lent, as to a thread, it does not end:
///
/// ```compile_fail
/// # use mst_store::sharded::{open, Options};
/// # let (writer, _) = open(Options { rows: 1000, ..Options::default() }).unwrap();
/// let group = writer.into_group().unwrap();
/// let lent = &group;
/// let writer = group.into_writer();
/// lent.apply(&[]).unwrap();
/// ```
#[derive(Debug)]
pub struct Group {
    at: *mut raw::ShardedGroup,
    shards: usize,
}

// Safety: any number of threads may be in the library's call that applies edits. The one that ends
// the group takes it by value or by `&mut`, so no thread is in a call of it then. Its writer may go
// to another thread, as a hand does.
unsafe impl Send for Group {}
unsafe impl Sync for Group {}

impl Group {
    /// Takes the writer out of the hand, of a map of so many shards. If that is refused, the hand
    /// is as it was.
    pub(super) fn open(writer: &mut ShardedHand, shards: usize) -> Result<Group, Error> {
        let mut at = ptr::null_mut();
        // Safety: both pointers are valid.
        match unsafe { raw::mst_sharded_group_open(writer, &mut at) } {
            0 => Ok(Group { at, shards }),
            code => Err(Error::of(code)),
        }
    }

    /// Makes the edits in a block of the writer, and returns its number once they are published.
    /// Any number of threads may be in this call at a time. Calls whose edits were made as one
    /// block are told the same number, and those that a thread is told rise. In a block the edits
    /// of each call follow those of the calls that came before it. A call of no edits gets a number
    /// too. The root digest is not told: a snapshot that is taken afterwards has it, if it is of
    /// the same number.
    ///
    /// If the call is refused, none of its edits is made, and no other call is refused with it. It
    /// returns what [`Writer::apply`] would return of these edits alone, after those of the calls
    /// before: [`Error::BadKeyAt`] or [`Error::BadValueAt`] with a place among these edits, or the
    /// shard that refused them, such as one that is full ([`Error::NoFreeRows`]).
    ///
    /// It reads nothing: another thread may change what a reader or a snapshot tells before these
    /// edits are made. So if edits depend on what the map has, as those of a counter do, hold a
    /// lock around the read and this call in all threads that write. Otherwise updates may be lost.
    ///
    /// A thread leaves this call by its return. If a thread ends within it, by whatever cause,
    /// others may wait without end, and the group must not be dropped, nor turned into its writer.
    pub fn apply(&self, edits: &[Edit<'_>]) -> Result<u64, BlockError> {
        let packed = edits::packed(edits);
        let (mut place, mut number) = (0, 0);
        let mut shard = usize::MAX;
        // Safety: the group has not ended; the bytes are valid for their length, and so are the
        // other pointers, which are this thread's alone.
        let code = unsafe {
            raw::mst_sharded_group_apply(
                self.at,
                packed.as_ptr(),
                packed.len(),
                &mut place,
                &mut shard,
                &mut number,
            )
        };
        match code {
            0 => Ok(number),
            code => Err(BlockError::of(code, shard, self.shards).at(place)),
        }
    }

    /// Ends the group, and returns its writer, whose last block is that of the highest number that
    /// a call was told.
    #[must_use = "the writer is closed when this is dropped"]
    pub fn into_writer(self) -> Writer {
        // The group ends here, so it has no drop.
        ManuallyDrop::new(self).end()
    }

    /// Ends the group. Nothing may follow, not even a drop.
    fn end(&mut self) -> Writer {
        let mut writer = Writer { hand: ShardedHand::EMPTY };
        // Safety: the group has not ended, no thread is in a call of it, and the hand is empty.
        unsafe { raw::mst_sharded_group_close(self.at, &mut writer.hand) };
        writer
    }
}

impl Drop for Group {
    fn drop(&mut self) {
        drop(self.end());
    }
}

/// Why a group was not made, with the writer, which is as it was.
#[derive(Debug)]
pub struct GroupError {
    /// The writer that was to be shared.
    pub writer: Writer,
    /// Why: [`Error::Memory`].
    pub error: Error,
}

impl fmt::Display for GroupError {
    fn fmt(&self, out: &mut fmt::Formatter<'_>) -> fmt::Result {
        self.error.fmt(out)
    }
}

impl std::error::Error for GroupError {
    fn source(&self) -> Option<&(dyn std::error::Error + 'static)> {
        Some(&self.error)
    }
}

/// For `?`, where nobody needs the writer: it is closed.
impl From<GroupError> for Error {
    fn from(refused: GroupError) -> Error {
        refused.error
    }
}
