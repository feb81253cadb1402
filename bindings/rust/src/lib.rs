//! An in-memory ordered map of short keys and values, with a root digest, proofs, and versions that
//! stay readable while they are pinned.
//!
//! A store is used through its passes alone. [`open`] returns them; a thread works through a pass
//! of its own. By their code reads wait for no one (docs/LIMITS.md has how that is known). One
//! write runs at a time. The store is freed with its last pass. A call has room for each answer, so
//! the library's `MST_SHORT_ROOM`, with which a put has been made all the same, is never returned.
//!
//! ```
//! use mst_store::{open, Options, Reads};
//!
//! let mut passes = open(Options { rows: 1000, passes: 2, ..Options::default() })?;
//! let mut reader = passes.pop().unwrap();
//! let mut writer = passes.pop().unwrap();
//! assert_eq!(writer.put(b"apple", b"30")?, None);
//! let mut then = reader.pin();
//! writer.put(b"apple", b"31")?;
//! assert_eq!(then.get(b"apple")?, Some(b"30".to_vec()));
//! drop(then);
//! assert_eq!(reader.get(b"apple")?, Some(b"31".to_vec()));
//! # Ok::<(), mst_store::Error>(())
//! ```
//!
//! A migration turns the tree of the map to another format; pinned versions keep theirs:
//!
//! ```
//! use mst_store::{open, Format, Options, Reads};
//!
//! let mut passes = open(Options { rows: 1000, passes: 2, format: Format::One })?;
//! let mut reader = passes.pop().unwrap();
//! let mut writer = passes.pop().unwrap();
//! let mut then = reader.pin();
//! assert_eq!(writer.migrate(Format::Two)?, Format::One);
//! assert_eq!((then.format(), writer.format()), (Format::One, Format::Two));
//! # Ok::<(), mst_store::Error>(())
//! ```
//!
//! Many edits may be made as one version:
//!
//! ```
//! use mst_store::Edit::{Put, Remove};
//! use mst_store::{open, Options, Reads};
//!
//! let mut pass = open(Options { rows: 1000, passes: 1, ..Options::default() })?.remove(0);
//! pass.apply(&[Put(b"apple", b"30"), Put(b"pear", b"12"), Remove(b"apple")])?;
//! assert_eq!((pass.get(b"apple")?, pass.version()), (None, 1));
//! # Ok::<(), mst_store::Error>(())
//! ```
//!
//! Two threads never share a pass:
//!
//! ```compile_fail
//! fn shared<T: Sync>() {}
//! shared::<mst_store::Pass>();
//! ```
//!
//! and a pinned pass does not write:
//!
//! ```compile_fail
//! # use mst_store::{open, Options};
//! let mut pass = open(Options { rows: 1000, passes: 1, ..Options::default() }).unwrap().remove(0);
//! pass.pin().put(b"apple", b"30");
//! ```
#![deny(missing_debug_implementations, missing_docs)]

mod differing;
mod edits;
mod error;
mod format;
mod raw;
mod raw_sharded;
mod reads;
pub mod sharded;

pub use differing::{proof_piece, Difference};
pub use edits::Edit;
pub use error::{Error, TryError};
pub use format::Format;
pub use reads::{Items, Pair, Reads};

use raw::Hand;
use std::ffi::CStr;
use std::fmt;
use std::time::Duration;

/// The most bytes of a key.
pub const KEY_LONGEST: usize = 32;
/// The most bytes of a value.
pub const VALUE_LONGEST: usize = 64;
/// The bytes of a root digest.
pub const ROOT_LENGTH: usize = 32;

// The most passes of a store, so the most versions that are pinned.
const PASSES_MOST: usize = 32;

/// Returns the version of the library that is linked, which is this crate's own if both are of one
/// release.
#[must_use]
pub fn library_version() -> &'static str {
    // Safety: the library's text ends with a zero byte and stays for ever.
    let text = unsafe { CStr::from_ptr(raw::mst_library_version()) };
    text.to_str().expect("the library's version is digits and dots")
}

/// A wait of more microseconds than a `u64` has is without end.
fn microseconds(longest: Duration) -> u64 {
    u64::try_from(longest.as_micros()).unwrap_or(raw::WAIT)
}

/// The shape and the format of a store. By default there are no rows and no passes, which is
/// refused, so both have to be given.
#[derive(Debug, Clone, Copy, Default, PartialEq, Eq, Hash)]
pub struct Options {
    /// The rows, 4 to 65,535: a map takes one for each of its pairs and nodes.
    pub rows: u32,
    /// The passes, 1 to 32.
    pub passes: usize,
    /// The format in which the store opens, by default [`Format::One`].
    pub format: Format,
}

/// Opens a store of the empty map, and returns its passes, as many as are asked for.
pub fn open(options: Options) -> Result<Vec<Pass>, Error> {
    let Options { rows, passes, format } = options;
    // 33 hands are as refused as any greater number, and take no room.
    let count = passes.min(33);
    let mut hands: Vec<Hand> = (0..count).map(|_| Hand::EMPTY).collect();
    // Safety: the hands are empty, and there are `count` of them.
    match unsafe { raw::mst_open(format.number(), rows, hands.as_mut_ptr(), count) } {
        0 => Ok(hands.into_iter().map(|hand| Pass { hand, room: Vec::new() }).collect()),
        code => Err(Error::of(code)),
    }
}

/// A pass: one thread's at a time, with writes, pins, and the reads of [`Reads`] of the current
/// version.
///
/// It may be sent to another thread, and closes when it is dropped.
pub struct Pass {
    hand: Hand,
    room: Vec<u8>,
}

impl fmt::Debug for Pass {
    fn fmt(&self, out: &mut fmt::Formatter<'_>) -> fmt::Result {
        out.debug_tuple("Pass").field(&self.hand).finish()
    }
}

impl reads::Held for Pass {
    fn hand(&mut self) -> *mut Hand {
        &mut self.hand
    }

    fn hand_and_room(&mut self) -> (*mut Hand, &mut Vec<u8>) {
        (&mut self.hand, &mut self.room)
    }
}

impl Reads for Pass {}

impl Pass {
    /// Gives the key the value. Returns the value before, or None if the key is new; `Busy` if
    /// another pass has the turn.
    pub fn try_put(&mut self, key: &[u8], value: &[u8]) -> Result<Option<Vec<u8>>, TryError> {
        self.put_by(raw::TRY, key, value).map_err(TryError::of)
    }

    /// Takes the key out. Returns the value that it had, or None if it was absent; `Busy` if
    /// another pass has the turn.
    pub fn try_remove(&mut self, key: &[u8]) -> Result<Option<Vec<u8>>, TryError> {
        self.remove_by(raw::TRY, key).map_err(TryError::of)
    }

    /// As [`Pass::try_put`], but waits for the turn.
    pub fn put(&mut self, key: &[u8], value: &[u8]) -> Result<Option<Vec<u8>>, Error> {
        self.put_by(raw::WAIT, key, value).map_err(Error::of)
    }

    /// As [`Pass::try_remove`], but waits for the turn.
    pub fn remove(&mut self, key: &[u8]) -> Result<Option<Vec<u8>>, Error> {
        self.remove_by(raw::WAIT, key).map_err(Error::of)
    }

    /// As [`Pass::put`], but waits for no longer than this, in whole microseconds: then it returns
    /// `Busy`, and nothing is written. It tries at least once, and with less than a microsecond
    /// exactly once, as [`Pass::try_put`] does.
    pub fn put_within(
        &mut self,
        key: &[u8],
        value: &[u8],
        longest: Duration,
    ) -> Result<Option<Vec<u8>>, TryError> {
        self.put_by(microseconds(longest), key, value).map_err(TryError::of)
    }

    /// As [`Pass::remove`], but waits for no longer than this, as [`Pass::put_within`] does.
    pub fn remove_within(
        &mut self,
        key: &[u8],
        longest: Duration,
    ) -> Result<Option<Vec<u8>>, TryError> {
        self.remove_by(microseconds(longest), key).map_err(TryError::of)
    }

    /// Makes the edits, in their order, as one version: each read sees all of them or none, and of
    /// those of one key the last decides. No edits make a version too. Returns `Busy` if another
    /// pass has the turn.
    pub fn try_apply(&mut self, edits: &[Edit<'_>]) -> Result<(), TryError> {
        self.apply_by(raw::TRY, edits).map_err(|(code, place)| TryError::of(code).at(place))
    }

    /// As [`Pass::try_apply`], but waits for the turn.
    pub fn apply(&mut self, edits: &[Edit<'_>]) -> Result<(), Error> {
        self.apply_by(raw::WAIT, edits).map_err(|(code, place)| Error::of(code).at(place))
    }

    /// As [`Pass::apply`], but waits for no longer than this, as [`Pass::put_within`] does.
    pub fn apply_within(&mut self, edits: &[Edit<'_>], longest: Duration) -> Result<(), TryError> {
        self.apply_by(microseconds(longest), edits)
            .map_err(|(code, place)| TryError::of(code).at(place))
    }

    /// Turns the tree of the map to a format. Returns the format before, or `Busy` if another pass
    /// has the turn. The map stays, and so do the pinned versions, each in its format.
    pub fn try_migrate(&mut self, to: Format) -> Result<Format, TryError> {
        self.migrate_by(raw::TRY, to).map_err(TryError::of)
    }

    /// As [`Pass::try_migrate`], but waits for the turn.
    pub fn migrate(&mut self, to: Format) -> Result<Format, Error> {
        self.migrate_by(raw::WAIT, to).map_err(Error::of)
    }

    /// As [`Pass::migrate`], but waits for no longer than this, as [`Pass::put_within`] does.
    pub fn migrate_within(&mut self, to: Format, longest: Duration) -> Result<Format, TryError> {
        self.migrate_by(microseconds(longest), to).map_err(TryError::of)
    }

    fn put_by(&mut self, longest: u64, key: &[u8], value: &[u8]) -> Result<Option<Vec<u8>>, i32> {
        let mut room = [0; VALUE_LONGEST];
        // Safety: each pointer is valid for the length that goes with it, and the room is no
        // other's.
        let code = unsafe {
            raw::mst_put_within(
                &mut self.hand,
                key.as_ptr(),
                key.len(),
                value.as_ptr(),
                value.len(),
                room.as_mut_ptr(),
                room.len(),
                longest,
            )
        };
        reads::value(code, &room)
    }

    fn remove_by(&mut self, longest: u64, key: &[u8]) -> Result<Option<Vec<u8>>, i32> {
        let mut room = [0; VALUE_LONGEST];
        // Safety: as in put_by.
        let code = unsafe {
            raw::mst_remove_within(
                &mut self.hand,
                key.as_ptr(),
                key.len(),
                room.as_mut_ptr(),
                room.len(),
                longest,
            )
        };
        reads::value(code, &room)
    }

    /// A refusal is a number with the place of the edit, if it is that of one.
    fn apply_by(&mut self, longest: u64, edits: &[Edit<'_>]) -> Result<(), (i32, usize)> {
        let packed = edits::packed(edits);
        let (bytes, length) = (packed.as_ptr(), packed.len());
        let mut place = 0;
        // Safety: the bytes are valid for their length, and so are the other pointers.
        match unsafe { raw::mst_apply_within(&mut self.hand, bytes, length, &mut place, longest) } {
            0 => Ok(()),
            code => Err((code, place)),
        }
    }

    fn migrate_by(&mut self, longest: u64, to: Format) -> Result<Format, i32> {
        // Safety: the hand is valid.
        Format::told(unsafe { raw::mst_migrate_within(&mut self.hand, to.number(), longest) })
    }

    /// Returns how many rows the current version takes, if no other pass writes and none pins.
    pub fn rows(&mut self) -> Result<u32, TryError> {
        let mut rows = 0;
        // Safety: both pointers are valid.
        match unsafe { raw::mst_rows(&mut self.hand, &mut rows) } {
            0 => Ok(rows),
            code => Err(TryError::of(code)),
        }
    }

    /// Returns how many rows are free to the next write, also while versions are pinned, if no
    /// other pass writes. As long as nobody writes, pins or unpins, a write that takes at most that
    /// many rows is not refused as `NoFreeRows`, and one that takes more is.
    pub fn free_rows(&mut self) -> Result<u32, TryError> {
        let mut rows = 0;
        // Safety: both pointers are valid.
        match unsafe { raw::mst_free_rows(&mut self.hand, &mut rows) } {
            0 => Ok(rows),
            code => Err(TryError::of(code)),
        }
    }

    /// Returns the versions that are pinned, in rising order, each once, if no other pass writes.
    /// The current version is among them only if it is pinned.
    pub fn pinned_versions(&mut self) -> Result<Vec<u64>, TryError> {
        let mut versions = [0; PASSES_MOST];
        let (at, room, mut count) = (versions.as_mut_ptr(), versions.len(), 0);
        // Safety: the array is valid for its length, and so are the other pointers.
        match unsafe { raw::mst_pinned_versions(&mut self.hand, at, room, &mut count) } {
            0 => Ok(versions[..count].to_vec()),
            code => Err(TryError::of(code)),
        }
    }

    /// Returns the version that the last write of this pass made, whatever other passes wrote
    /// since, or `None` if it has made none.
    pub fn made(&mut self) -> Option<u64> {
        let mut version = 0;
        // Safety: both pointers are valid.
        match unsafe { raw::mst_made(&mut self.hand, &mut version) } {
            0 => Some(version),
            // The hand holds a pass, so nothing is refused.
            _ => None,
        }
    }

    /// Pins the current version: until the result is dropped, each read by it is of that version.
    pub fn pin(&mut self) -> Pinned<'_> {
        // Safety: the hand is valid. If it pins already, a Pinned was leaked: that pin ends here.
        let code = unsafe {
            if raw::mst_pin(&mut self.hand) == 0 {
                0
            } else {
                raw::mst_unpin(&mut self.hand);
                raw::mst_pin(&mut self.hand)
            }
        };
        assert_eq!(code, 0, "the library and this crate do not fit");
        Pinned(self)
    }
}

/// A pass while it pins a version: it has the reads of [`Reads`] alone. The pin ends when it is
/// dropped.
#[derive(Debug)]
#[must_use = "the pin ends when this is dropped"]
pub struct Pinned<'a>(&'a mut Pass);

impl reads::Held for Pinned<'_> {
    fn hand(&mut self) -> *mut Hand {
        &mut self.0.hand
    }

    fn hand_and_room(&mut self) -> (*mut Hand, &mut Vec<u8>) {
        self.0.hand_and_room()
    }
}

impl Reads for Pinned<'_> {}

impl Drop for Pinned<'_> {
    fn drop(&mut self) {
        // Safety: the hand is valid.
        unsafe { raw::mst_unpin(&mut self.0.hand) };
    }
}
