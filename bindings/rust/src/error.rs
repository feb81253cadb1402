//! What the store refuses.
use std::fmt;

/// A refusal. If a call returns one, nothing has changed, but where the call says otherwise.
#[derive(Debug, Clone, Copy, PartialEq, Eq, Hash)]
#[non_exhaustive]
pub enum Error {
    /// No format has this number. There are formats 1 and 2.
    UnknownFormat,
    /// A key has 1 to 32 bytes.
    BadKey,
    /// A value has 0 to 64 bytes.
    BadValue,
    /// The edit of a batch at this place, from 0, has a key of 0 bytes or more than 32. It is the
    /// first that is refused.
    BadKeyAt(usize),
    /// The edit of a batch at this place, from 0, has a value of more than 64 bytes. It is the
    /// first that is refused.
    BadValueAt(usize),
    /// The pass still pins, since a `Pinned` was leaked (`std::mem::forget`). The next pin ends
    /// that one. Of a part of a block: the block has ended.
    WrongState,
    /// A growth of memory was refused.
    Memory,
    /// A store has 4 to 65,535 rows and 1 to 32 passes.
    BadShape,
    /// The store has made all the versions that it can number.
    VersionsSpent,
    /// The write or the migration needs more rows than are free.
    NoFreeRows,
    /// Some pass pins a version, so the rows are not counted.
    RowsPinned,
    /// Splits are at most 1,023 keys that rise strictly, from above that of one zero byte.
    BadSplits,
    /// Of a block: another has the turn of a shard. Only a thread that ended within
    /// [`Writer::apply`](crate::sharded::Writer::apply), or another call that makes edits, leaves
    /// it so. Of a part of a block: the block is just being ended.
    Busy,
    /// Of a block: another than its writer has written. No call leads to this.
    Overtaken,
    /// A piece of a proof is not the one that was asked for: it fails this test, 1 to 10 for P1 to
    /// P10 of docs/FORMAT.md.
    OtherPiece(u8),
    /// A number that the header does not give for the call: the library and this crate do not fit.
    Other(i32),
}

impl Error {
    /// The number that include/mst_store.h has for it.
    #[must_use]
    pub fn code(self) -> i32 {
        match self {
            Error::UnknownFormat => -3,
            Error::BadKey | Error::BadKeyAt(_) => -5,
            Error::BadValue | Error::BadValueAt(_) => -6,
            Error::WrongState => -8,
            Error::Memory => -9,
            Error::BadShape => -10,
            Error::VersionsSpent => -22,
            Error::NoFreeRows => -23,
            Error::RowsPinned => -24,
            Error::BadSplits => -26,
            Error::Busy => -21,
            Error::Overtaken => -29,
            Error::OtherPiece(test) => -10 - i32::from(test),
            Error::Other(code) => code,
        }
    }

    pub(crate) fn of(code: i32) -> Error {
        match code {
            -3 => Error::UnknownFormat,
            -5 => Error::BadKey,
            -6 => Error::BadValue,
            -8 => Error::WrongState,
            -9 => Error::Memory,
            -10 => Error::BadShape,
            -22 => Error::VersionsSpent,
            -23 => Error::NoFreeRows,
            -24 => Error::RowsPinned,
            -26 => Error::BadSplits,
            -21 => Error::Busy,
            -29 => Error::Overtaken,
            -20..=-11 => Error::OtherPiece((-10 - code) as u8),
            other => Error::Other(other),
        }
    }

    /// The same for a batch, of which the edit at this place was refused, if one was.
    pub(crate) fn at(self, place: usize) -> Error {
        match self {
            Error::BadKey => Error::BadKeyAt(place),
            Error::BadValue => Error::BadValueAt(place),
            other => other,
        }
    }
}

impl fmt::Display for Error {
    fn fmt(&self, out: &mut fmt::Formatter<'_>) -> fmt::Result {
        match self {
            Error::UnknownFormat => out.write_str("no format has this number"),
            Error::BadKey => out.write_str("a key has 1 to 32 bytes"),
            Error::BadValue => out.write_str("a value has 0 to 64 bytes"),
            Error::BadKeyAt(place) => write!(out, "edit {place}: a key has 1 to 32 bytes"),
            Error::BadValueAt(place) => write!(out, "edit {place}: a value has 0 to 64 bytes"),
            Error::WrongState => out.write_str("the pass is pinned, or the block has ended"),
            Error::Memory => out.write_str("a growth of memory was refused"),
            Error::BadShape => out.write_str("a store has 4 to 65535 rows and 1 to 32 passes"),
            Error::VersionsSpent => {
                out.write_str("the store has made all the versions that it can number")
            }
            Error::NoFreeRows => {
                out.write_str("the write or the migration needs more rows than are free")
            }
            Error::RowsPinned => {
                out.write_str("some pass pins a version, so the rows are not counted")
            }
            Error::BadSplits => {
                out.write_str("splits are at most 1023 keys that rise, from above the least")
            }
            Error::Busy => out.write_str("another has the turn"),
            Error::Overtaken => out.write_str("another than the writer of blocks has written"),
            Error::OtherPiece(test) => {
                write!(out, "a piece is not the one that was asked for: P{test}")
            }
            Error::Other(code) => write!(out, "the library answered {code}"),
        }
    }
}

impl std::error::Error for Error {}

/// The refusal of a call that does not wait for another pass's write.
#[derive(Debug, Clone, Copy, PartialEq, Eq, Hash)]
pub enum TryError {
    /// Another pass has the turn: it writes, migrates or counts rows. Nothing has changed.
    Busy,
    /// Any other refusal. Trying again does not help by itself.
    Refused(Error),
}

impl TryError {
    pub(crate) fn of(code: i32) -> TryError {
        match code {
            -21 => TryError::Busy,
            other => TryError::Refused(Error::of(other)),
        }
    }

    /// The same for a batch, of which the edit at this place was refused, if one was.
    pub(crate) fn at(self, place: usize) -> TryError {
        match self {
            TryError::Busy => TryError::Busy,
            TryError::Refused(error) => TryError::Refused(error.at(place)),
        }
    }
}

impl fmt::Display for TryError {
    fn fmt(&self, out: &mut fmt::Formatter<'_>) -> fmt::Result {
        match self {
            TryError::Busy => out.write_str("another pass writes"),
            TryError::Refused(error) => error.fmt(out),
        }
    }
}

impl std::error::Error for TryError {}

/// For `?`, where reads stand next to calls that try.
impl From<Error> for TryError {
    fn from(error: Error) -> TryError {
        TryError::Refused(error)
    }
}
