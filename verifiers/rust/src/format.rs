//! The formats of trees and proofs.
use crate::Error;

/// The format of a root digest and of its proofs. A root digest does not tell it.
#[derive(Debug, Clone, Copy, PartialEq, Eq, Hash)]
pub enum Format {
    /// Nodes hold values.
    One = 1,
    /// Nodes hold the SHA-256 of each value: shorter proofs.
    Two = 2,
}

impl Format {
    /// Returns its number.
    #[must_use]
    pub fn number(self) -> u32 {
        self as u32
    }

    /// The first byte of a node's text, and of a proof of one map.
    pub(crate) fn byte(self) -> u8 {
        self as u8
    }

    /// The first byte of a proof of a sharded map.
    pub(crate) fn sharded_byte(self) -> u8 {
        match self {
            Format::One => 3,
            Format::Two => 4,
        }
    }
}

impl TryFrom<u32> for Format {
    type Error = Error;

    fn try_from(number: u32) -> Result<Format, Error> {
        match number {
            1 => Ok(Format::One),
            2 => Ok(Format::Two),
            _ => Err(Error::UnknownFormat),
        }
    }
}
