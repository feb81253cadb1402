//! The formats of trees and proofs.
use crate::Error;

/// The format of a version: that of its root digest and its proofs.
#[derive(Debug, Clone, Copy, Default, PartialEq, Eq, Hash)]
pub enum Format {
    /// Nodes hold values.
    #[default]
    One = 1,
    /// Nodes are smaller and hold the SHA-256 of each value: shorter proofs, smaller puts.
    Two = 2,
}

impl Format {
    /// Returns its number, as verifiers take it.
    #[must_use]
    pub fn number(self) -> u32 {
        self as u32
    }

    /// Returns the format for the code that a call returned, or the number of a refusal.
    pub(crate) fn told(code: i32) -> Result<Format, i32> {
        match code {
            1 => Ok(Format::One),
            2 => Ok(Format::Two),
            refused => Err(refused),
        }
    }
}

impl TryFrom<u32> for Format {
    type Error = Error;

    fn try_from(number: u32) -> Result<Format, Error> {
        match number {
            1 => Ok(Format::One),
            2 => Ok(Format::Two),
            _ => Err(Error::UnknownFormat),
        }
    }
}
