//! The verifier of proofs in safe Rust, written from docs/FORMAT.md alone. It takes no memory, and
//! needs neither `std` nor another crate.
//!
//! A map of short keys and values has a root digest. With an answer for a key comes a proof of it.
//! From a root digest that you trust, [`verify`] tells what a proof shows: the key's value, that
//! the key is absent, or which test the proof fails.
//!
//! ```
//! use mst_verifier::{verify, Error, Format, ProofTest};
//!
//! // the map of `a` and `abc`, with the values `1` and `x`
//! let root = *b"\xd4\xa8\xa9\xfc\x55\x05\x84\x27\x16\x3b\xd8\xa1\xf0\x9c\xa5\xec\
//!               \x54\x2d\xe1\xcd\xaf\x28\xdf\x10\x0b\xe5\x47\x2e\x47\xb7\x25\x03";
//! let proof = b"\x01\x01\0\0\0\x11\x01\0\0\x02\0\x01a\x011\0\x03abc\x01x\0";
//!
//! let answer = verify(Format::One, &root, b"a", proof)?;
//! assert_eq!(answer, Some(&b"1"[..]));
//! assert_eq!(verify(Format::One, &root, b"b", proof)?, None);
//!
//! let mut forged = *proof;
//! forged[14] = b'2'; // the value of `a`
//! let refused = verify(Format::One, &root, b"a", &forged);
//! assert_eq!(refused, Err(Error::Refused(ProofTest::P5OtherDigest)));
//! # Ok::<(), Error>(())
//! ```
//!
//! Whether a root digest is the newest no verifier knows: let its maker sign it together with its
//! format, its kind (of one map or of a sharded map) and a rising number, and check all three. A
//! root digest does not tell its kind: take it from where you take the root digest, never from the
//! proof, since the wrong call may accept a false answer. The time of a call grows with the length
//! of the proof: refuse longer proofs than you expect.
#![no_std]
#![forbid(unsafe_code)]
#![deny(missing_debug_implementations, missing_docs)]

mod error;
mod format;
mod node;
mod proof;
mod reader;
mod sha256;
mod sharded;

pub use error::{Error, ProofTest, ShardedTest};
pub use format::Format;

/// The most bytes of a key.
pub const KEY_LONGEST: usize = 32;
/// The most bytes of a value.
pub const VALUE_LONGEST: usize = 64;
/// The bytes of a root digest.
pub const ROOT_LENGTH: usize = 32;

type Digest = [u8; ROOT_LENGTH];

/// Returns what a proof shows of a key, in the map with this root digest: the key's value, 0 to 64
/// bytes of the proof, or `None` if the map has no such key.
///
/// The error is [`Error::BadKey`] if the key has not 1 to 32 bytes, otherwise [`Error::Refused`] if
/// the proof fails a test. With an error nothing is shown.
pub fn verify<'p>(
    format: Format,
    root: &[u8; ROOT_LENGTH],
    key: &[u8],
    proof: &'p [u8],
) -> Result<Option<&'p [u8]>, Error> {
    if !is_key(key) {
        return Err(Error::BadKey);
    }
    proof::answer(format, root, key, proof).map_err(Error::Refused)
}

/// As [`verify`], in the sharded map with this root digest: several trees, each for an interval of
/// the keys.
///
/// If the root digest comes from somebody whom you do not trust, it may be that of shards that
/// overlap: then two proofs may show two answers for a key.
///
/// The error is [`Error::BadKey`] if the key has not 1 to 32 bytes, otherwise
/// [`Error::RefusedSharded`] if the proof fails a test. With an error nothing is shown.
pub fn verify_sharded<'p>(
    format: Format,
    root: &[u8; ROOT_LENGTH],
    key: &[u8],
    proof: &'p [u8],
) -> Result<Option<&'p [u8]>, Error> {
    if !is_key(key) {
        return Err(Error::BadKey);
    }
    sharded::answer(format, root, key, proof).map_err(Error::RefusedSharded)
}

fn is_key(bytes: &[u8]) -> bool {
    (1..=KEY_LONGEST).contains(&bytes.len())
}
