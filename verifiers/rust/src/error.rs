//! Why nothing is shown: a question that cannot be asked, or the test that a proof fails.
use core::fmt;

/// Why a call shows nothing.
#[derive(Debug, Clone, Copy, PartialEq, Eq, Hash)]
#[non_exhaustive]
pub enum Error {
    /// No format has this number. There are formats 1 and 2.
    UnknownFormat,
    /// A key has 1 to 32 bytes.
    BadKey,
    /// A proof of one map fails this test first.
    Refused(ProofTest),
    /// A proof of a sharded map fails this test first.
    RefusedSharded(ShardedTest),
}

/// The tests of a proof of one map, in their order. Each is shown as docs/FORMAT.md names it: `P5`.
#[derive(Debug, Clone, Copy, PartialEq, Eq, Hash)]
#[non_exhaustive]
pub enum ProofTest {
    /// The first byte is not the format's.
    P1FormatByte = 1,
    /// The format, the count, a length, a text or the tail is cut short.
    P2CutShort,
    /// Bytes are left over after the last text, or the tail.
    P3LeftOver,
    /// A text is not that of a node.
    P4NoNode,
    /// A digest is not the root's, or not the one that the node above has.
    P5OtherDigest,
    /// A layer is not below that of the node above.
    P6LayerNotBelow,
    /// A key lies outside the gap in which its node stands.
    P7KeyOutside,
    /// The key's gap has a child, and no text follows.
    P8Unfinished,
    /// A text follows although the key was decided.
    P9TextBehind,
    /// Format 2: the answer claimed is not what is held.
    P10OtherValue,
}

/// The tests of a proof of a sharded map, in their order. Each is shown as docs/FORMAT.md names it:
/// `S1`, or with the test of a part `S4 P5`.
#[derive(Debug, Clone, Copy, PartialEq, Eq, Hash)]
#[non_exhaustive]
pub enum ShardedTest {
    /// The first byte is not 3 in format 1, 4 in format 2.
    S1FormatByte,
    /// The format, the lower bound, a length or the directory's proof is cut short.
    S2CutShort,
    /// The lower bound has no bytes, or more than 32.
    S3NoKey,
    /// The directory's proof fails this test.
    S4Directory(ProofTest),
    /// The directory has no shard with this lower bound.
    S5NotListed,
    /// What the directory holds has fewer bytes than a digest.
    S6NoListing,
    /// The key is below the shard's lower bound.
    S7KeyBelow,
    /// The key is not below the shard's upper bound.
    S8KeyNotBelow,
    /// The shard's proof fails this test.
    S9Shard(ProofTest),
}

impl fmt::Display for ProofTest {
    fn fmt(&self, out: &mut fmt::Formatter<'_>) -> fmt::Result {
        write!(out, "P{}", *self as u8)
    }
}

impl fmt::Display for ShardedTest {
    fn fmt(&self, out: &mut fmt::Formatter<'_>) -> fmt::Result {
        match self {
            ShardedTest::S1FormatByte => out.write_str("S1"),
            ShardedTest::S2CutShort => out.write_str("S2"),
            ShardedTest::S3NoKey => out.write_str("S3"),
            ShardedTest::S4Directory(test) => write!(out, "S4 {test}"),
            ShardedTest::S5NotListed => out.write_str("S5"),
            ShardedTest::S6NoListing => out.write_str("S6"),
            ShardedTest::S7KeyBelow => out.write_str("S7"),
            ShardedTest::S8KeyNotBelow => out.write_str("S8"),
            ShardedTest::S9Shard(test) => write!(out, "S9 {test}"),
        }
    }
}

impl fmt::Display for Error {
    fn fmt(&self, out: &mut fmt::Formatter<'_>) -> fmt::Result {
        match self {
            Error::UnknownFormat => out.write_str("no format has this number"),
            Error::BadKey => out.write_str("a key has 1 to 32 bytes"),
            Error::Refused(test) => write!(out, "the proof fails {test}"),
            Error::RefusedSharded(test) => write!(out, "the proof fails {test}"),
        }
    }
}

impl core::error::Error for Error {}
