//! The tests of a proof of a sharded map, in the order of docs/FORMAT.md.
use crate::reader::Reader;
use crate::{is_key, proof, Digest, Format, ShardedTest};

/// What a proof shows of a key of 1 to 32 bytes.
pub(crate) fn answer<'p>(
    format: Format,
    root: &Digest,
    key: &[u8],
    whole: &'p [u8],
) -> Result<Option<&'p [u8]>, ShardedTest> {
    let Parts { low, directory, shard } = Parts::read(format, whole)?;
    let listing = proof::answer(format, root, low, directory)
        .map_err(ShardedTest::S4Directory)?
        .ok_or(ShardedTest::S5NotListed)?;
    let (digest, high) = listing.split_first_chunk().ok_or(ShardedTest::S6NoListing)?;
    if key < low {
        return Err(ShardedTest::S7KeyBelow);
    }
    if !high.is_empty() && key >= high {
        return Err(ShardedTest::S8KeyNotBelow);
    }
    proof::answer(format, digest, key, shard).map_err(ShardedTest::S9Shard)
}

/// The lower bound of a shard, the directory's proof for it, and the shard's proof.
struct Parts<'p> {
    low: &'p [u8],
    directory: &'p [u8],
    shard: &'p [u8],
}

impl<'p> Parts<'p> {
    fn read(format: Format, whole: &'p [u8]) -> Result<Parts<'p>, ShardedTest> {
        let mut rest = Reader::new(whole);
        if rest.byte().ok_or(ShardedTest::S2CutShort)? != format.sharded_byte() {
            return Err(ShardedTest::S1FormatByte);
        }
        let low = rest.short().ok_or(ShardedTest::S2CutShort)?;
        if !is_key(low) {
            return Err(ShardedTest::S3NoKey);
        }
        let directory = rest.long().ok_or(ShardedTest::S2CutShort)?;
        Ok(Parts { low, directory, shard: rest.rest() })
    }
}
