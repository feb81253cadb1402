//! The edits of a batch, and the splits of a sharded map: their bytes as the library takes them.
use crate::{KEY_LONGEST, VALUE_LONGEST};

/// A change of one key, as one of many that a batch makes.
#[derive(Debug, Clone, Copy, PartialEq, Eq, Hash)]
pub enum Edit<'a> {
    /// The key has this value from here on.
    Put(&'a [u8], &'a [u8]),
    /// The key has no value from here on, whether it had one or not.
    Remove(&'a [u8]),
}

/// The most bytes of an edit: its kind, two lengths, a key and a value.
const EDIT_LONGEST: usize = 5 + KEY_LONGEST + VALUE_LONGEST;

/// Appends an edit. Of a length out of its limits the library needs no more than the lengths to
/// refuse it.
fn append(bytes: &mut Vec<u8>, kind: u8, key: &[u8], value: &[u8]) {
    let length = |of: &[u8]| u16::try_from(of.len()).unwrap_or(u16::MAX).to_be_bytes();
    bytes.push(kind);
    bytes.extend(length(key));
    bytes.extend(length(value));
    if key.len() <= KEY_LONGEST && value.len() <= VALUE_LONGEST {
        bytes.extend(key);
        bytes.extend(value);
    }
}

/// The edits, one after the other.
pub(crate) fn packed(edits: &[Edit<'_>]) -> Vec<u8> {
    let mut bytes = Vec::with_capacity(EDIT_LONGEST * edits.len());
    for edit in edits {
        match edit {
            Edit::Put(key, value) => append(&mut bytes, 1, key, value),
            Edit::Remove(key) => append(&mut bytes, 2, key, &[]),
        }
    }
    bytes
}

/// The splits as mst_sharded_open takes them. A key that is too long is refused by its length.
pub(crate) fn splits(splits: &[&[u8]]) -> Vec<u8> {
    let mut bytes = Vec::new();
    for split in splits {
        bytes.push(split.len().min(255) as u8);
        bytes.extend_from_slice(&split[..split.len().min(KEY_LONGEST)]);
    }
    bytes
}
