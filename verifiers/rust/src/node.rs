//! The text of a node.
use crate::reader::Reader;
use crate::sha256::sha256;
use crate::{is_key, Digest, Format, VALUE_LONGEST};

/// A node, as its text has it.
#[derive(Debug, Clone)]
pub(crate) struct Node<'a> {
    pub(crate) layer: u8,
    /// The child before the first entry.
    before: Option<&'a Digest>,
    entries: Entries<'a>,
}

/// An entry of a node.
#[derive(Debug, Clone)]
struct Entry<'a> {
    key: &'a [u8],
    /// The value; in format 2 its SHA-256.
    held: &'a [u8],
    /// The child after it.
    after: Option<&'a Digest>,
}

/// What a search for a key finds in a node.
#[derive(Debug, Clone)]
pub(crate) enum Found<'a> {
    /// The key is that of an entry, which holds this of its value.
    Held(&'a [u8]),
    /// The key's gap has no child.
    Nothing,
    Child(Child<'a>),
}

/// A child, and the keys of the node next to it.
#[derive(Debug, Clone)]
pub(crate) struct Child<'a> {
    pub(crate) digest: &'a Digest,
    pub(crate) low: Option<&'a [u8]>,
    pub(crate) high: Option<&'a [u8]>,
}

impl<'a> Node<'a> {
    /// Reads a text; `None` if it is not that of a node.
    pub(crate) fn read(format: Format, text: &'a [u8]) -> Option<Node<'a>> {
        let mut rest = Reader::new(text);
        if rest.byte()? != format.byte() {
            return None;
        }
        let layer = rest.byte()?;
        let count = u16::from_be_bytes(*rest.array()?);
        let before = read_child(&mut rest)?;
        let node = Node { layer, before, entries: Entries { format, rest } };
        node.has_entries(usize::from(count)).then_some(node)
    }

    /// Whether there are this many entries, one or more, and nothing after them. Their keys have to
    /// rise, and to be of the node's layer.
    fn has_entries(&self, count: usize) -> bool {
        let mut entries = self.entries.clone();
        let (mut found, mut last) = (0, None);
        for entry in entries.by_ref().take(count) {
            let is_rising = last < Some(entry.key);
            if !is_rising || layer_of(self.entries.format, entry.key) != u32::from(self.layer) {
                return false;
            }
            found += 1;
            last = Some(entry.key);
        }
        found == count && count > 0 && entries.rest.is_at_end()
    }

    pub(crate) fn keys(&self) -> impl Iterator<Item = &'a [u8]> {
        self.entries.clone().map(|entry| entry.key)
    }

    pub(crate) fn find(&self, key: &[u8]) -> Found<'a> {
        let below = self.entries.clone().take_while(|entry| entry.key < key).last();
        let above = self.entries.clone().find(|entry| entry.key >= key);
        if let Some(entry) = above.as_ref().filter(|entry| entry.key == key) {
            return Found::Held(entry.held);
        }
        match below.as_ref().map_or(self.before, |entry| entry.after) {
            None => Found::Nothing,
            Some(digest) => Found::Child(Child {
                digest,
                low: below.map(|entry| entry.key),
                high: above.map(|entry| entry.key),
            }),
        }
    }
}

/// The entries of a node, until the bytes end or are not those of one.
#[derive(Debug, Clone)]
struct Entries<'a> {
    format: Format,
    rest: Reader<'a>,
}

impl<'a> Iterator for Entries<'a> {
    type Item = Entry<'a>;

    fn next(&mut self) -> Option<Entry<'a>> {
        let mut rest = self.rest.clone();
        let key = rest.short().filter(|key| is_key(key))?;
        let held = match self.format {
            Format::One => rest.short().filter(|value| value.len() <= VALUE_LONGEST)?,
            Format::Two => rest.array::<32>()?,
        };
        let after = read_child(&mut rest)?;
        self.rest = rest;
        Some(Entry { key, held, after })
    }
}

/// Reads a child, or that there is none; `None` if the bytes are neither.
fn read_child<'a>(rest: &mut Reader<'a>) -> Option<Option<&'a Digest>> {
    match rest.byte()? {
        0 => Some(None),
        1 => rest.array().map(Some),
        _ => None,
    }
}

/// How many digits 0 the key's SHA-256 begins with: of base 16 in format 1, of base 4 in format 2.
fn layer_of(format: Format, key: &[u8]) -> u32 {
    let mut zeros = 0;
    for byte in sha256(key) {
        zeros += byte.leading_zeros();
        if byte != 0 {
            break;
        }
    }
    match format {
        Format::One => zeros / 4,
        Format::Two => zeros / 2,
    }
}
