//! The tests of a proof of one map, in the order of docs/FORMAT.md.
use crate::node::{Found, Node};
use crate::reader::Reader;
use crate::sha256::sha256;
use crate::{Digest, Format, ProofTest, VALUE_LONGEST};

/// What a proof shows of a key of 1 to 32 bytes.
pub(crate) fn answer<'p>(
    format: Format,
    root: &Digest,
    key: &[u8],
    proof: &'p [u8],
) -> Result<Option<&'p [u8]>, ProofTest> {
    let Frame { texts, claim } = Frame::read(format, proof)?;
    let held = held_of(format, root, key, texts)?;
    match claim {
        None => Ok(held),
        Some(claim) => claim.opened(held),
    }
}

/// The parts of a proof, none of which is cut short.
struct Frame<'p> {
    texts: Texts<'p>,
    /// In format 2 alone.
    claim: Option<Claim<'p>>,
}

impl<'p> Frame<'p> {
    fn read(format: Format, proof: &'p [u8]) -> Result<Frame<'p>, ProofTest> {
        let mut rest = Reader::new(proof);
        if rest.byte().ok_or(ProofTest::P2CutShort)? != format.byte() {
            return Err(ProofTest::P1FormatByte);
        }
        let (texts, claim) = read_parts(format, &mut rest).ok_or(ProofTest::P2CutShort)?;
        if !rest.is_at_end() {
            return Err(ProofTest::P3LeftOver);
        }
        Ok(Frame { texts, claim })
    }
}

/// Reads what follows the format; `None` if it is cut short.
fn read_parts<'p>(format: Format, rest: &mut Reader<'p>) -> Option<(Texts<'p>, Option<Claim<'p>>)> {
    let left = rest.byte()?;
    let texts = Texts { left, rest: rest.clone() };
    for _ in 0..left {
        rest.long()?;
    }
    let claim = match format {
        Format::One => None,
        Format::Two => Some(Claim::read(rest)?),
    };
    Some((texts, claim))
}

/// The texts of a proof, from the top node's down.
struct Texts<'p> {
    left: u8,
    rest: Reader<'p>,
}

impl<'p> Iterator for Texts<'p> {
    type Item = &'p [u8];

    fn next(&mut self) -> Option<&'p [u8]> {
        self.left = self.left.checked_sub(1)?;
        self.rest.long()
    }
}

/// What the tail of a proof of format 2 says of the key.
enum Claim<'p> {
    Absent,
    /// A value of up to 255 bytes, though no map has one of more than 64.
    Present(&'p [u8]),
    /// No answer at all.
    Unfit,
}

impl<'p> Claim<'p> {
    /// Reads a tail; `None` if it is cut short.
    fn read(rest: &mut Reader<'p>) -> Option<Claim<'p>> {
        Some(match rest.byte()? {
            0 => Claim::Absent,
            1 => Claim::Present(rest.short()?),
            _ => Claim::Unfit,
        })
    }

    /// The answer that is claimed, if this SHA-256 or none is held.
    fn opened(self, held: Option<&[u8]>) -> Result<Option<&'p [u8]>, ProofTest> {
        match (self, held) {
            (Claim::Absent, None) => Ok(None),
            (Claim::Present(value), Some(held))
                if value.len() <= VALUE_LONGEST && sha256(value) == *held =>
            {
                Ok(Some(value))
            }
            _ => Err(ProofTest::P10OtherValue),
        }
    }
}

/// What is expected of a text.
struct Expected<'a> {
    digest: &'a Digest,
    upper: Option<u8>,
    low: Option<&'a [u8]>,
    high: Option<&'a [u8]>,
}

impl Expected<'_> {
    fn test(&self, text: &[u8], node: &Node<'_>) -> Result<(), ProofTest> {
        if sha256(text) != *self.digest {
            return Err(ProofTest::P5OtherDigest);
        }
        if self.upper.is_some_and(|upper| node.layer >= upper) {
            return Err(ProofTest::P6LayerNotBelow);
        }
        if !node.keys().all(|key| self.has_between(key)) {
            return Err(ProofTest::P7KeyOutside);
        }
        Ok(())
    }

    fn has_between(&self, key: &[u8]) -> bool {
        let is_not_above = self.low.is_some_and(|low| key <= low);
        let is_not_below = self.high.is_some_and(|high| key >= high);
        !is_not_above && !is_not_below
    }
}

/// What the texts show that the map holds of the key: its value, in format 2 the SHA-256 of that.
fn held_of<'p>(
    format: Format,
    root: &Digest,
    key: &[u8],
    mut texts: Texts<'p>,
) -> Result<Option<&'p [u8]>, ProofTest> {
    if texts.left == 0 {
        return if *root == sha256(b"") { Ok(None) } else { Err(ProofTest::P5OtherDigest) };
    }
    let mut expected = Expected { digest: root, upper: None, low: None, high: None };
    while let Some(text) = texts.next() {
        let node = Node::read(format, text).ok_or(ProofTest::P4NoNode)?;
        expected.test(text, &node)?;
        match node.find(key) {
            Found::Held(held) => return decided(Some(held), &texts),
            Found::Nothing => return decided(None, &texts),
            Found::Child(child) => {
                expected = Expected {
                    digest: child.digest,
                    upper: Some(node.layer),
                    low: child.low.or(expected.low),
                    high: child.high.or(expected.high),
                }
            }
        }
    }
    Err(ProofTest::P8Unfinished)
}

/// What is held of the key by the node that decides it, which has to be the last one.
fn decided<'p>(held: Option<&'p [u8]>, behind: &Texts<'p>) -> Result<Option<&'p [u8]>, ProofTest> {
    if behind.left > 0 {
        return Err(ProofTest::P9TextBehind);
    }
    Ok(held)
}
