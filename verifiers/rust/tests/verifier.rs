//! What vectors cannot say: formats, sizes of keys, what errors say, and any bytes.
use mst_verifier::{verify, verify_sharded, Error, Format, ProofTest, ShardedTest, KEY_LONGEST};

/// The root digest of the map of `a` and `abc`, with the values `1` and `x`.
const ROOT: [u8; 32] = *b"\xd4\xa8\xa9\xfc\x55\x05\x84\x27\x16\x3b\xd8\xa1\xf0\x9c\xa5\xec\
                          \x54\x2d\xe1\xcd\xaf\x28\xdf\x10\x0b\xe5\x47\x2e\x47\xb7\x25\x03";

/// That map's proof, which is the same for each key: its one node has both entries.
const PROOF: &[u8] = b"\x01\x01\0\0\0\x11\x01\0\0\x02\0\x01a\x011\0\x03abc\x01x\0";

/// SplitMix64, so that each run is the same.
struct Random(u64);

impl Random {
    fn below(&mut self, limit: u64) -> u64 {
        self.0 = self.0.wrapping_add(0x9E37_79B9_7F4A_7C15);
        let mut mixed = self.0;
        mixed = (mixed ^ (mixed >> 30)).wrapping_mul(0xBF58_476D_1CE4_E5B9);
        mixed = (mixed ^ (mixed >> 27)).wrapping_mul(0x94D0_49BB_1331_11EB);
        (mixed ^ (mixed >> 31)) % limit
    }

    /// Bytes of which some are small, as lengths and formats are.
    fn bytes(&mut self, length: u64) -> Vec<u8> {
        (0..length)
            .map(|_| if self.below(3) == 0 { self.below(256) } else { self.below(5) } as u8)
            .collect()
    }
}

#[test]
fn answers() {
    assert_eq!(verify(Format::One, &ROOT, b"a", PROOF), Ok(Some(&b"1"[..])));
    let mut longer = [0; KEY_LONGEST];
    longer[0] = b'a';
    for length in 2..=KEY_LONGEST {
        assert_eq!(verify(Format::One, &ROOT, &longer[..length], PROOF), Ok(None));
    }
}

#[test]
fn questions_that_cannot_be_asked() {
    for length in [0, 33, 64, 255, 256, 257, 300] {
        let key = vec![b'a'; length];
        assert_eq!(verify(Format::One, &ROOT, &key, PROOF), Err(Error::BadKey));
        assert_eq!(verify_sharded(Format::One, &ROOT, &key, PROOF), Err(Error::BadKey));
    }
    for format in [Format::One, Format::Two] {
        assert_eq!(Format::try_from(format.number()), Ok(format));
    }
    for number in [0, 3, 4, 257, u32::MAX] {
        assert_eq!(Format::try_from(number), Err(Error::UnknownFormat));
    }
}

#[test]
fn refusals() {
    let mut other = PROOF.to_vec();
    other[14] = b'2'; // the value of `a`
    for (format, proof, test) in [
        (Format::One, &b""[..], ProofTest::P2CutShort),
        (Format::Two, PROOF, ProofTest::P1FormatByte),
        (Format::One, &[PROOF, b"\0"].concat(), ProofTest::P3LeftOver),
        (Format::One, &other, ProofTest::P5OtherDigest),
    ] {
        assert_eq!(verify(format, &ROOT, b"a", proof), Err(Error::Refused(test)));
    }
    let told = verify_sharded(Format::One, &ROOT, b"a", PROOF);
    assert_eq!(told, Err(Error::RefusedSharded(ShardedTest::S1FormatByte)));
}

#[test]
fn what_errors_say() {
    let part = ShardedTest::S4Directory(ProofTest::P10OtherValue);
    for (error, text) in [
        (Error::UnknownFormat, "no format has this number"),
        (Error::BadKey, "a key has 1 to 32 bytes"),
        (Error::Refused(ProofTest::P1FormatByte), "the proof fails P1"),
        (Error::RefusedSharded(ShardedTest::S8KeyNotBelow), "the proof fails S8"),
        (Error::RefusedSharded(part), "the proof fails S4 P10"),
    ] {
        assert_eq!(error.to_string(), text);
    }
}

/// Of bytes of any kind no answer comes: it would need two texts that have one SHA-256.
#[test]
fn any_bytes() {
    let mut random = Random(1);
    for run in 0..100_000 {
        let format = if run % 2 == 0 { Format::One } else { Format::Two };
        let (proof, key) = (random.below(97), 1 + random.below(32));
        let (proof, key) = (random.bytes(proof), random.bytes(key));
        let told = verify(format, &ROOT, &key, &proof);
        assert!(matches!(told, Err(Error::Refused(_))), "{proof:?} for {key:?}: {told:?}");
        let told = verify_sharded(format, &ROOT, &key, &proof);
        assert!(matches!(told, Err(Error::RefusedSharded(_))), "{proof:?} for {key:?}: {told:?}");
    }
}
