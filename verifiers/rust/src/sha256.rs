//! SHA-256, as FIPS 180-4 has it. No index depends on what is hashed.

const BLOCK: usize = 64;

/// The bytes behind the last of a message: a bit 1, and the count of bits in eight bytes.
const END: usize = 1 + 8;

const INITIAL: [u32; 8] = [
    0x6a09e667, 0xbb67ae85, 0x3c6ef372, 0xa54ff53a, 0x510e527f, 0x9b05688c, 0x1f83d9ab, 0x5be0cd19,
];

const CONSTANTS: [u32; 64] = [
    0x428a2f98, 0x71374491, 0xb5c0fbcf, 0xe9b5dba5, 0x3956c25b, 0x59f111f1, 0x923f82a4, 0xab1c5ed5,
    0xd807aa98, 0x12835b01, 0x243185be, 0x550c7dc3, 0x72be5d74, 0x80deb1fe, 0x9bdc06a7, 0xc19bf174,
    0xe49b69c1, 0xefbe4786, 0x0fc19dc6, 0x240ca1cc, 0x2de92c6f, 0x4a7484aa, 0x5cb0a9dc, 0x76f988da,
    0x983e5152, 0xa831c66d, 0xb00327c8, 0xbf597fc7, 0xc6e00bf3, 0xd5a79147, 0x06ca6351, 0x14292967,
    0x27b70a85, 0x2e1b2138, 0x4d2c6dfc, 0x53380d13, 0x650a7354, 0x766a0abb, 0x81c2c92e, 0x92722c85,
    0xa2bfe8a1, 0xa81a664b, 0xc24b8b70, 0xc76c51a3, 0xd192e819, 0xd6990624, 0xf40e3585, 0x106aa070,
    0x19a4c116, 0x1e376c08, 0x2748774c, 0x34b0bcb5, 0x391c0cb3, 0x4ed8aa4a, 0x5b9cca4f, 0x682e6ff3,
    0x748f82ee, 0x78a5636f, 0x84c87814, 0x8cc70208, 0x90befffa, 0xa4506ceb, 0xbef9a3f7, 0xc67178f2,
];

pub(crate) fn sha256(message: &[u8]) -> [u8; 32] {
    let mut state = INITIAL;
    let mut blocks = message.chunks_exact(BLOCK);
    for block in blocks.by_ref() {
        compress(&mut state, block);
    }
    // No slice has 2^61 bytes.
    let bits = (message.len() as u64).wrapping_mul(8);
    compress_last(&mut state, blocks.remainder(), bits);
    let mut digest = [0; 32];
    for (to, word) in digest.chunks_exact_mut(4).zip(state) {
        to.copy_from_slice(&word.to_be_bytes());
    }
    digest
}

/// The last one or two blocks of a message of so many bits, of which fewer bytes are left than a
/// block has (section 5.1.1).
fn compress_last(state: &mut [u32; 8], rest: &[u8], bits: u64) {
    let mut last = [0; 2 * BLOCK];
    let length = if rest.len() + END <= BLOCK { BLOCK } else { 2 * BLOCK };
    for (to, from) in last.iter_mut().zip(rest.iter().chain(&[0x80])) {
        *to = *from;
    }
    for (to, from) in last.iter_mut().take(length).rev().zip(bits.to_le_bytes()) {
        *to = from;
    }
    for block in last.chunks_exact(BLOCK).take(length / BLOCK) {
        compress(state, block);
    }
}

/// One block of 64 bytes (section 6.2.2).
fn compress(state: &mut [u32; 8], block: &[u8]) {
    let schedule = schedule_of(block);
    let [mut a, mut b, mut c, mut d, mut e, mut f, mut g, mut h] = *state;
    for (word, constant) in schedule.into_iter().zip(CONSTANTS) {
        let sum = e.rotate_right(6) ^ e.rotate_right(11) ^ e.rotate_right(25);
        let choice = (e & f) ^ (!e & g);
        let one = [sum, choice, constant, word].into_iter().fold(h, u32::wrapping_add);
        let sum = a.rotate_right(2) ^ a.rotate_right(13) ^ a.rotate_right(22);
        let majority = (a & b) ^ (a & c) ^ (b & c);
        let two = sum.wrapping_add(majority);
        (h, g, f, e) = (g, f, e, d.wrapping_add(one));
        (d, c, b, a) = (c, b, a, one.wrapping_add(two));
    }
    for (to, word) in state.iter_mut().zip([a, b, c, d, e, f, g, h]) {
        *to = to.wrapping_add(word);
    }
}

fn schedule_of(block: &[u8]) -> [u32; 64] {
    let mut words = [0; 64];
    for (to, bytes) in words.iter_mut().zip(block.chunks_exact(4)) {
        *to = bytes.iter().fold(0, |word, byte| word << 8 | u32::from(*byte));
    }
    for at in 16..64 {
        let (x, y) = (words[at - 15], words[at - 2]);
        let zero = x.rotate_right(7) ^ x.rotate_right(18) ^ x >> 3;
        let one = y.rotate_right(17) ^ y.rotate_right(19) ^ y >> 10;
        words[at] = [words[at - 7], zero, one].into_iter().fold(words[at - 16], u32::wrapping_add);
    }
    words
}

#[cfg(test)]
mod tests {
    extern crate std;

    use super::sha256;
    use std::fmt::Write;
    use std::string::String;
    use std::vec::Vec;

    fn digest_of(message: &[u8]) -> String {
        sha256(message).iter().fold(String::new(), |mut digits, byte| {
            write!(digits, "{byte:02x}").unwrap();
            digits
        })
    }

    #[test]
    fn examples_of_nist() {
        let (one, two) = ("abc", "abcdbcdecdefdefgefghfghighijhijkijkljklmklmnlmnomnopnopq");
        for (message, digest) in [
            ("", "e3b0c44298fc1c149afbf4c8996fb92427ae41e4649b934ca495991b7852b855"),
            (one, "ba7816bf8f01cfea414140de5dae2223b00361a396177a9cb410ff61f20015ad"),
            (two, "248d6a61d20638b8e5c026930c3e6039a33ce45964ff2167f6ecedd419db06c1"),
            (
                &"a".repeat(1_000_000),
                "cdc76e5c9914fb9281a1c7e284d73e67f1809a48a497200e046d39ccc7112cd0",
            ),
        ] {
            assert_eq!(digest_of(message.as_bytes()), digest);
        }
    }

    /// The digest of the digests of all lengths, as Python's `hashlib` has it.
    #[test]
    fn messages_of_each_length() {
        let message: Vec<u8> = (0..1000u32).map(|at| (7 * at + at / 256) as u8).collect();
        let digests: Vec<u8> =
            (0..=message.len()).flat_map(|length| sha256(&message[..length])).collect();
        assert_eq!(
            digest_of(&digests),
            "1e67f63d8c60e0ece8c22863ef816243e24887524e12babda67a0a1294bea06e"
        );
    }
}
