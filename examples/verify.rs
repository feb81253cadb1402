//! A present key, an absent key and a forged proof, by the C library, from Rust.
//!
//!     rustc --edition 2021 verify.rs -L native=../crates/mst_verifier/out -l static=mst_verifier
//!
//! Without the kit, by the hand-written verifier in C:
//!
//!     cc -O2 -I../include -c ../verifiers/c/mst_verifier.c
//!     ar rc libmst_verifier.a mst_verifier.o
//!     rustc --edition 2021 verify.rs -L . -l static=mst_verifier

extern "C" {
    fn mst_verify(
        format: u32,
        root: *const u8,
        root_length: usize,
        key: *const u8,
        key_length: usize,
        proof: *const u8,
        proof_length: usize,
        room: *mut u8,
        room_length: usize,
    ) -> i32;
}

/// The root digest of the map of "a" and "abc", with the values "1" and "x".
const ROOT: &str = "d4a8a9fc55058427163bd8a1f09ca5ec542de1cdaf28df100be5472e47b72503";

/// That map's proof, which is the same for each key: its one node has both entries.
const PROOF: &str = "0101000000110100000200016101310003616263017800";

fn bytes(digits: &str) -> Vec<u8> {
    let pair = |at| u8::from_str_radix(&digits[at..at + 2], 16).unwrap();
    (0..digits.len()).step_by(2).map(pair).collect()
}

/// Returns the value of the key, `None` if it is absent, or the number of the refusal.
fn verify(root: &[u8], key: &[u8], proof: &[u8]) -> Result<Option<Vec<u8>>, i32> {
    let mut room = [0; 64];
    // Each pointer goes with the length of its slice, and the room is ours alone.
    let told = unsafe {
        let (r, k, p, v) = (root.as_ptr(), key.as_ptr(), proof.as_ptr(), room.as_mut_ptr());
        mst_verify(1, r, root.len(), k, key.len(), p, proof.len(), v, room.len())
    };
    match told {
        0.. => Ok(Some(room[..told as usize].to_vec())),
        -1 => Ok(None),
        _ => Err(told),
    }
}

fn main() {
    let (root, proof) = (bytes(ROOT), bytes(PROOF));
    let mut forged = proof.clone();
    forged[14] = b'2'; // the value of "a"
    for (key, proof) in [("a", &proof), ("b", &proof), ("a", &forged)] {
        match verify(&root, key.as_bytes(), proof) {
            Ok(Some(value)) => println!("present {}", String::from_utf8_lossy(&value)),
            Ok(None) => println!("absent"),
            Err(number) => println!("refused {number}"),
        }
    }
}
