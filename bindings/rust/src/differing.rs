//! Where two maps differ: what mst_differing calls while it goes over both trees.
use crate::raw::{self, Hand};
use crate::{Error, ROOT_LENGTH};
use std::any::Any;
use std::ffi::c_void;
use std::panic::{catch_unwind, resume_unwind, AssertUnwindSafe};
use std::ptr;
use std::slice;

/// A key at which two maps differ, with its two values: None where the key is absent.
#[derive(Debug, Clone, PartialEq, Eq, Hash)]
pub struct Difference {
    /// The key.
    pub key: Vec<u8>,
    /// Its value in our map.
    pub ours: Option<Vec<u8>>,
    /// Its value in the other map.
    pub theirs: Option<Vec<u8>>,
}

/// Returns a piece of a proof: of number 0 the text of the top node, of 1 that of the node below
/// it, and so on; in format 2 there is one more piece behind the texts, in which the value stands.
/// Returns None if the proof has no such piece. Nothing is verified.
#[must_use]
pub fn proof_piece(proof: &[u8], number: u32) -> Option<&[u8]> {
    let (mut piece, mut length) = (ptr::null(), 0);
    // Safety: the proof is valid for its length.
    let code = unsafe {
        raw::mst_proof_piece(proof.as_ptr(), proof.len(), number, &mut piece, &mut length)
    };
    // Safety: the piece that was found lies in the proof.
    (code == 0).then(|| unsafe { slice::from_raw_parts(piece, length) })
}

/// Why a callback has ended the call.
enum Ended<E> {
    Refused(E),
    Panicked(Box<dyn Any + Send>),
}

/// What a callback returns then. No call of the library does.
const STOPPED: i32 = 1;

/// What the callbacks work with.
struct Walk<A, E> {
    ask: A,
    /// It stays until the next one is asked for.
    piece: Vec<u8>,
    found: Vec<Difference>,
    ended: Option<Ended<E>>,
}

impl<A, E> Walk<A, E>
where
    A: FnMut(&[u8], u32) -> Result<Vec<u8>, E>,
{
    /// Keeps the piece that is asked for. No panic goes through the library.
    fn keep(&mut self, key: &[u8], number: u32) -> i32 {
        match catch_unwind(AssertUnwindSafe(|| (self.ask)(key, number))) {
            Ok(Ok(piece)) => self.piece = piece,
            Ok(Err(refused)) => self.ended = Some(Ended::Refused(refused)),
            Err(panic) => self.ended = Some(Ended::Panicked(panic)),
        }
        if self.ended.is_some() {
            STOPPED
        } else {
            0
        }
    }

    /// `with` is the walk.
    extern "C" fn asked(
        with: *mut c_void,
        key: *const u8,
        key_length: usize,
        number: u32,
        piece: *mut *const u8,
        length: *mut usize,
    ) -> i32 {
        // Safety: the library hands the walk on, and no other reference to it is in use; the key is
        // valid for its length.
        let (walk, key) =
            unsafe { (&mut *with.cast::<Self>(), slice::from_raw_parts(key, key_length)) };
        let code = walk.keep(key, number);
        // Safety: both pointers are valid.
        unsafe {
            *piece = walk.piece.as_ptr();
            *length = walk.piece.len();
        }
        code
    }

    /// `with` is the walk.
    extern "C" fn told(with: *mut c_void, difference: *const raw::Difference) -> i32 {
        // Safety: as in `asked`; the difference is valid, and so is each of its pointers that is
        // not null for the length that goes with it.
        unsafe {
            let (walk, it) = (&mut *with.cast::<Self>(), &*difference);
            walk.found.push(Difference {
                key: slice::from_raw_parts(it.key, it.key_length).to_vec(),
                ours: value(it.ours, it.ours_length),
                theirs: value(it.theirs, it.theirs_length),
            });
        }
        0
    }
}

/// # Safety
///
/// The pointer is null, or valid for the length.
unsafe fn value(at: *const u8, length: usize) -> Option<Vec<u8>> {
    (!at.is_null()).then(|| unsafe { slice::from_raw_parts(at, length) }.to_vec())
}

/// By the pass in this hand.
pub(crate) fn differing<A, E>(
    hand: *mut Hand,
    root: &[u8; ROOT_LENGTH],
    ask: A,
) -> Result<Vec<Difference>, E>
where
    A: FnMut(&[u8], u32) -> Result<Vec<u8>, E>,
    E: From<Error>,
{
    let mut walk = Walk { ask, piece: Vec::new(), found: Vec::new(), ended: None };
    // Safety: the hand is valid, the root digest for its length, and the walk until the end.
    let code = unsafe {
        raw::mst_differing(
            hand,
            root.as_ptr(),
            root.len(),
            Walk::<A, E>::asked,
            Walk::<A, E>::told,
            ptr::addr_of_mut!(walk).cast(),
        )
    };
    match walk.ended {
        Some(Ended::Panicked(panic)) => resume_unwind(panic),
        Some(Ended::Refused(refused)) => Err(refused),
        None if code == 0 => Ok(walk.found),
        None => Err(Error::of(code).into()),
    }
}
