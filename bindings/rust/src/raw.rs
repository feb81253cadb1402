//! The library's calls as include/mst_store.h declares them, and its numbers.
use std::ffi::c_void;
use std::fmt;

/// A hand: what holds a pass, or nothing. It moves as any value of Rust does: the place that it
/// left is not used again, so there is never a second hand for the pass.
#[repr(C)]
pub struct Hand {
    at: *mut u8,
    /// So that no other hand is in the cache line of its first two words, which calls write to and
    /// read. The second is the library's too.
    _padding: [u64; 31],
}

impl Hand {
    pub(crate) const EMPTY: Hand = Hand { at: std::ptr::null_mut(), _padding: [0; 31] };
}

impl fmt::Debug for Hand {
    fn fmt(&self, out: &mut fmt::Formatter<'_>) -> fmt::Result {
        out.debug_struct("Hand").field("at", &self.at).finish()
    }
}

// Safety: a call takes the hand by `&mut`, so it is in one call at a time; the library's own check
// proves that a hand may go to another thread. It stays without Sync.
unsafe impl Send for Hand {}

impl Drop for Hand {
    fn drop(&mut self) {
        // Safety: the hand was empty before its first call, and is not used again. An empty hand is
        // refused with no effect.
        unsafe { mst_close(self) };
    }
}

pub(crate) const ABSENT: i32 = -1;
pub(crate) const SHORT_ROOM: i32 = -2;

/// How long a call that writes waits for the turn, in microseconds: not at all, as those that try,
/// or without end.
pub(crate) const TRY: u64 = 0;
pub(crate) const WAIT: u64 = u64::MAX;

/// mst_range and mst_page_after.
pub(crate) type Range = unsafe extern "C" fn(
    pass: *mut Hand,
    low: *const u8,
    low_length: usize,
    to: *const u8,
    to_length: usize,
    limit: u32,
    room: *mut u8,
    room_length: usize,
    count: *mut usize,
    length: *mut usize,
) -> i32;

/// mst_difference.
#[repr(C)]
pub(crate) struct Difference {
    pub(crate) key: *const u8,
    pub(crate) ours: *const u8,
    pub(crate) theirs: *const u8,
    pub(crate) key_length: usize,
    pub(crate) ours_length: usize,
    pub(crate) theirs_length: usize,
}

/// What mst_differing asks for a piece.
pub(crate) type Ask = extern "C" fn(
    with: *mut c_void,
    key: *const u8,
    key_length: usize,
    number: u32,
    piece: *mut *const u8,
    length: *mut usize,
) -> i32;

/// What it tells of a difference.
pub(crate) type Tell = extern "C" fn(with: *mut c_void, difference: *const Difference) -> i32;

extern "C" {
    pub(crate) fn mst_library_version() -> *const std::ffi::c_char;
    pub(crate) fn mst_open(format: u32, rows: u32, passes: *mut Hand, count: usize) -> i32;
    pub(crate) fn mst_close(pass: *mut Hand) -> i32;
    pub(crate) fn mst_get(
        pass: *mut Hand,
        key: *const u8,
        key_length: usize,
        room: *mut u8,
        room_length: usize,
    ) -> i32;
    pub(crate) fn mst_next(
        pass: *mut Hand,
        key: *const u8,
        key_length: usize,
        key_room: *mut u8,
        key_room_length: usize,
        next_length: *mut usize,
        room: *mut u8,
        room_length: usize,
    ) -> i32;
    pub(crate) fn mst_range(
        pass: *mut Hand,
        from: *const u8,
        from_length: usize,
        to: *const u8,
        to_length: usize,
        limit: u32,
        room: *mut u8,
        room_length: usize,
        count: *mut usize,
        length: *mut usize,
    ) -> i32;
    pub(crate) fn mst_page_after(
        pass: *mut Hand,
        after: *const u8,
        after_length: usize,
        to: *const u8,
        to_length: usize,
        limit: u32,
        room: *mut u8,
        room_length: usize,
        count: *mut usize,
        length: *mut usize,
    ) -> i32;
    pub(crate) fn mst_root(pass: *mut Hand, root: *mut u8, root_length: usize) -> i32;
    pub(crate) fn mst_prove(
        pass: *mut Hand,
        key: *const u8,
        key_length: usize,
        room: *mut u8,
        room_length: usize,
        length: *mut usize,
    ) -> i32;
    pub(crate) fn mst_version(pass: *mut Hand, version: *mut u64) -> i32;
    pub(crate) fn mst_len(pass: *mut Hand, count: *mut u64) -> i32;
    pub(crate) fn mst_format(pass: *mut Hand) -> i32;
    pub(crate) fn mst_rows(pass: *mut Hand, rows: *mut u32) -> i32;
    pub(crate) fn mst_free_rows(pass: *mut Hand, rows: *mut u32) -> i32;
    pub(crate) fn mst_pinned_versions(
        pass: *mut Hand,
        versions: *mut u64,
        room_count: usize,
        count: *mut usize,
    ) -> i32;
    pub(crate) fn mst_made(pass: *mut Hand, version: *mut u64) -> i32;
    pub(crate) fn mst_put_within(
        pass: *mut Hand,
        key: *const u8,
        key_length: usize,
        value: *const u8,
        value_length: usize,
        room: *mut u8,
        room_length: usize,
        microseconds: u64,
    ) -> i32;
    pub(crate) fn mst_remove_within(
        pass: *mut Hand,
        key: *const u8,
        key_length: usize,
        room: *mut u8,
        room_length: usize,
        microseconds: u64,
    ) -> i32;
    pub(crate) fn mst_apply_within(
        pass: *mut Hand,
        edits: *const u8,
        length: usize,
        place: *mut usize,
        microseconds: u64,
    ) -> i32;
    pub(crate) fn mst_migrate_within(pass: *mut Hand, format: u32, microseconds: u64) -> i32;
    pub(crate) fn mst_proof_piece(
        proof: *const u8,
        proof_length: usize,
        number: u32,
        piece: *mut *const u8,
        length: *mut usize,
    ) -> i32;
    pub(crate) fn mst_differing(
        ours: *mut Hand,
        root: *const u8,
        root_length: usize,
        ask: Ask,
        tell: Tell,
        with: *mut c_void,
    ) -> i32;
    pub(crate) fn mst_pin(pass: *mut Hand) -> i32;
    pub(crate) fn mst_unpin(pass: *mut Hand) -> i32;
}
