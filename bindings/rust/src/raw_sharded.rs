//! The calls of sharded maps as include/mst_store.h declares them.
use std::fmt;

/// A hand of a sharded map: what holds the writer, a reader, a snapshot, a block that was begun, or a
/// part of one, or nothing. It moves as a hand of a pass does.
#[repr(C)]
pub(crate) struct ShardedHand {
    at: *mut u8,
    /// So that no other hand is in its cache lines.
    _padding: [u64; 31],
}

impl ShardedHand {
    pub(crate) const EMPTY: ShardedHand =
        ShardedHand { at: std::ptr::null_mut(), _padding: [0; 31] };
}

impl fmt::Debug for ShardedHand {
    fn fmt(&self, out: &mut fmt::Formatter<'_>) -> fmt::Result {
        out.debug_struct("ShardedHand").field("at", &self.at).finish()
    }
}

// Safety: as for a hand of a pass.
unsafe impl Send for ShardedHand {}

impl Drop for ShardedHand {
    fn drop(&mut self) {
        // Safety: the hand was empty before its first call, and is not used again. An empty hand is
        // refused with no effect.
        unsafe { mst_sharded_close(self) };
    }
}

/// A group, of which there are only addresses.
#[repr(C)]
pub(crate) struct ShardedGroup {
    _opaque: [u8; 0],
}

pub(crate) const BUSY: i32 = -21;
pub(crate) const MOVING: i32 = -30;

extern "C" {
    pub(crate) fn mst_sharded_open(
        format: u32,
        rows: u32,
        splits: *const u8,
        splits_length: usize,
        handles: *mut ShardedHand,
        count: usize,
    ) -> i32;
    pub(crate) fn mst_sharded_close(handle: *mut ShardedHand) -> i32;
    pub(crate) fn mst_sharded_shards(handle: *mut ShardedHand) -> i32;
    pub(crate) fn mst_sharded_free_rows(
        writer: *mut ShardedHand,
        shard: usize,
        rows: *mut u32,
    ) -> i32;
    pub(crate) fn mst_sharded_apply(
        writer: *mut ShardedHand,
        edits: *const u8,
        length: usize,
        place: *mut usize,
        shard: *mut usize,
        number: *mut u64,
    ) -> i32;
    pub(crate) fn mst_sharded_apply_in_threads(
        writer: *mut ShardedHand,
        edits: *const u8,
        length: usize,
        threads: usize,
        place: *mut usize,
        shard: *mut usize,
        number: *mut u64,
    ) -> i32;
    pub(crate) fn mst_sharded_begin(
        writer: *mut ShardedHand,
        edits: *const u8,
        length: usize,
        place: *mut usize,
        parts: *mut ShardedHand,
        count: usize,
    ) -> i32;
    pub(crate) fn mst_sharded_prepare(part: *mut ShardedHand) -> i32;
    pub(crate) fn mst_sharded_commit(
        block: *mut ShardedHand,
        shard: *mut usize,
        number: *mut u64,
    ) -> i32;
    pub(crate) fn mst_sharded_cancel(block: *mut ShardedHand) -> i32;
    pub(crate) fn mst_sharded_number(handle: *mut ShardedHand, number: *mut u64) -> i32;
    pub(crate) fn mst_sharded_try_snapshot(reader: *mut ShardedHand) -> i32;
    pub(crate) fn mst_sharded_snapshot(reader: *mut ShardedHand) -> i32;
    pub(crate) fn mst_sharded_release(reader: *mut ShardedHand) -> i32;
    pub(crate) fn mst_sharded_get(
        reader: *mut ShardedHand,
        key: *const u8,
        key_length: usize,
        room: *mut u8,
        room_length: usize,
    ) -> i32;
    pub(crate) fn mst_sharded_next(
        reader: *mut ShardedHand,
        key: *const u8,
        key_length: usize,
        key_room: *mut u8,
        key_room_length: usize,
        next_length: *mut usize,
        room: *mut u8,
        room_length: usize,
    ) -> i32;
    pub(crate) fn mst_sharded_range(
        reader: *mut ShardedHand,
        from: *const u8,
        from_length: usize,
        to: *const u8,
        to_length: usize,
        limit: u32,
        room: *mut u8,
        room_length: usize,
        count: *mut usize,
        length: *mut usize,
    ) -> i32;
    pub(crate) fn mst_sharded_len(reader: *mut ShardedHand, count: *mut u64) -> i32;
    pub(crate) fn mst_sharded_format(reader: *mut ShardedHand) -> i32;
    pub(crate) fn mst_sharded_root(
        handle: *mut ShardedHand,
        root: *mut u8,
        root_length: usize,
    ) -> i32;
    pub(crate) fn mst_sharded_prove(
        reader: *mut ShardedHand,
        key: *const u8,
        key_length: usize,
        room: *mut u8,
        room_length: usize,
        length: *mut usize,
    ) -> i32;
    pub(crate) fn mst_sharded_directory(
        reader: *mut ShardedHand,
        room: *mut u8,
        room_length: usize,
        count: *mut usize,
        length: *mut usize,
    ) -> i32;
    pub(crate) fn mst_sharded_copy(
        snapshot: *mut ShardedHand,
        writer: *mut ShardedHand,
        shard: *mut usize,
        number: *mut u64,
    ) -> i32;
    pub(crate) fn mst_sharded_group_open(
        writer: *mut ShardedHand,
        group: *mut *mut ShardedGroup,
    ) -> i32;
    pub(crate) fn mst_sharded_group_apply(
        group: *mut ShardedGroup,
        edits: *const u8,
        length: usize,
        place: *mut usize,
        shard: *mut usize,
        number: *mut u64,
    ) -> i32;
    pub(crate) fn mst_sharded_group_close(
        group: *mut ShardedGroup,
        writer: *mut ShardedHand,
    ) -> i32;
}
