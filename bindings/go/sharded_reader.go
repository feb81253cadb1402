package mst

// #include "mst_store.h"
import "C"

import "runtime"

// ShardedReader is a reader of a sharded map, from OpenSharded: it takes snapshots, one at a time.
// Goroutines that share it wait for each other.
type ShardedReader struct {
	// How many snapshots there were, and whether the last one still pins.
	snapshots uint64
	isPinned  bool
	of        member
}

// Close closes the reader, and ends its pins if it has a snapshot. A second close returns ErrClosed
// and has no other effect. The runtime closes a reader that nothing refers to any more, at some
// time.
func (r *ShardedReader) Close() error {
	r.of.mutex.Lock()
	defer r.of.mutex.Unlock()
	r.isPinned = false
	if err := r.of.close(); err != nil {
		return err
	}
	runtime.SetFinalizer(r, nil)
	return nil
}

// Shards returns how many shards there are. The error is ErrClosed.
func (r *ShardedReader) Shards() (int, error) {
	r.of.mutex.Lock()
	defer r.of.mutex.Unlock()
	return r.of.shards()
}

// Get returns the value that the key has now, if the key is present. Two such reads need not be of
// one block. While the reader has a snapshot, it reads the snapshot's block. The error is ErrClosed
// or ErrBadKey.
func (r *ShardedReader) Get(key []byte) (value []byte, present bool, err error) {
	r.of.mutex.Lock()
	defer r.of.mutex.Unlock()
	return r.of.get(key)
}

// TrySnapshot takes a snapshot of one block: until Release all reads by the reader and by the
// result are of it. The error is ErrClosed, ErrWrongState if the reader has a snapshot already, or
// ErrMoving while a block is just being published.
func (r *ShardedReader) TrySnapshot() (*ShardedSnapshot, error) {
	r.of.mutex.Lock()
	defer r.of.mutex.Unlock()
	return r.taken(C.mst_sharded_try_snapshot(&r.of.hand))
}

// Snapshot is as TrySnapshot, but tries again while a block is being published. It is not promised
// when a try falls between two blocks; and if the writer's thread has died within Apply, none may.
func (r *ShardedReader) Snapshot() (*ShardedSnapshot, error) {
	r.of.mutex.Lock()
	defer r.of.mutex.Unlock()
	return r.taken(C.mst_sharded_snapshot(&r.of.hand))
}

// taken is the snapshot that a call has taken, by the number that it returned.
func (r *ShardedReader) taken(told C.int32_t) (*ShardedSnapshot, error) {
	if told != C.MST_OK {
		return nil, refusal(told)
	}
	r.snapshots, r.isPinned = r.snapshots+1, true
	made := &ShardedSnapshot{by: r, number: r.snapshots}
	runtime.SetFinalizer(made, (*ShardedSnapshot).Release)
	return made, nil
}
