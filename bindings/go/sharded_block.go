package mst

// #include "mst_store.h"
import "C"

import (
	"runtime"
	"sync"
)

// noShard is what a block that is not made tells of no shard.
const noShard = ^C.size_t(0)

// ShardedPart is a part of a block that was begun: the edits of one shard. Goroutines that share it
// wait for each other.
type ShardedPart struct {
	mutex sync.Mutex
	shard int
	// It ends with padding, and stands last, as the hand of a pass.
	hand C.mst_handle
}

// Prepare makes the edits in free rows, and hashes them: readers see nothing of it. Parts may be
// prepared in any order, each in any goroutine, or not at all. If nothing is left to do, it does
// nothing. If the shard refuses its edits, the error is a *ShardError, and so is that of Commit,
// for this shard or for one before it. It is one with ErrBusy also while the block is just being
// ended, and ErrClosed once it has ended.
func (p *ShardedPart) Prepare() error {
	p.mutex.Lock()
	defer p.mutex.Unlock()
	return refusalOfPart(C.mst_sharded_prepare(&p.hand), p.shard)
}

// Close closes the part. If that is before its block ends, the block loses nothing. A second close
// returns ErrClosed and has no other effect. The runtime closes a part that nothing refers to any
// more, at some time.
func (p *ShardedPart) Close() error {
	p.mutex.Lock()
	defer p.mutex.Unlock()
	if told := C.mst_sharded_close(&p.hand); told != C.MST_OK {
		return refusal(told)
	}
	runtime.SetFinalizer(p, nil)
	return nil
}

// ShardedBlock is a block that was begun, and that Commit or Cancel ends.
type ShardedBlock struct {
	by     *ShardedWriter
	number uint64
}

// end gets the hand for a call that ends the block, which then gives it back.
func (b *ShardedBlock) end() (*member, error) {
	b.by.of.mutex.Lock()
	if !b.by.isBegun || b.by.blocks != b.number {
		b.by.of.mutex.Unlock()
		return nil, ErrClosed
	}
	b.by.isBegun = false
	runtime.SetFinalizer(b, nil)
	return &b.by.of, nil
}

// Commit makes the block, as Apply makes one of the same edits, and returns its number. It prepares
// the parts that are not prepared, and waits for one that another goroutine is just preparing.
// After an error nothing has changed in any shard. The error is ErrClosed if the block has ended
// before, or a *ShardError as that of Apply.
func (b *ShardedBlock) Commit() (number uint64, err error) {
	m, err := b.end()
	if err != nil {
		return 0, err
	}
	defer m.mutex.Unlock()
	var made C.uint64_t
	for {
		// Of a part that is just being prepared no shard is told.
		shard := noShard
		told := C.mst_sharded_commit(&m.hand, &shard, &made)
		if told != C.MST_BUSY || shard != noShard {
			return uint64(made), refusalOfBlock(told, 0, shard)
		}
		runtime.Gosched()
	}
}

// Cancel takes the block back: nothing has changed. It waits for a part that another goroutine is
// just preparing. It has no effect if the block has ended before. The runtime cancels a block that
// nothing refers to any more, at some time.
func (b *ShardedBlock) Cancel() {
	m, err := b.end()
	if err != nil {
		return
	}
	defer m.mutex.Unlock()
	for C.mst_sharded_cancel(&m.hand) == C.MST_BUSY {
		runtime.Gosched()
	}
}
