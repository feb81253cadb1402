package mst

// #include "mst_store.h"
import "C"

import (
	"runtime"
	"sync"
)

// ShardedGroup is a writer of blocks for any number of goroutines (group commit), from
// ShardedWriter.Group. While one of them makes a block, the edits of the others wait, and then all
// that wait are made as one block.
type ShardedGroup struct {
	by *ShardedWriter
	of *group
}

// group is a group of the library. The writer refers to it, and not to the ShardedGroup, which the
// runtime could then not close.
type group struct {
	// A call has it for reading, so that others may be made at the same time, and what ends the
	// group has it for writing.
	mutex sync.RWMutex
	// It is nil once the group has ended.
	at *C.mst_sharded_group
}

// Group makes a group of the writer, by which any number of goroutines make blocks. Until the group
// is closed, the error of all other calls of the writer but Close is ErrWrongState. After an error
// the writer is as it was. The error is ErrClosed, ErrWrongState if a block was begun, or if a
// group has the writer already, or ErrMemory.
//
//	group, err := writer.Group()
//	number, err := group.Apply(&batch) // in any goroutine, with a batch of its own
//	err = group.Close()                // the writer has its map again
func (w *ShardedWriter) Group() (*ShardedGroup, error) {
	m, err := w.take()
	if err != nil {
		return nil, err
	}
	defer m.mutex.Unlock()
	of := new(group)
	if told := C.mst_sharded_group_open(&m.hand, &of.at); told != C.MST_OK {
		return nil, refusal(told)
	}
	w.group = of
	made := &ShardedGroup{by: w, of: of}
	runtime.SetFinalizer(made, (*ShardedGroup).Close)
	return made, nil
}

// takeBack ends the group that has the writer, if there is one, once no call is in it. Who calls
// has the mutex of the writer.
func (w *ShardedWriter) takeBack() {
	of := w.group
	if of == nil {
		return
	}
	of.mutex.Lock()
	defer of.mutex.Unlock()
	C.mst_sharded_group_close(of.at, &w.of.hand)
	of.at, w.group = nil, nil
}

// Apply makes the edits of the batch, of all shards, in a block, and returns its number once they
// are published. Any number of goroutines may be in this call at a time, each with a batch of its
// own. Those that wait do so in threads of the system, so that other goroutines run.
//
// A block may have the edits of several calls, which are told one number. In it the edits of each
// call follow those of the calls that came before. The numbers that a goroutine is told rise. The
// root digest of the block is not told: a snapshot that is taken afterwards has it only if no later
// block was made, which its number tells.
//
// After an error none of the edits is made, and no other call is refused for it. The error is
// ErrClosed if the group or its writer is closed, or an *EditError or a *ShardError as that of
// ShardedWriter.Apply, for these edits alone.
//
// It reads nothing: what a reader or a snapshot told may be changed by another call before these
// edits are made. If edits depend on what the map has, such as those of a counter, updates may be
// lost. Hold a mutex around the read and this call in all goroutines that write, or let one
// goroutine write without a group.
func (g *ShardedGroup) Apply(batch *Batch) (number uint64, err error) {
	g.of.mutex.RLock()
	defer g.of.mutex.RUnlock()
	if g.of.at == nil {
		return 0, ErrClosed
	}
	var place, shard C.size_t
	var made C.uint64_t
	told := C.mst_sharded_group_apply(g.of.at, at(batch.packed), size(batch.packed), &place, &shard,
		&made)
	return uint64(made), refusalOfBlock(told, place, shard)
}

// Close ends the group, and waits for the calls that are in it: then its writer has the map again.
// Later calls return ErrClosed. So does a second Close, which has no other effect. The runtime
// closes a group that nothing refers to any more, at some time.
func (g *ShardedGroup) Close() error {
	g.by.of.mutex.Lock()
	defer g.by.of.mutex.Unlock()
	if g.by.group != g.of {
		return ErrClosed
	}
	g.by.takeBack()
	runtime.SetFinalizer(g, nil)
	return nil
}
