package mst

// #include "mst_store.h"
import "C"

import "runtime"

// ShardedWriter is the writer of a sharded map, from OpenSharded, which alone makes its blocks. A
// block is edits of all shards as one version of the whole map, with one number and one root
// digest, made whole or not at all. Goroutines that share it wait for each other.
type ShardedWriter struct {
	// How many blocks were begun, and whether the last one has not ended.
	blocks  uint64
	isBegun bool
	// The group that has the writer, whose hand is empty then, or nil.
	group *group
	of    member
}

// take gets the hand for a call, which then gives it back.
func (w *ShardedWriter) take() (*member, error) {
	w.of.mutex.Lock()
	if w.group != nil {
		w.of.mutex.Unlock()
		return nil, ErrWrongState
	}
	return &w.of, nil
}

// Close closes the writer: then no more blocks are made, and readers go on. A block that was begun
// is lost. A group that has the writer is closed too, once no call is in it. A second close returns
// ErrClosed and has no other effect. The runtime closes a writer that nothing refers to any more,
// at some time.
func (w *ShardedWriter) Close() error {
	w.of.mutex.Lock()
	defer w.of.mutex.Unlock()
	w.isBegun = false
	w.takeBack()
	if err := w.of.close(); err != nil {
		return err
	}
	runtime.SetFinalizer(w, nil)
	return nil
}

// Shards returns how many shards there are. The error is ErrClosed.
func (w *ShardedWriter) Shards() (int, error) {
	m, err := w.take()
	if err != nil {
		return 0, err
	}
	defer m.mutex.Unlock()
	return m.shards()
}

// FreeRows returns how many rows are free to the next block in the shard with this number, from 0,
// or in the directory, which has the number of the shards, and whether there is such a shard. The
// error is ErrClosed, or ErrBusy once a thread has died within a call.
func (w *ShardedWriter) FreeRows(shard int) (rows int, present bool, err error) {
	m, err := w.take()
	if err != nil {
		return 0, false, err
	}
	defer m.mutex.Unlock()
	if shard < 0 {
		return 0, false, nil
	}
	var free C.uint32_t
	switch told := C.mst_sharded_free_rows(&m.hand, C.size_t(shard), &free); told {
	case C.MST_OK:
		return int(free), true, nil
	case C.MST_ABSENT:
		return 0, false, nil
	default:
		return 0, false, refusal(told)
	}
}

// Apply makes the edits of the batch, of all shards, as the next block, and returns its number: one
// more than that of the block before. Readers see none of them before all are made. No edits make a
// block too. After an error nothing has changed in any shard. The error is ErrClosed, an
// *EditError, or a *ShardError with ErrBusy, ErrVersionsSpent, ErrMemory, ErrNoFreeRows, or
// ErrOvertaken.
func (w *ShardedWriter) Apply(batch *Batch) (number uint64, err error) {
	m, err := w.take()
	if err != nil {
		return 0, err
	}
	defer m.mutex.Unlock()
	var place, shard C.size_t
	var made C.uint64_t
	told := C.mst_sharded_apply(&m.hand, at(batch.packed), size(batch.packed), &place, &shard,
		&made)
	return uint64(made), refusalOfBlock(told, place, shard)
}

// ApplyInThreads is as Apply, but by at most so many threads: this one, and others of the library,
// which have ended when it returns. Each makes and hashes the edits of other shards. It starts them
// anew each time, so a block of few edits may take longer than by Apply. Where a thread cannot be
// started, the others do its work.
func (w *ShardedWriter) ApplyInThreads(batch *Batch, threads int) (number uint64, err error) {
	m, err := w.take()
	if err != nil {
		return 0, err
	}
	defer m.mutex.Unlock()
	if threads < 0 {
		threads = 0
	}
	var place, shard C.size_t
	var made C.uint64_t
	told := C.mst_sharded_apply_in_threads(&m.hand, at(batch.packed), size(batch.packed),
		C.size_t(threads), &place, &shard, &made)
	return uint64(made), refusalOfBlock(told, place, shard)
}

// Begin begins the next block, of the edits of the batch, and returns it with its parts, one for
// each shard, in their order, for goroutines to prepare. Until the block ends, the error of all
// other calls of the writer but Close is ErrWrongState. After an error nothing has changed. The
// error is as that of Apply, or ErrWrongState if a block was begun already.
//
//	block, parts, err := writer.Begin(&batch)
//	var all sync.WaitGroup
//	for _, part := range parts {
//		all.Add(1)
//		go func(part *mst.ShardedPart) {
//			defer all.Done()
//			part.Prepare()
//		}(part)
//	}
//	all.Wait()
//	number, err := block.Commit()
func (w *ShardedWriter) Begin(batch *Batch) (*ShardedBlock, []*ShardedPart, error) {
	m, err := w.take()
	if err != nil {
		return nil, nil, err
	}
	defer m.mutex.Unlock()
	shards, err := m.shards()
	if err != nil {
		return nil, nil, err
	}
	hands := make([]C.mst_handle, shards)
	var place C.size_t
	told := C.mst_sharded_begin(&m.hand, at(batch.packed), size(batch.packed), &place, &hands[0],
		C.size_t(shards))
	if told != C.MST_OK {
		return nil, nil, refusalOfBlock(told, place, C.size_t(shards))
	}
	w.blocks, w.isBegun = w.blocks+1, true
	block := &ShardedBlock{by: w, number: w.blocks}
	runtime.SetFinalizer(block, (*ShardedBlock).Cancel)
	// The hands move: their old places are not used again.
	parts := make([]*ShardedPart, shards)
	for shard := range parts {
		parts[shard] = &ShardedPart{shard: shard, hand: hands[shard]}
		runtime.SetFinalizer(parts[shard], (*ShardedPart).Close)
	}
	return block, parts, nil
}

// Get returns the value of the key in the last block, if the key is present: so a block can depend
// on what the map has. The error is ErrClosed, ErrBadKey, or ErrOvertaken.
func (w *ShardedWriter) Get(key []byte) (value []byte, present bool, err error) {
	m, err := w.take()
	if err != nil {
		return nil, false, err
	}
	defer m.mutex.Unlock()
	return m.get(key)
}

// Number returns the number of the last block; 0 is that of the empty map. The error is ErrClosed.
func (w *ShardedWriter) Number() (uint64, error) {
	m, err := w.take()
	if err != nil {
		return 0, err
	}
	defer m.mutex.Unlock()
	return m.number()
}

// Root returns the root digest of all shards after the last block, as a snapshot of it has it. The
// error is ErrClosed.
func (w *ShardedWriter) Root() (Root, error) {
	m, err := w.take()
	if err != nil {
		return Root{}, err
	}
	defer m.mutex.Unlock()
	return m.root()
}
