package mst

// #include "mst_store.h"
import "C"

import "runtime"

// SplitsMost is the most splits of a sharded map.
const SplitsMost = C.MST_SPLITS_MOST

// ShardedOptions are the shape and the format of a sharded map. The rows have to be given.
type ShardedOptions struct {
	// Rows are those of each shard, which is a store: 4 to 65,535.
	Rows int
	// Readers are 0 to 31.
	Readers int
	// Splits are at most SplitsMost keys that rise strictly, from above that of one zero byte: the
	// keys from one of them on, and below the next, are those of a shard. Of none there is one.
	Splits [][]byte
	// Format is the format of the map, which keeps it; 0 is for Format1.
	Format Format
}

// OpenSharded opens a sharded map of the empty map, which is block 0, and returns its writer and
// its readers. The map is freed when its writer and all readers are closed. The error is
// ErrUnknownFormat, ErrBadSplits, ErrBadShape, or ErrMemory.
//
//	options := mst.ShardedOptions{Rows: 1000, Readers: 1, Splits: [][]byte{[]byte("m")}}
//	writer, readers, err := mst.OpenSharded(options)
//	var batch mst.Batch
//	number, err := writer.Apply(batch.Put([]byte("apple"), []byte("30"))) // 1
//	then, err := readers[0].Snapshot()
//	root, err := then.Root() // as writer.Root()
//	then.Release()
func OpenSharded(options ShardedOptions) (*ShardedWriter, []*ShardedReader, error) {
	readers := options.Readers
	// 33 hands are as refused as any other number out of the limits.
	if readers < 0 || readers >= PassesMost {
		readers = PassesMost
	}
	packed := packedSplits(options.Splits)
	hands := make([]C.mst_handle, readers+1)
	told := C.mst_sharded_open(numbered(options.Format), word(options.Rows), at(packed),
		size(packed), &hands[0], C.size_t(readers+1))
	if told != C.MST_OK {
		return nil, nil, refusal(told)
	}
	// The hands move: their old places are not used again.
	writer := &ShardedWriter{of: member{hand: hands[0]}}
	runtime.SetFinalizer(writer, (*ShardedWriter).Close)
	made := make([]*ShardedReader, readers)
	for place := range made {
		made[place] = &ShardedReader{of: member{hand: hands[place+1]}}
		runtime.SetFinalizer(made[place], (*ShardedReader).Close)
	}
	return writer, made, nil
}

// packedSplits are the splits as the library takes them. A key that is too long is refused by its
// length.
func packedSplits(splits [][]byte) []byte {
	var packed []byte
	for _, split := range splits {
		if len(split) > KeyLongest {
			return append(packed, 0xFF)
		}
		packed = append(append(packed, byte(len(split))), split...)
	}
	return packed
}
