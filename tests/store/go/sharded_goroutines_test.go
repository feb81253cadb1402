package store

import (
	"fmt"
	"sync"
	"testing"

	"mst"
)

// lastBlock is that of the goroutines below.
const lastBlock = 1000

// hasOneBlock is an error unless the snapshot has the number of its block at each key.
func hasOneBlock(then *mst.ShardedSnapshot, number uint64) error {
	for shard := 0; shard < 16; shard++ {
		value, present, err := then.Get([]byte{byte(16*shard + 1)})
		var wanted []byte
		if number > 0 {
			wanted = numbered(int(number))
		}
		if !isTold(value, present, err, wanted) {
			return fmt.Errorf("block %d: %v, %v, %v", number, value, present, err)
		}
	}
	return nil
}

// read takes a snapshot, and returns its number and its root digest.
func read(reader *mst.ShardedReader) (number uint64, root mst.Root, err error) {
	then, err := reader.Snapshot()
	if err != nil {
		return 0, root, err
	}
	defer then.Release()
	if number, err = then.Number(); err != nil {
		return 0, root, err
	}
	if err = hasOneBlock(then, number); err != nil {
		return 0, root, err
	}
	root, err = then.Root()
	return number, root, err
}

func TestGoroutinesReadWhileBlocksAreMade(t *testing.T) {
	writer, readers := openSharded(t, mst.Format1, 64, 3)
	var mutex sync.Mutex
	roots := []mst.Root{rootOf(t, writer)}
	calls := []func(){func() {
		var batch mst.Batch
		for number := uint64(1); number <= lastBlock; number++ {
			batch.Reset()
			for shard := 0; shard < 16; shard++ {
				batch.Put([]byte{byte(16*shard + 1)}, numbered(int(number)))
			}
			made, err := writer.Apply(&batch)
			root, other := writer.Root()
			if made != number || err != nil || other != nil {
				t.Error(made, number, err, other)
			}
			mutex.Lock()
			roots = append(roots, root)
			mutex.Unlock()
		}
	}}
	for _, reader := range readers {
		reader := reader
		calls = append(calls, func() {
			for before := uint64(0); before < lastBlock; {
				number, root, err := read(reader)
				mutex.Lock()
				// the writer tells of a block after it has made it
				isOther := number < uint64(len(roots)) && roots[number] != root
				mutex.Unlock()
				if err != nil || number < before || isOther {
					t.Error(number, before, isOther, err)
					return
				}
				before = number
			}
		})
	}
	together(calls...)
}
