package store

import (
	"errors"
	"math/rand"
	"sync"
	"testing"

	"mst"
)

// prepare prepares all parts, each in a goroutine, some of them twice or not at all.
func prepare(t *testing.T, parts []*mst.ShardedPart) {
	t.Helper()
	var all sync.WaitGroup
	errs := make([]error, len(parts))
	for place, part := range parts {
		all.Add(1)
		go func(place int, part *mst.ShardedPart) {
			defer all.Done()
			for times := place % 3; times > 0 && errs[place] == nil; times-- {
				errs[place] = part.Prepare()
			}
		}(place, part)
	}
	all.Wait()
	for place, err := range errs {
		if err != nil {
			t.Fatal(place, err)
		}
	}
}

// begin begins a block of this batch, and prepares its parts.
func begin(t *testing.T, writer *mst.ShardedWriter, batch *mst.Batch) *mst.ShardedBlock {
	t.Helper()
	block, parts, err := writer.Begin(batch)
	if err != nil || len(parts) != 16 {
		t.Fatal(len(parts), err)
	}
	prepare(t, parts)
	if parts[1].Close() != nil || !errors.Is(parts[1].Prepare(), mst.ErrClosed) {
		t.Fatal("a part that is closed does something")
	}
	return block
}

func TestBlocksByThreadsAreThoseByOne(t *testing.T) {
	once, _ := openSharded(t, mst.Format1, 256, 0)
	hers, _ := openSharded(t, mst.Format1, 256, 0)
	writer, _ := openSharded(t, mst.Format1, 256, 0)
	chance := rand.New(rand.NewSource(11))
	for made := uint64(1); made <= 40; made++ {
		var batch, other mst.Batch
		for more := chance.Intn(200); more > 0; more-- {
			batch.Put([]byte{byte(chance.Intn(256))}, numbered(more))
			other.Remove([]byte{byte(chance.Intn(256))})
		}
		if number, err := once.Apply(&batch); number != made || err != nil {
			t.Fatal(number, made, err)
		}
		number, err := hers.ApplyInThreads(&batch, int(made%6)-1)
		if number != made || err != nil {
			t.Fatal(number, made, err)
		}
		cancelled := begin(t, writer, &other)
		cancelled.Cancel()
		if _, err := cancelled.Commit(); !errors.Is(err, mst.ErrClosed) {
			t.Fatal(err)
		}
		block := begin(t, writer, &batch)
		cancelled.Cancel()
		if _, err := writer.Number(); !errors.Is(err, mst.ErrWrongState) {
			t.Fatal(err)
		}
		if _, _, err := writer.Begin(&batch); !errors.Is(err, mst.ErrWrongState) {
			t.Fatal(err)
		}
		if number, err := block.Commit(); number != made || err != nil {
			t.Fatal(number, made, err)
		}
		if rootOf(t, once) != rootOf(t, hers) || rootOf(t, once) != rootOf(t, writer) {
			t.Fatal("the root digests differ after block", made)
		}
	}
}

func TestBlocksByThreadsRefuse(t *testing.T) {
	writer, _, err := mst.OpenSharded(mst.ShardedOptions{
		Rows: 12, Splits: [][]byte{{'b'}, {'c'}, {'d'}}, Format: mst.Format2,
	})
	if err != nil {
		t.Fatal(err)
	}
	var batch, bad mst.Batch
	batch.Put([]byte("a"), []byte("1"))
	for last := byte(0); last < 12; last++ {
		batch.Put([]byte{'c', last}, []byte("1"))
	}
	bad.Put([]byte("a"), nil).Remove(nil)
	isFull := func(err error) bool {
		var refused *mst.ShardError
		return errors.As(err, &refused) && refused.Shard == 2 && errors.Is(err, mst.ErrNoFreeRows)
	}
	var edit *mst.EditError
	if number, err := writer.ApplyInThreads(&batch, 4); number != 0 || !isFull(err) {
		t.Fatal(number, err)
	}
	if _, err := writer.ApplyInThreads(&bad, 4); !errors.As(err, &edit) || edit.Place != 1 {
		t.Fatal(err)
	}
	if _, _, err := writer.Begin(&bad); !errors.As(err, &edit) || edit.Place != 1 {
		t.Fatal(err)
	}
	block, parts, err := writer.Begin(&batch)
	if err != nil {
		t.Fatal(err)
	}
	if err := parts[0].Prepare(); err != nil {
		t.Fatal(err)
	}
	if err := parts[2].Prepare(); !isFull(err) {
		t.Fatal(err)
	}
	if number, err := block.Commit(); number != 0 || !isFull(err) {
		t.Fatal(number, err)
	}
	if err := parts[0].Prepare(); !errors.Is(err, mst.ErrClosed) {
		t.Fatal(err)
	}
	if number, err := writer.Number(); number != 0 || err != nil {
		t.Fatal(number, err)
	}
	lost, _, err := writer.Begin(&mst.Batch{})
	if err != nil {
		t.Fatal(err)
	}
	if err := writer.Close(); err != nil {
		t.Fatal(err)
	}
	if _, err := lost.Commit(); !errors.Is(err, mst.ErrClosed) {
		t.Fatal(err)
	}
	if _, err := writer.ApplyInThreads(&batch, 4); !errors.Is(err, mst.ErrClosed) {
		t.Fatal(err)
	}
}
