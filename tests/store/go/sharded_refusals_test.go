package store

import (
	"errors"
	"testing"

	"mst"
)

func TestARefusedBlockChangesNoShard(t *testing.T) {
	writer, readers, err := mst.OpenSharded(mst.ShardedOptions{
		Rows: 12, Readers: 2, Splits: [][]byte{{'b'}, {'c'}, {'d'}}, Format: mst.Format2,
	})
	if err != nil {
		t.Fatal(err)
	}
	var first, batch mst.Batch
	first.Put([]byte("a"), []byte("old")).Put([]byte("c"), []byte("old"))
	if number, err := writer.Apply(&first); number != 1 || err != nil {
		t.Fatal(number, err)
	}
	old := told{1, rootOf(t, writer), map[byte][]byte{'a': []byte("old"), 'c': []byte("old")}}
	then := snapshotOf(t, readers[1])
	batch.Put([]byte("d"), []byte("1"))
	for last := byte(0); last < 12; last++ {
		batch.Put([]byte{'c', last}, []byte("1"))
	}
	batch.Put([]byte("a"), []byte("1"))
	for again := 0; again < 3; again++ {
		// the third shard has no rows for its edits
		var refused *mst.ShardError
		number, err := writer.Apply(&batch)
		if !errors.As(err, &refused) || refused.Shard != 2 || number != 0 ||
			!errors.Is(err, mst.ErrNoFreeRows) {
			t.Fatal(number, err)
		}
		now := snapshotOf(t, readers[0])
		shows(t, now, old)
		now.Release()
	}
	batch.Reset()
	batch.Put([]byte("a"), []byte("new")).Put([]byte("d"), []byte("new")).Remove([]byte("c"))
	if number, err := writer.Apply(&batch); number != 2 || err != nil {
		t.Fatal(number, err)
	}
	shows(t, then, old)
	then.Release()
	known := map[byte][]byte{'a': []byte("new"), 'd': []byte("new")}
	shows(t, snapshotOf(t, readers[1]), told{2, rootOf(t, writer), known})
}

func TestBlocksRefuse(t *testing.T) {
	for _, splits := range [][][]byte{{{}}, {{0}}, {{2}, {2}}, {{2}, {1}}, {make([]byte, 33)}} {
		_, _, err := mst.OpenSharded(mst.ShardedOptions{Rows: 16, Readers: 1, Splits: splits})
		if !errors.Is(err, mst.ErrBadSplits) {
			t.Fatal(splits, err)
		}
	}
	for _, shape := range [][2]int{{3, 1}, {65536, 1}, {-1, 1}, {16, 32}, {16, -1}} {
		options := mst.ShardedOptions{Rows: shape[0], Readers: shape[1], Format: mst.Format2}
		_, _, err := mst.OpenSharded(options)
		if !errors.Is(err, mst.ErrBadShape) {
			t.Fatal(shape, err)
		}
	}
	writer, readers := openSharded(t, mst.Format1, 16, 1)
	var batch mst.Batch
	batch.Put([]byte("a"), nil).Remove(nil)
	var bad *mst.EditError
	_, err := writer.Apply(&batch)
	if !errors.As(err, &bad) || bad.Place != 1 || !errors.Is(err, mst.ErrBadKey) {
		t.Fatal(err)
	}
	if number, err := writer.Number(); number != 0 || err != nil {
		t.Fatal(number, err)
	}
	if number, err := writer.Apply(&mst.Batch{}); number != 1 || err != nil {
		t.Fatal(number, err)
	}
	then := snapshotOf(t, readers[0])
	if _, err := readers[0].Snapshot(); !errors.Is(err, mst.ErrWrongState) {
		t.Fatal(err)
	}
	if _, err := readers[0].TrySnapshot(); !errors.Is(err, mst.ErrWrongState) {
		t.Fatal(err)
	}
	if _, err := then.Prove(nil); !errors.Is(err, mst.ErrBadKey) {
		t.Fatal(err)
	}
}
