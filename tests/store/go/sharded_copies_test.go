package store

import (
	"errors"
	"math/rand"
	"testing"

	"mst"
)

func TestACopyIsAMapThatWasFilledDirectly(t *testing.T) {
	for from, to := range map[mst.Format]mst.Format{
		mst.Format1: mst.Format2, mst.Format2: mst.Format1,
	} {
		writer, readers := openSharded(t, from, 256, 1)
		chance, last := rand.New(rand.NewSource(9)), told{0, rootOf(t, writer), nil}
		for made := 0; made < 30; made++ {
			last = makes(t, writer, last, chance)
		}
		options := mst.ShardedOptions{Rows: 999, Readers: 1, Splits: [][]byte{{'a'}}, Format: to}
		copied, lookers, err := mst.OpenSharded(options)
		if err != nil {
			t.Fatal(err)
		}
		options.Rows, options.Readers = 500, 0
		direct, _, err := mst.OpenSharded(options)
		if err != nil {
			t.Fatal(err)
		}
		var batch mst.Batch
		for key, value := range last.known {
			batch.Put([]byte{key}, value)
		}
		if number, err := direct.Apply(&batch); number != 1 || err != nil {
			t.Fatal(number, err)
		}
		then := snapshotOf(t, readers[0])
		if number, err := then.CopyTo(copied); number != 1 || err != nil {
			t.Fatal(number, err)
		}
		shows(t, snapshotOf(t, lookers[0]), told{1, rootOf(t, direct), last.known})
		refusesCopies(t, then, to)
	}
}

// refusesCopies tests that a full map is as it was, and that nothing is copied of a snapshot that
// has ended.
func refusesCopies(t *testing.T, then *mst.ShardedSnapshot, to mst.Format) {
	t.Helper()
	options := mst.ShardedOptions{Rows: 8, Splits: [][]byte{{'a'}}, Format: to}
	full, _, err := mst.OpenSharded(options)
	if err != nil {
		t.Fatal(err)
	}
	var refused *mst.ShardError
	number, err := then.CopyTo(full)
	if !errors.As(err, &refused) || number != 0 || !errors.Is(err, mst.ErrNoFreeRows) {
		t.Fatal(number, err)
	}
	if number, err := full.Number(); number != 0 || err != nil {
		t.Fatal(number, err)
	}
	then.Release()
	if _, err := then.CopyTo(full); !errors.Is(err, mst.ErrClosed) {
		t.Fatal(err)
	}
}
