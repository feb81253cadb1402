package store

import (
	"bytes"
	"errors"
	"math/rand"
	"testing"

	"mst"
	"mstverifier"
)

// told is what the writer tells of a block, with the map that the block left.
type told struct {
	number uint64
	root   mst.Root
	known  map[byte][]byte
}

// splitsOf16 are the splits of 16 shards of keys of one byte.
func splitsOf16() [][]byte {
	var splits [][]byte
	for number := 1; number < 16; number++ {
		splits = append(splits, []byte{byte(16 * number)})
	}
	return splits
}

func isTold(value []byte, present bool, err error, wanted []byte) bool {
	return err == nil && present == (wanted != nil) && bytes.Equal(value, wanted)
}

func openSharded(
	t *testing.T, format mst.Format, rows, readers int,
) (*mst.ShardedWriter, []*mst.ShardedReader) {
	t.Helper()
	writer, opened, err := mst.OpenSharded(mst.ShardedOptions{
		Rows: rows, Readers: readers, Splits: splitsOf16(), Format: format,
	})
	if err != nil {
		t.Fatal(err)
	}
	return writer, opened
}

func snapshotOf(t *testing.T, reader *mst.ShardedReader) *mst.ShardedSnapshot {
	t.Helper()
	then, err := reader.Snapshot()
	if err != nil {
		t.Fatal(err)
	}
	return then
}

func rootOf(t *testing.T, writer *mst.ShardedWriter) mst.Root {
	t.Helper()
	root, err := writer.Root()
	if err != nil {
		t.Fatal(err)
	}
	return root
}

// makes makes a block of up to 23 edits at random.
func makes(t *testing.T, writer *mst.ShardedWriter, before told, chance *rand.Rand) told {
	t.Helper()
	known := map[byte][]byte{}
	for key, value := range before.known {
		known[key] = value
	}
	var batch mst.Batch
	for more := chance.Intn(24); more > 0; more-- {
		key := byte(chance.Intn(256))
		if chance.Intn(3) == 0 {
			batch.Remove([]byte{key})
			delete(known, key)
		} else {
			known[key] = numbered(chance.Intn(1000))
			batch.Put([]byte{key}, known[key])
		}
	}
	number, err := writer.Apply(&batch)
	if err != nil || number != before.number+1 {
		t.Fatal(number, before.number, err)
	}
	if again, err := writer.Number(); again != number || err != nil {
		t.Fatal(again, number, err)
	}
	key := byte(chance.Intn(256))
	value, present, err := writer.Get([]byte{key})
	if wanted, there := known[key]; present != there || string(value) != string(wanted) || err != nil {
		t.Fatal(key, value, present, err)
	}
	return told{number, rootOf(t, writer), known}
}

// shows tests whether a snapshot is of this block.
func shows(t *testing.T, then *mst.ShardedSnapshot, of told) {
	t.Helper()
	number, err := then.Number()
	if number != of.number || err != nil {
		t.Fatal(number, of.number, err)
	}
	if root, err := then.Root(); root != of.root || err != nil {
		t.Fatal(root, of.root, err)
	}
	for key := 0; key < 256; key++ {
		value, present, err := then.Get([]byte{byte(key)})
		if !isTold(value, present, err, of.known[byte(key)]) {
			t.Fatal(key, value, present, err)
		}
	}
	pairs, err := then.Range(nil, nil, -1)
	if err != nil || len(pairs) != len(of.known) {
		t.Fatal(len(pairs), len(of.known), err)
	}
	if count, err := then.Len(); count != uint64(len(pairs)) || err != nil {
		t.Fatal(count, len(pairs), err)
	}
	for place, pair := range pairs {
		var last []byte
		if place > 0 {
			last = pairs[place-1].Key
		}
		next, found, err := then.Next(last)
		if err != nil || !found || !bytes.Equal(next.Key, pair.Key) {
			t.Fatal(next, found, err)
		}
	}
}

// proves tests whether the verifier accepts the proofs of a snapshot.
func proves(t *testing.T, then *mst.ShardedSnapshot, format mst.Format, of told) {
	t.Helper()
	if is, err := then.Format(); is != format || err != nil {
		t.Fatal(is, err)
	}
	if directory, err := then.Directory(); len(directory) != 16 || err != nil {
		t.Fatal(directory, err)
	}
	if shards, err := then.Shards(); shards != 16 || err != nil {
		t.Fatal(shards, err)
	}
	known := mstverifier.Format(format)
	for number := 0; number < 256; number += 5 {
		key := []byte{byte(number)}
		proof, err := then.Prove(key)
		if err != nil {
			t.Fatal(err)
		}
		value, present, err := mstverifier.VerifySharded(known, of.root, key, proof)
		if !isTold(value, present, err, of.known[byte(number)]) {
			t.Fatal(number, value, present, err)
		}
	}
}

func TestASnapshotKeepsItsBlock(t *testing.T) {
	for _, format := range []mst.Format{mst.Format1, mst.Format2} {
		writer, readers := openSharded(t, format, 256, 2)
		chance, last := rand.New(rand.NewSource(7)), told{0, rootOf(t, writer), nil}
		for round := 0; round < 40; round++ {
			kept, then := last, snapshotOf(t, readers[0])
			for more := 0; more < 4; more++ {
				last = makes(t, writer, last, chance)
				now, err := readers[1].TrySnapshot()
				if err != nil {
					t.Fatal(err)
				}
				shows(t, now, last)
				now.Release()
			}
			shows(t, then, kept)
			proves(t, then, format, kept)
			then.Release()
		}
		value, present, err := readers[0].Get([]byte("a"))
		if !isTold(value, present, err, last.known['a']) {
			t.Fatal(value, present, err)
		}
	}
}

func TestReadersGoOnWithoutAWriter(t *testing.T) {
	writer, readers := openSharded(t, mst.Format2, 16, 2)
	var batch mst.Batch
	if _, err := writer.Apply(batch.Put([]byte("a"), []byte("1"))); err != nil {
		t.Fatal(err)
	}
	first := told{1, rootOf(t, writer), map[byte][]byte{'a': []byte("1")}}
	if err := writer.Close(); err != nil {
		t.Fatal(err)
	}
	if _, err := writer.Apply(&batch); !errors.Is(err, mst.ErrClosed) {
		t.Fatal(err)
	}
	then := snapshotOf(t, readers[0])
	shows(t, then, first)
	then.Release()
	then.Release()
	// of a reader's next snapshot the older one knows nothing
	next := snapshotOf(t, readers[0])
	if _, err := then.Root(); !errors.Is(err, mst.ErrClosed) {
		t.Fatal(err)
	}
	if _, err := then.Len(); !errors.Is(err, mst.ErrClosed) {
		t.Fatal(err)
	}
	if err := readers[0].Close(); err != nil {
		t.Fatal(err)
	}
	if _, err := next.Number(); !errors.Is(err, mst.ErrClosed) {
		t.Fatal(err)
	}
	if _, err := readers[0].Shards(); !errors.Is(err, mst.ErrClosed) {
		t.Fatal(err)
	}
	if shards, err := readers[1].Shards(); shards != 16 || err != nil {
		t.Fatal(shards, err)
	}
	shows(t, snapshotOf(t, readers[1]), first)
}

func TestShardedFreeRows(t *testing.T) {
	writer, readers, err := mst.OpenSharded(mst.ShardedOptions{
		Rows: 16, Readers: 1, Splits: [][]byte{[]byte("m")},
	})
	if err != nil {
		t.Fatal(err)
	}
	free := func(shard int) int {
		t.Helper()
		rows, present, err := writer.FreeRows(shard)
		if !present || err != nil {
			t.Fatalf("shard %d has no free rows, %v", shard, err)
		}
		return rows
	}
	put := func(value string) {
		t.Helper()
		var batch mst.Batch
		if _, err := writer.Apply(batch.Put([]byte("a"), []byte(value))); err != nil {
			t.Fatal(err)
		}
	}
	listed := free(2)
	put("1")
	then := snapshotOf(t, readers[0])
	put("2")
	if free(0) != 12 || free(1) != 16 || free(2) >= listed {
		t.Errorf("%d, %d and %d rows are free", free(0), free(1), free(2))
	}
	then.Release()
	if free(0) != 14 || free(2) != listed {
		t.Errorf("%d and %d rows are free", free(0), free(2))
	}
	for _, shard := range []int{3, -1, 1 << 30} {
		if rows, present, err := writer.FreeRows(shard); rows != 0 || present || err != nil {
			t.Errorf("shard %d: %d, %v, %v", shard, rows, present, err)
		}
	}
	expect(t, "Close", writer.Close(), nil)
	_, _, err = writer.FreeRows(0)
	expect(t, "FreeRows", err, mst.ErrClosed)
}
