package store

import (
	"bytes"
	"testing"

	"mst"
)

// iterator is what Items returns, as iter.Seq2 has it from Go 1.23 on.
type iterator func(yield func(mst.Pair, error) bool)

// all are the pairs that a loop is given before its error.
func (items iterator) all() (pairs []mst.Pair, err error) {
	items(func(pair mst.Pair, fault error) bool {
		if err = fault; err == nil {
			pairs = append(pairs, pair)
		}
		return true
	})
	return pairs, err
}

func (m model) checkItems(t *testing.T, items iterator, from, to []byte) {
	t.Helper()
	if found, err := items.all(); err != nil || !areEqual(found, m.pairs(from, to)) {
		t.Fatalf("%d pairs from %x to %x, %v", len(found), from, to, err)
	}
}

// longKey is a key of 32 bytes.
func longKey(number int) []byte {
	key := bytes.Repeat([]byte{0xFF}, 32)
	key[30], key[31] = byte(number>>8), byte(number)
	return key
}

// emptied takes out each pair that a reader comes to, which are all.
func (m model) emptied(t *testing.T, writer *mst.Pass, items iterator) {
	t.Helper()
	var found []mst.Pair
	items(func(pair mst.Pair, err error) bool {
		old, present, fault := writer.Remove(pair.Key)
		if err != nil || fault != nil || !present || !bytes.Equal(old, pair.Value) {
			t.Fatal(pair, err, old, present, fault)
		}
		found = append(found, pair)
		return true
	})
	if !areEqual(found, m.pairs(nil, nil)) {
		t.Fatalf("%d pairs, and not %d, or others", len(found), len(m))
	}
	model{}.checkItems(t, writer.Items(nil, nil), nil, nil)
}

func TestItemsAreThePairsOfTheirPages(t *testing.T) {
	for _, count := range []int{0, 1, 63, 64, 65, 127, 128, 190, 300} {
		passes, known := open(t, mst.Format1, 2000, 2), model{}
		var batch mst.Batch
		for number := 0; number < count; number++ {
			key := longKey(number)
			known[string(key)] = string(key[29:])
			batch.Put(key, key[29:])
		}
		expect(t, "Apply", passes[0].Apply(&batch), nil)
		pinned, err := passes[1].Pin()
		expect(t, "Pin", err, nil)
		known.emptied(t, passes[0], pinned.Items(nil, nil))
		for number := 0; number <= count; number += 9 {
			from, to := longKey(number), longKey(number+130)
			known.checkItems(t, pinned.Items(from, to), from, to)
			known.checkItems(t, pinned.Items(from, nil), from, nil)
			known.checkItems(t, pinned.Items(nil, from), nil, from)
			known.checkItems(t, pinned.Items(to, from), to, from)
		}
		pinned.Unpin()
		// A free pass goes on behind a pair that is gone.
		expect(t, "Apply", passes[0].Apply(&batch), nil)
		known.emptied(t, passes[0], passes[1].Items(nil, nil))
	}
}

// withLongKeys has 200 keys of 32 bytes.
func withLongKeys(t *testing.T) (*mst.Pass, model) {
	t.Helper()
	pass, known := one(t, 2000), model{}
	for number := 0; number < 200; number++ {
		key := longKey(number)
		known[string(key)] = "value"
		expect(t, "Put", put(pass, key, []byte("value")), nil)
	}
	return pass, known
}

// Each loop begins anew, and may end early. What it is given, and the bounds, are the caller's own.
func TestItemsOfSeveralLoops(t *testing.T) {
	pass, known := withLongKeys(t)
	from, to := longKey(3), longKey(180)
	items := pass.Items(from, to)
	copy(from, "other")
	copy(to, "other")
	for _, end := range []int{1, 64, 65, 100} {
		seen := 0
		items(func(pair mst.Pair, err error) bool {
			if !bytes.Equal(pair.Key, longKey(3+seen)) || err != nil {
				t.Fatalf("%x, %v", pair.Key, err)
			}
			copy(pair.Key, "another key of the same length..")
			seen++
			return seen < end
		})
		if seen != end {
			t.Errorf("%d pairs, and not %d", seen, end)
		}
		known.checkItems(t, items, longKey(3), longKey(180))
	}
}

// An error is the last that a loop is given.
func TestItemsThatEndWithAnError(t *testing.T) {
	pass, _ := withLongKeys(t)
	pinned, err := pass.Pin()
	expect(t, "Pin", err, nil)
	var told []error
	pinned.Items(nil, nil)(func(_ mst.Pair, err error) bool {
		told = append(told, err)
		pinned.Unpin()
		return true
	})
	if len(told) != 65 {
		t.Fatalf("%d pairs and errors", len(told))
	}
	for place, err := range told {
		wanted := error(nil)
		if place == 64 {
			wanted = mst.ErrClosed
		}
		expect(t, "an unpinned loop", err, wanted)
	}
	for _, bounds := range [][2][]byte{{make([]byte, 33), nil}, {nil, make([]byte, 33)}} {
		_, err := iterator(pass.Items(bounds[0], bounds[1])).all()
		expect(t, "long bounds", err, mst.ErrBadKey)
	}
	_, err = iterator(new(mst.Pass).Items(nil, nil)).all()
	expect(t, "no pass", err, mst.ErrClosed)
}

func TestItemsOfASnapshot(t *testing.T) {
	for _, count := range []int{0, 1, 63, 64, 65, 127, 128, 190, 256} {
		writer, readers := openSharded(t, mst.Format1, 256, 1)
		known := model{}
		var puts, removes mst.Batch
		for number := 0; number < count; number++ {
			key := []byte{byte(number)}
			known[string(key)] = "value"
			puts.Put(key, []byte("value"))
			removes.Remove(key)
		}
		_, err := writer.Apply(&puts)
		expect(t, "Apply", err, nil)
		then := snapshotOf(t, readers[0])
		_, err = writer.Apply(&removes)
		expect(t, "Apply", err, nil)
		for _, bounds := range [][2][]byte{{nil, nil}, {{5}, nil}, {nil, {200}}, {{5}, {200}}} {
			known.checkItems(t, then.Items(bounds[0], bounds[1]), bounds[0], bounds[1])
		}
		_, err = iterator(then.Items(make([]byte, 33), nil)).all()
		expect(t, "long bounds", err, mst.ErrBadKey)
		then.Release()
		_, err = iterator(then.Items(nil, nil)).all()
		expect(t, "a snapshot that has ended", err, mst.ErrClosed)
		model{}.checkItems(t, snapshotOf(t, readers[0]).Items(nil, nil), nil, nil)
	}
}
