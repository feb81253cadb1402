package store

import (
	"bytes"
	"math/rand"
	"sort"
	"testing"

	"mst"
)

// model is the map as Go has it.
type model map[string]string

// one opens a store with one pass, which is closed at the end of the test.
func one(t *testing.T, rows int) *mst.Pass {
	t.Helper()
	return open(t, mst.Format1, rows, 1)[0]
}

func open(t *testing.T, format mst.Format, rows, passes int) []*mst.Pass {
	t.Helper()
	opened, err := mst.Open(mst.Options{Rows: rows, Passes: passes, Format: format})
	if err != nil || len(opened) != passes {
		t.Fatalf("%d passes, %v", len(opened), err)
	}
	t.Cleanup(func() {
		for _, pass := range opened {
			_ = pass.Close()
		}
	})
	return opened
}

// keyBy is one of 300 keys, of all lengths.
func keyBy(chance *rand.Rand) []byte {
	seed := chance.Intn(300)
	return append([]byte{byte(seed >> 8), byte(seed)}, make([]byte, seed%31)...)
}

func valueBy(chance *rand.Rand) []byte {
	value := make([]byte, chance.Intn(65))
	chance.Read(value)
	return value
}

// pairs are those with from <= key < to, where an empty bound does not bind.
func (m model) pairs(from, to []byte) []mst.Pair {
	var pairs []mst.Pair
	for key, value := range m {
		if key >= string(from) && (len(to) == 0 || key < string(to)) {
			pairs = append(pairs, mst.Pair{Key: []byte(key), Value: []byte(value)})
		}
	}
	sort.Slice(pairs, func(a, b int) bool {
		return bytes.Compare(pairs[a].Key, pairs[b].Key) < 0
	})
	return pairs
}

func areEqual(some, others []mst.Pair) bool {
	if len(some) != len(others) {
		return false
	}
	for at, it := range some {
		if !bytes.Equal(it.Key, others[at].Key) || !bytes.Equal(it.Value, others[at].Value) {
			return false
		}
	}
	return true
}

func (m model) check(t *testing.T, what string, key, value []byte, present bool, err error) {
	t.Helper()
	wanted, isThere := m[string(key)]
	if err != nil || present != isThere || string(value) != wanted || present == (value == nil) {
		t.Fatalf("%s of %x: %x, %v, %v, and not %x, %v", what, key, value, present, err, wanted,
			isThere)
	}
}

// write makes a random put or remove in both maps.
func (m model) write(t *testing.T, pass *mst.Pass, chance *rand.Rand) {
	t.Helper()
	key := keyBy(chance)
	if chance.Intn(3) == 0 {
		old, present, err := pass.Remove(key)
		m.check(t, "Remove", key, old, present, err)
		delete(m, string(key))
		return
	}
	value := valueBy(chance)
	old, present, err := pass.Put(key, value)
	m.check(t, "Put", key, old, present, err)
	m[string(key)] = string(value)
}

// reader is a pass or a pinned one.
type reader interface {
	Get(key []byte) ([]byte, bool, error)
	Next(key []byte) (mst.Pair, bool, error)
	Range(from, to []byte, limit int) ([]mst.Pair, error)
	PageAfter(after, to []byte, limit int) ([]mst.Pair, error)
	Len() (uint64, error)
}

func (m model) read(t *testing.T, by reader, chance *rand.Rand) {
	t.Helper()
	key, to := keyBy(chance), keyBy(chance)
	value, present, err := by.Get(key)
	m.check(t, "Get", key, value, present, err)
	above := m.pairs(append(key[:len(key):len(key)], 0), nil)
	pair, found, err := by.Next(key)
	if err != nil || found != (len(above) > 0) || found && !areEqual([]mst.Pair{pair}, above[:1]) {
		t.Fatalf("Next of %x: %v, %v, %v", key, pair, found, err)
	}
	limit := chance.Intn(20) - 1
	wanted := first(m.pairs(key, to), limit)
	if found, err := by.Range(key, to, limit); err != nil || !areEqual(found, wanted) {
		t.Fatalf("Range of %x to %x: %v, %v, and not %v", key, to, found, err, wanted)
	}
	wanted = first(m.pairs(append(key[:len(key):len(key)], 0), to), limit)
	if found, err := by.PageAfter(key, to, limit); err != nil || !areEqual(found, wanted) {
		t.Fatalf("PageAfter %x to %x: %v, %v, and not %v", key, to, found, err, wanted)
	}
	m.counts(t, by)
}

// counts tests whether a version has as many pairs.
func (m model) counts(t *testing.T, by reader) {
	t.Helper()
	if count, err := by.Len(); err != nil || count != uint64(len(m)) {
		t.Fatalf("%d pairs, %v, and not %d", count, err, len(m))
	}
}

// first are the first pairs, as many as the limit if it binds.
func first(pairs []mst.Pair, limit int) []mst.Pair {
	if limit >= 0 && limit < len(pairs) {
		return pairs[:limit]
	}
	return pairs
}

// Behind a key of 32 bytes no longer one follows.
func TestPagesOfTheLongestKeys(t *testing.T) {
	pass, known := one(t, 4000), model{}
	var batch mst.Batch
	for at := 0; at < 300; at++ {
		key := bytes.Repeat([]byte{byte(0xFF - at%3)}, 32)
		key[31], key[30] = byte(at), byte(0xFF-at/256)
		batch.Put(key, key[30:])
		known[string(key)] = string(key[30:])
	}
	if err := pass.Apply(&batch); err != nil {
		t.Fatal(err)
	}
	var all []mst.Pair
	var last []byte
	for {
		page, err := pass.PageAfter(last, nil, 7)
		if err != nil {
			t.Fatal(err)
		}
		if len(page) == 0 {
			break
		}
		all, last = append(all, page...), page[len(page)-1].Key
	}
	if !areEqual(all, known.pairs(nil, nil)) {
		t.Errorf("the pages have %d pairs and not %d, or others", len(all), len(known))
	}
}

func TestAnswersAreThoseOfAMap(t *testing.T) {
	chance, pass, known := rand.New(rand.NewSource(7)), one(t, 4000), model{}
	for step := 1; step <= 4000; step++ {
		known.write(t, pass, chance)
		if version, err := pass.Version(); err != nil || version != uint64(step) {
			t.Fatalf("version %d after %d writes, %v", version, step, err)
		}
		known.read(t, pass, chance)
	}
	all, err := pass.Range(nil, nil, -1)
	if err != nil || !areEqual(all, known.pairs(nil, nil)) {
		t.Errorf("all pairs: %v, %v", all, err)
	}
	if rows, err := pass.Rows(); err != nil || rows < len(known) {
		t.Errorf("%d rows for %d pairs, %v", rows, len(known), err)
	}
	pinned, err := pass.Pin()
	if err != nil {
		t.Fatal(err)
	}
	defer pinned.Unpin()
	for step := 0; step < 200; step++ {
		known.read(t, pinned, chance)
		known.read(t, pass, chance)
	}
}

func TestALengthIsOfTheVersion(t *testing.T) {
	chance, passes, known := rand.New(rand.NewSource(13)), open(t, mst.Format2, 4000, 2), model{}
	for round := 0; round < 20; round++ {
		pinned, err := passes[1].Pin()
		if err != nil {
			t.Fatal(err)
		}
		kept := model{}
		for key, value := range known {
			kept[key] = value
		}
		for step := 0; step < 30; step++ {
			known.write(t, passes[0], chance)
			known.counts(t, passes[0])
		}
		kept.counts(t, pinned)
		kept.counts(t, passes[1])
		pinned.Unpin()
		known.counts(t, passes[1])
		_, err = pinned.Len()
		expect(t, "Len", err, mst.ErrClosed)
	}
}

func TestABatchLeavesTheMapOfItsEditsAsOneVersion(t *testing.T) {
	chance, pass, known := rand.New(rand.NewSource(11)), one(t, 4000), model{}
	var batch mst.Batch
	for step := 1; step <= 300; step++ {
		batch.Reset()
		edits := chance.Intn(30)
		for left := edits; left > 0; left-- {
			key, value := keyBy(chance), valueBy(chance)
			if chance.Intn(3) == 0 {
				batch.Remove(key)
				delete(known, string(key))
			} else {
				batch.Put(key, value)
				known[string(key)] = string(value)
			}
		}
		if err := pass.Apply(&batch); err != nil || batch.Len() != edits {
			t.Fatalf("a batch of %d edits: %v", batch.Len(), err)
		}
		version, err := pass.Version()
		if err != nil || version != uint64(step) {
			t.Fatalf("version %d after %d batches, %v", version, step, err)
		}
		known.read(t, pass, chance)
	}
	var whole mst.Batch
	for key, value := range known {
		whole.Put([]byte(key), []byte(value))
	}
	twin := one(t, 4000)
	if err := twin.Apply(&whole); err != nil {
		t.Fatal(err)
	}
	expectEqualRoots(t, pass, twin)
}

func expectEqualRoots(t *testing.T, some, others *mst.Pass) {
	t.Helper()
	root, err := some.Root()
	other, fault := others.Root()
	if err != nil || fault != nil || root != other {
		t.Errorf("roots %x, %v and %x, %v", root, err, other, fault)
	}
}

func TestWhatIsReturnedIsTheCallersOwn(t *testing.T) {
	pass := one(t, 100)
	key, value := []byte("key"), []byte("value")
	if _, _, err := pass.Put(key, value); err != nil {
		t.Fatal(err)
	}
	copy(key, "yek")
	copy(value, "eulav")
	got, _, _ := pass.Get([]byte("key"))
	pair, _, _ := pass.Next(nil)
	pairs, _ := pass.Range(nil, nil, -1)
	proof, _ := pass.Prove([]byte("key"))
	again, _ := pass.Prove([]byte("none"))
	old, _, _ := pass.Put([]byte("key"), []byte("other"))
	if _, _, err := pass.Put([]byte("long key, at last"), bytes.Repeat([]byte("x"), 64)); err != nil {
		t.Fatal(err)
	}
	whole := string(pair.Key) + string(pair.Value) + string(pairs[0].Key) + string(pairs[0].Value)
	if string(got) != "value" || string(old) != "value" || whole != "keyvaluekeyvalue" {
		t.Errorf("%s, %s, %s", got, old, whole)
	}
	if !bytes.Equal(proof, again) || !bytes.Contains(proof, []byte("value")) {
		t.Errorf("the proof is %x", proof)
	}
}
