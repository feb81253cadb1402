package store

import (
	"errors"
	"sync"
	"testing"

	"mst"
)

// The goroutines that write by one group, and how many requests each has.
const groupWriters, groupRequests = 8, 400

func groupOf(t *testing.T, writer *mst.ShardedWriter) *mst.ShardedGroup {
	t.Helper()
	group, err := writer.Group()
	if err != nil {
		t.Fatal(err)
	}
	return group
}

// editsOf are the edits of a request, of keys that no other writer has. An edit without a value is
// a remove. Some requests have no edits, and one in a while has so many that others come meanwhile.
func editsOf(writer, request int) []mst.Pair {
	key := func(at int) []byte {
		return []byte{byte(16 * (writer + at)), byte(writer), byte(at % 16)}
	}
	var edits []mst.Pair
	value := numbered(request)
	switch {
	case writer == 0 && request%50 == 1:
		for at := 0; at < 1000; at++ {
			edits = append(edits, mst.Pair{Key: []byte{byte(at), 200, byte(at >> 8)}, Value: value})
		}
	case request%101 != 0:
		edits = append(edits, mst.Pair{Key: key(7 * request), Value: value})
		if request%3 == 0 {
			edits = append(edits, mst.Pair{Key: key(5*request + 3)})
		}
	}
	return edits
}

func batchOf(edits []mst.Pair) *mst.Batch {
	batch := new(mst.Batch)
	for _, edit := range edits {
		if edit.Value == nil {
			batch.Remove(edit.Key)
		} else {
			batch.Put(edit.Key, edit.Value)
		}
	}
	return batch
}

// groupRun is what the goroutines that write by a group were told, and what a reader saw.
type groupRun struct {
	// The numbers that each writer was told of its requests, which count from 1.
	numbers [groupWriters][groupRequests + 1]uint64
	// The blocks that the reader looked at, by rising numbers.
	seen []told
	// The mutex is of what follows.
	mutex   sync.Mutex
	highest uint64
	isOver  bool
}

// write makes the requests of a writer, whose numbers rise.
func (r *groupRun) write(t *testing.T, group *mst.ShardedGroup, writer int) {
	for request := 1; request <= groupRequests; request++ {
		number, err := group.Apply(batchOf(editsOf(writer, request)))
		if before := r.numbers[writer][request-1]; err != nil || number <= before {
			t.Errorf("writer %d was told %d after %d: %v", writer, number, before, err)
			return
		}
		r.numbers[writer][request] = number
		r.mutex.Lock()
		if number > r.highest {
			r.highest = number
		}
		r.mutex.Unlock()
	}
}

// look takes snapshots until the writers have ended: none is older than a block that was told.
func (r *groupRun) look(t *testing.T, reader *mst.ShardedReader) {
	last := uint64(0)
	for isOver := false; !isOver; {
		r.mutex.Lock()
		least := r.highest
		isOver = r.isOver
		r.mutex.Unlock()
		then, err := reader.Snapshot()
		if err != nil {
			t.Error(err)
			return
		}
		number, _ := then.Number()
		root, err := then.Root()
		then.Release()
		if err != nil || number < least || number < last {
			t.Errorf("block %d after %d and %d: %v", number, last, least, err)
			return
		}
		if number > last {
			r.seen = append(r.seen, told{number: number, root: root})
		}
		last = number
	}
}

// replay makes the requests in a second map, by the numbers that were told, and sees that it has
// each root digest that was seen. Each number is that of a block with requests, of each writer in
// their order.
func (r *groupRun) replay(t *testing.T) {
	t.Helper()
	twin, _ := openSharded(t, mst.Format1, 2000, 0)
	var done [groupWriters]int
	seen := r.seen
	for number := uint64(1); number <= r.highest; number++ {
		var edits []mst.Pair
		count := 0
		for writer := range done {
			request := done[writer] + 1
			if request <= groupRequests && r.numbers[writer][request] == number {
				edits = append(edits, editsOf(writer, request)...)
				done[writer] = request
				count++
			}
		}
		if made, err := twin.Apply(batchOf(edits)); count == 0 || made != number || err != nil {
			t.Fatal(count, made, number, err)
		}
		if len(seen) > 0 && seen[0].number == number {
			if rootOf(t, twin) != seen[0].root {
				t.Fatal("the root digests differ after block", number)
			}
			seen = seen[1:]
		}
	}
	for writer := range done {
		if done[writer] != groupRequests {
			t.Fatal(writer, done[writer])
		}
	}
	if len(seen) != 0 {
		t.Fatal("no such block was told:", seen[0].number)
	}
}

func TestGoroutinesWriteByOneGroup(t *testing.T) {
	writer, readers := openSharded(t, mst.Format1, 2000, 1)
	group, run, looked := groupOf(t, writer), new(groupRun), make(chan struct{})
	go func() {
		defer close(looked)
		run.look(t, readers[0])
	}()
	var calls []func()
	for at := 0; at < groupWriters; at++ {
		at := at
		calls = append(calls, func() { run.write(t, group, at) })
	}
	together(calls...)
	run.mutex.Lock()
	run.isOver = true
	run.mutex.Unlock()
	<-looked
	expect(t, "Close", group.Close(), nil)
	if number, err := writer.Number(); number != run.highest || err != nil {
		t.Fatal(number, run.highest, err)
	}
	// while long requests were made, others came, and were made as one block
	if run.highest >= groupWriters*groupRequests {
		t.Fatal("each request got a block of its own")
	}
	run.replay(t)
	hasAll(t, writer)
}

// hasAll tests whether the writer has the last value of each key.
func hasAll(t *testing.T, writer *mst.ShardedWriter) {
	t.Helper()
	known := map[string][]byte{}
	for at := 0; at < groupWriters; at++ {
		for request := 1; request <= groupRequests; request++ {
			for _, edit := range editsOf(at, request) {
				known[string(edit.Key)] = edit.Value
			}
		}
	}
	for key, wanted := range known {
		value, present, err := writer.Get([]byte(key))
		if !isTold(value, present, err, wanted) {
			t.Fatal([]byte(key), value, present, wanted, err)
		}
	}
}

// refusedEdits are the edits of three writers that are refused each time: by a shard without rows
// for them, for a key, and for a value. Those of the others are good, of a key in each shard.
func refusedEdits(writer, request int) *mst.Batch {
	batch, value := new(mst.Batch), numbered(request)
	if writer == 0 {
		for at := 0; at < 100; at++ {
			batch.Put([]byte{'c', 0, byte(at)}, value)
		}
		return batch
	}
	batch.Put([]byte{'a', byte(writer)}, value).Put([]byte{'c', byte(writer)}, value)
	switch writer {
	case 1:
		batch.Remove(nil)
	case 2:
		batch.Put([]byte{'d'}, make([]byte, 65))
	}
	return batch
}

// isRefused is whether a writer of refusedEdits is refused as it has to be.
func isRefused(writer int, err error) bool {
	var shard *mst.ShardError
	var edit *mst.EditError
	switch writer {
	case 0:
		return errors.As(err, &shard) && shard.Shard == 1 && errors.Is(err, mst.ErrNoFreeRows)
	case 1:
		return errors.As(err, &edit) && edit.Place == 2 && errors.Is(err, mst.ErrBadKey)
	case 2:
		return errors.As(err, &edit) && edit.Place == 2 && errors.Is(err, mst.ErrBadValue)
	}
	return err == nil
}

// lastRefused is the last request of each writer of refusedEdits.
const lastRefused = 200

// ask makes the requests of refusedEdits of a writer.
func ask(t *testing.T, group *mst.ShardedGroup, writer int) {
	before := uint64(0)
	for request := 1; request <= lastRefused; request++ {
		number, err := group.Apply(refusedEdits(writer, request))
		if !isRefused(writer, err) || (err == nil) != (number > before) {
			t.Errorf("writer %d was told %d after %d: %v", writer, number, before, err)
			return
		}
		before = number
	}
}

func TestAGroupRefusesNoCallForAnother(t *testing.T) {
	writer, readers, err := mst.OpenSharded(mst.ShardedOptions{
		Rows: 80, Readers: 1, Splits: [][]byte{{'b'}}, Format: mst.Format2,
	})
	if err != nil {
		t.Fatal(err)
	}
	group := groupOf(t, writer)
	var calls []func()
	for at := 0; at < groupWriters; at++ {
		at := at
		calls = append(calls, func() { ask(t, group, at) })
	}
	together(calls...)
	expect(t, "Close", group.Close(), nil)
	for at := 1; at < groupWriters; at++ {
		var wanted []byte
		if at > 2 {
			wanted = numbered(lastRefused)
		}
		for _, first := range []byte("ac") {
			value, present, err := writer.Get([]byte{first, byte(at)})
			if !isTold(value, present, err, wanted) {
				t.Fatal(at, value, present, err)
			}
		}
	}
	if number, err := snapshotOf(t, readers[0]).Number(); number < lastRefused || err != nil {
		t.Fatal(number, err)
	}
}
