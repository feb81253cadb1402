package store

import (
	"encoding/binary"
	"runtime"
	"sync"
	"testing"
	"time"

	"mst"
)

// writerCalls are all calls of a writer but Close.
func writerCalls(writer *mst.ShardedWriter) map[string]func() error {
	batch := new(mst.Batch).Put([]byte("z"), nil)
	return map[string]func() error{
		"Shards":         func() error { _, err := writer.Shards(); return err },
		"Apply":          func() error { _, err := writer.Apply(batch); return err },
		"ApplyInThreads": func() error { _, err := writer.ApplyInThreads(batch, 2); return err },
		"Begin":          func() error { _, _, err := writer.Begin(batch); return err },
		"Group":          func() error { _, err := writer.Group(); return err },
		"Get":            func() error { _, _, err := writer.Get([]byte("z")); return err },
		"Number":         func() error { _, err := writer.Number(); return err },
		"Root":           func() error { _, err := writer.Root(); return err },
	}
}

func TestAWriterIsRefusedWhileAGroupHasIt(t *testing.T) {
	writer, readers := openSharded(t, mst.Format1, 64, 2)
	batch := new(mst.Batch).Put([]byte("a"), []byte("1"))
	first, then := groupOf(t, writer), snapshotOf(t, readers[1])
	for name, call := range writerCalls(writer) {
		expect(t, name, call(), mst.ErrWrongState)
	}
	_, err := then.CopyTo(writer)
	expect(t, "CopyTo", err, mst.ErrWrongState)
	if number, err := first.Apply(batch); number != 1 || err != nil {
		t.Fatal(number, err)
	}
	value, present, err := readers[0].Get([]byte("a"))
	if !isTold(value, present, err, []byte("1")) {
		t.Fatal(value, present, err)
	}
	expect(t, "Close", first.Close(), nil)
	if number, err := writer.Apply(batch); number != 2 || err != nil {
		t.Fatal(number, err)
	}
	second := groupOf(t, writer)
	for again := 0; again < 2; again++ {
		expect(t, "a second Close", first.Close(), mst.ErrClosed)
		_, err = first.Apply(batch)
		expect(t, "Apply of a closed group", err, mst.ErrClosed)
	}
	if number, err := second.Apply(batch); number != 3 || err != nil {
		t.Fatal(number, err)
	}
}

func TestAGroupIsClosedWithItsWriter(t *testing.T) {
	writer, readers := openSharded(t, mst.Format2, 64, 1)
	block, _, err := writer.Begin(new(mst.Batch))
	expect(t, "Begin", err, nil)
	_, err = writer.Group()
	expect(t, "Group of a block", err, mst.ErrWrongState)
	block.Cancel()
	group, batch := groupOf(t, writer), new(mst.Batch).Put([]byte("a"), []byte("1"))
	_, err = block.Commit()
	expect(t, "Commit of a block that has ended", err, mst.ErrClosed)
	if number, err := group.Apply(batch); number != 1 || err != nil {
		t.Fatal(number, err)
	}
	expect(t, "Close", writer.Close(), nil)
	expect(t, "Close", writer.Close(), mst.ErrClosed)
	for name, call := range writerCalls(writer) {
		expect(t, name, call(), mst.ErrClosed)
	}
	_, err = group.Apply(batch)
	expect(t, "Apply", err, mst.ErrClosed)
	expect(t, "Close", group.Close(), mst.ErrClosed)
	value, present, err := readers[0].Get([]byte("a"))
	if !isTold(value, present, err, []byte("1")) {
		t.Fatal(value, present, err)
	}
}

// writeUntilClosed writes a key until the group is closed, and returns the last number that it was
// told.
func writeUntilClosed(t *testing.T, group *mst.ShardedGroup, key byte) uint64 {
	last, batch := uint64(0), new(mst.Batch).Put([]byte{key}, []byte("1"))
	for {
		number, err := group.Apply(batch)
		if err != nil {
			expect(t, "Apply", err, mst.ErrClosed)
			return last
		}
		last = number
	}
}

// A Close waits for the calls that are in the group: what they are told is what the map then has.
// In the last round it is the writer that is closed.
func TestAGroupIsClosedWhileOthersWriteByIt(t *testing.T) {
	writer, readers := openSharded(t, mst.Format1, 500, 1)
	for round := 0; round < 21; round++ {
		group, closeIt := groupOf(t, writer), writer.Close
		if round < 20 {
			closeIt = group.Close
		}
		var last [groupWriters]uint64
		calls := []func(){func() {
			time.Sleep(time.Duration(round) * time.Millisecond)
			expect(t, "Close", closeIt(), nil)
		}}
		for at := range last {
			at := at
			calls = append(calls, func() { last[at] = writeUntilClosed(t, group, byte(16*at)) })
		}
		together(calls...)
		highest := uint64(0)
		for _, number := range last {
			if number > highest {
				highest = number
			}
		}
		then := snapshotOf(t, readers[0])
		if number, err := then.Number(); highest > 0 && number != highest || err != nil {
			t.Fatal(number, highest, err)
		}
		then.Release()
	}
}

func TestACounterNeedsAMutexAroundTheRead(t *testing.T) {
	const each = 50
	writer, readers := openSharded(t, mst.Format1, 64, 1)
	group, mutex := groupOf(t, writer), sync.Mutex{}
	increment := func() {
		mutex.Lock()
		defer mutex.Unlock()
		count := uint64(0)
		value, present, err := readers[0].Get([]byte("count"))
		if present {
			count = binary.BigEndian.Uint64(value)
		}
		batch := new(mst.Batch).Put([]byte("count"), numbered(int(count)+1))
		if _, other := group.Apply(batch); err != nil || other != nil {
			t.Error(err, other)
		}
	}
	add := func() {
		for at := 0; at < each; at++ {
			increment()
		}
	}
	together(add, add, add, add)
	expect(t, "Close", group.Close(), nil)
	value, present, err := writer.Get([]byte("count"))
	if !isTold(value, present, err, numbered(4*each)) {
		t.Fatal(value, present, err)
	}
}

func TestTheRuntimeClosesAForgottenGroup(t *testing.T) {
	writer, _ := openSharded(t, mst.Format1, 64, 0)
	if number, err := groupOf(t, writer).Apply(new(mst.Batch)); number != 1 || err != nil {
		t.Fatal(number, err)
	}
	_, err := writer.Number()
	for deadline := time.Now().Add(time.Minute); err != nil; _, err = writer.Number() {
		expect(t, "Number", err, mst.ErrWrongState)
		if time.Now().After(deadline) {
			t.Fatal("the group stays")
		}
		runtime.GC()
		time.Sleep(time.Millisecond)
	}
	if number, err := writer.Apply(new(mst.Batch)); number != 2 || err != nil {
		t.Fatal(number, err)
	}
}
