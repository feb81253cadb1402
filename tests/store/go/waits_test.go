package store

import (
	"errors"
	"math"
	"sync/atomic"
	"testing"
	"time"

	"mst"
)

const (
	short = time.Millisecond
	long  = time.Minute
)

// busyThenMade calls with too short a time until a call is busy, and has made nothing. With more
// time it is made.
func busyThenMade(t *testing.T, name string, pass *mst.Pass, within func(time.Duration) error) {
	deadline := time.Now().Add(long)
	for isBusy := false; !isBusy; {
		before, _, _ := pass.Made()
		err := within(short)
		isBusy = errors.Is(err, mst.ErrBusy)
		if err != nil && !isBusy {
			t.Fatalf("%s: %v", name, err)
		}
		if after, _, _ := pass.Made(); isBusy != (after == before) {
			t.Errorf("%s: busy %v, made %d and then %d", name, isBusy, before, after)
		}
		if time.Now().After(deadline) {
			t.Fatalf("%s is never busy", name)
		}
	}
	if err := within(long); err != nil {
		t.Errorf("%s with more time: %v", name, err)
	}
}

func TestCallsWaitNoLongerThanTheyMay(t *testing.T) {
	passes := open(t, mst.Format1, 65_535, 2)
	var batch mst.Batch
	for at := 0; at < 20_000; at++ {
		batch.Put(numbered(at), nil)
	}
	if err := passes[0].ApplyWithin(&batch, -1); err != nil {
		t.Fatal(err)
	}
	var ended int32
	moved := make(chan struct{})
	go func() {
		defer close(moved)
		for step := 0; atomic.LoadInt32(&ended) == 0; step++ {
			if _, err := passes[0].Migrate(mst.Format(1 + step%2)); err != nil {
				t.Error(err)
			}
		}
	}()
	defer func() {
		atomic.StoreInt32(&ended, 1)
		<-moved
	}()
	pass := passes[1]
	busyThenMade(t, "PutWithin", pass, func(longest time.Duration) error {
		_, _, err := pass.PutWithin([]byte("a"), []byte("1"), longest)
		return err
	})
	busyThenMade(t, "RemoveWithin", pass, func(longest time.Duration) error {
		_, _, err := pass.RemoveWithin([]byte("a"), longest)
		return err
	})
	busyThenMade(t, "ApplyWithin", pass, func(longest time.Duration) error {
		return pass.ApplyWithin(new(mst.Batch), longest)
	})
	busyThenMade(t, "MigrateWithin", pass, func(longest time.Duration) error {
		_, err := pass.MigrateWithin(mst.Format1, longest)
		return err
	})
}

func TestRefusalsWaitForNoTime(t *testing.T) {
	pass := open(t, mst.Format1, 4, 1)[0]
	_, present, err := pass.PutWithin([]byte("a"), []byte("1"), math.MaxInt64)
	if present || err != nil {
		t.Errorf("a put: %v, %v", present, err)
	}
	for key := byte('b'); err == nil && key < 255; key++ {
		_, _, err = pass.PutWithin([]byte{key}, nil, long)
	}
	if !errors.Is(err, mst.ErrNoFreeRows) {
		t.Errorf("a full store: %v", err)
	}
	if _, _, err := pass.RemoveWithin(nil, long); !errors.Is(err, mst.ErrBadKey) {
		t.Errorf("no key: %v", err)
	}
	then, err := pass.Pin()
	if err != nil {
		t.Fatal(err)
	}
	defer then.Unpin()
	if _, err := pass.MigrateWithin(mst.Format2, long); !errors.Is(err, mst.ErrWrongState) {
		t.Errorf("a pinned pass: %v", err)
	}
}

func TestEightGoroutinesAreServed(t *testing.T) {
	// ten times where other programs want all processors
	for round := 0; round < 10; round++ {
		if allAreServed(t) {
			return
		}
	}
	t.Error("the slowest makes less than a quarter of the mean")
}

// allAreServed says whether of eight goroutines that write for two seconds the slowest makes a
// quarter of the mean.
func allAreServed(t *testing.T) bool {
	passes := open(t, mst.Format1, 4096, 8)
	var ended int32
	puts := make([]int, len(passes))
	calls := []func(){func() {
		time.Sleep(2 * time.Second)
		atomic.StoreInt32(&ended, 1)
	}}
	for at := range passes {
		at := at
		calls = append(calls, func() {
			for atomic.LoadInt32(&ended) == 0 {
				if _, _, err := passes[at].Put([]byte{byte(at)}, numbered(puts[at])); err != nil {
					t.Error(err)
					return
				}
				puts[at]++
			}
		})
	}
	together(calls...)
	all, least := 0, puts[0]
	for _, made := range puts {
		all += made
		if made < least {
			least = made
		}
	}
	t.Logf("the puts of each: %v", puts)
	return least*4*8 >= all
}
