package store

import (
	"encoding/binary"
	"errors"
	"runtime"
	"sync"
	"testing"
	"time"

	"mst"
)

// together runs the calls in goroutines, and returns when all have ended.
func together(calls ...func()) {
	var all sync.WaitGroup
	for _, call := range calls {
		call := call
		all.Add(1)
		go func() {
			defer all.Done()
			call()
		}()
	}
	all.Wait()
}

func numbered(number int) []byte {
	return binary.BigEndian.AppendUint64(nil, uint64(number))
}

func TestAPinnedVersionStaysWhileAnotherGoroutineWrites(t *testing.T) {
	passes := open(t, mst.Format1, 20_000, 2)
	reader, writer := passes[0], passes[1]
	for at := 0; at < 40; at++ {
		if _, _, err := writer.Put([]byte{byte(at)}, nil); err != nil {
			t.Fatal(err)
		}
	}
	together(func() {
		for at := 0; at < 3000; at++ {
			if _, _, err := writer.Put([]byte{byte(at % 40)}, numbered(at)); err != nil {
				t.Error(err)
			}
			if at%10 == 9 {
				if _, err := writer.Migrate(mst.Format(1 + at/10%2)); err != nil {
					t.Error(err)
				}
			}
		}
	}, func() {
		for at := 0; at < 60; at++ {
			expectOneVersion(t, reader, at)
		}
	})
	if version, err := reader.Version(); version != 3340 || err != nil {
		t.Errorf("version %d, %v", version, err)
	}
}

// expectOneVersion pins, and sees that all reads are of one version.
func expectOneVersion(t *testing.T, reader *mst.Pass, at int) {
	pinned, err := reader.Pin()
	if err != nil {
		t.Error(err)
		return
	}
	defer pinned.Unpin()
	version, _ := pinned.Version()
	root, _ := pinned.Root()
	known := model{}
	pairs, err := pinned.Range(nil, nil, -1)
	if len(pairs) != 40 || err != nil {
		t.Errorf("%d pairs, %v", len(pairs), err)
	}
	for _, pair := range pairs {
		known[string(pair.Key)] = string(pair.Value)
	}
	known.expectProof(t, pinned, []byte{byte(at % 40)})
	again, _ := pinned.Range(nil, nil, -1)
	later, _ := pinned.Version()
	after, _ := pinned.Root()
	if !areEqual(pairs, again) || later != version || after != root {
		t.Errorf("version %d became %d, root %x became %x", version, later, root, after)
	}
}

func TestWritersWaitForEachOther(t *testing.T) {
	const writers, writes = 4, 500
	passes := open(t, mst.Format1, 8000, writers)
	calls := make([]func(), writers)
	for at := range calls {
		at := at
		calls[at] = func() {
			for step := 0; step < writes; step++ {
				old, present, err := passes[at].Put([]byte{byte(at), byte(step % 50)}, numbered(step))
				if err != nil || present != (step >= 50) ||
					present && string(old) != string(numbered(step-50)) {
					t.Errorf("before step %d: %x, %v, %v", step, old, present, err)
				}
				if step%50 == 49 {
					var batch mst.Batch
					batch.Put([]byte{byte(at), 200}, numbered(step))
					if err := passes[at].Apply(&batch); err != nil {
						t.Error(err)
					}
				}
			}
		}
	}
	together(calls...)
	version, err := passes[0].Version()
	if version != writers*writes*51/50 || err != nil {
		t.Errorf("version %d, %v", version, err)
	}
}

func TestGoroutinesThatShareAPassWaitForEachOther(t *testing.T) {
	pass := one(t, 4000)
	work := func(at int) func() {
		return func() {
			for step := 0; step < 500; step++ {
				key := []byte{byte(at)}
				if _, _, err := pass.Put(key, numbered(step)); err != nil {
					t.Error(err)
				}
				value, present, err := pass.Get(key)
				if !present || err != nil || string(value) != string(numbered(step)) {
					t.Errorf("step %d: %x, %v", step, value, err)
				}
				if _, err := pass.Prove(key); err != nil {
					t.Error(err)
				}
			}
		}
	}
	together(work(0), work(1), work(2))
}

// A migration of many pairs has the turn so long that others find it taken.
func TestBusyIsToldByATryAndOutwaitedByTheOthers(t *testing.T) {
	passes := open(t, mst.Format1, 65_535, 2)
	var batch mst.Batch
	for at := 0; at < 20_000; at++ {
		batch.Put(numbered(at), numbered(at))
	}
	if err := passes[0].Apply(&batch); err != nil {
		t.Fatal(err)
	}
	tries := map[string]func() error{
		"TryPut":     func() error { _, _, err := passes[1].TryPut([]byte("key"), nil); return err },
		"TryRemove":  func() error { _, _, err := passes[1].TryRemove([]byte("key")); return err },
		"TryApply":   func() error { return passes[1].TryApply(new(mst.Batch)) },
		"TryMigrate": func() error { _, err := passes[1].TryMigrate(3 - mst.Format1); return err },
		"Rows":       func() error { _, err := passes[1].Rows(); return err },
	}
	for name, try := range tries {
		expectBusy(t, name, passes, try)
	}
}

// expectBusy makes migrations in one goroutine until a try in another is told that it is busy; then
// a Put of the other outwaits them.
func expectBusy(t *testing.T, name string, passes []*mst.Pass, try func() error) {
	isBusy, ended := make(chan struct{}), make(chan struct{})
	go func() {
		defer close(ended)
		for step := 0; ; step++ {
			select {
			case <-isBusy:
				return
			default:
			}
			if _, err := passes[0].Migrate(mst.Format(1 + step%2)); err != nil {
				t.Error(err)
			}
		}
	}()
	deadline := time.Now().Add(time.Minute)
	for err := error(nil); !errors.Is(err, mst.ErrBusy); err = try() {
		if err != nil {
			t.Errorf("%s: %v", name, err)
		}
		if time.Now().After(deadline) {
			t.Errorf("%s is never busy", name)
			break
		}
		runtime.Gosched()
	}
	close(isBusy)
	if _, _, err := passes[1].Put([]byte("key"), nil); err != nil {
		t.Errorf("a Put after %s: %v", name, err)
	}
	<-ended
}
