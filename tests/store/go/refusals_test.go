package store

import (
	"bytes"
	"errors"
	"fmt"
	"regexp"
	"runtime"
	"testing"
	"time"

	"mst"
)

// expect sees that an error is the wanted one, as errors.Is finds it.
func expect(t *testing.T, what string, err, wanted error) {
	t.Helper()
	if !errors.Is(err, wanted) || (err == nil) != (wanted == nil) {
		t.Errorf("%s: %v, and not %v", what, err, wanted)
	}
}

func get(from *mst.Pass, key []byte) error {
	_, _, err := from.Get(key)
	return err
}

func put(to *mst.Pass, key, value []byte) error {
	_, _, err := to.Put(key, value)
	return err
}

func TestKeysAndValues(t *testing.T) {
	pass := one(t, 1000)
	for _, length := range []int{0, 33, 5000, 1 << 17} {
		key := make([]byte, length)
		expect(t, "Get", get(pass, key), mst.ErrBadKey)
		expect(t, "Put", put(pass, key, nil), mst.ErrBadKey)
		_, _, err := pass.Remove(key)
		expect(t, "Remove", err, mst.ErrBadKey)
		_, err = pass.Prove(key)
		expect(t, "Prove", err, mst.ErrBadKey)
	}
	_, _, err := pass.Next(make([]byte, 33))
	expect(t, "Next", err, mst.ErrBadKey)
	_, err = pass.Range(make([]byte, 33), nil, -1)
	expect(t, "Range from", err, mst.ErrBadKey)
	_, err = pass.Range(nil, make([]byte, 33), -1)
	expect(t, "Range to", err, mst.ErrBadKey)
	_, err = pass.PageAfter(make([]byte, 33), nil, -1)
	expect(t, "PageAfter", err, mst.ErrBadKey)
	_, err = pass.PageAfter(nil, make([]byte, 33), -1)
	expect(t, "PageAfter to", err, mst.ErrBadKey)
	expect(t, "Put", put(pass, []byte("key"), make([]byte, 65)), mst.ErrBadValue)
	expect(t, "Put", put(pass, make([]byte, 32), make([]byte, 64)), nil)
	expect(t, "Put", put(pass, []byte("k\x00y"), []byte("\x00v\x00")), nil)
	if value, present, err := pass.Get([]byte("k\x00y")); string(value) != "\x00v\x00" {
		t.Errorf("%x, %v, %v", value, present, err)
	}
	if version, err := pass.Version(); version != 2 || err != nil {
		t.Errorf("version %d, %v", version, err)
	}
}

func TestEdits(t *testing.T) {
	pass := one(t, 1000)
	add := map[error][]func(*mst.Batch){
		mst.ErrBadKey: {
			func(b *mst.Batch) { b.Put(nil, nil) },
			func(b *mst.Batch) { b.Remove(nil) },
			func(b *mst.Batch) { b.Put(make([]byte, 33), make([]byte, 65)) },
			func(b *mst.Batch) { b.Remove(make([]byte, 70_000)) },
			func(b *mst.Batch) { b.Remove(make([]byte, 1<<16)) },
		},
		mst.ErrBadValue: {
			func(b *mst.Batch) { b.Put([]byte("key"), make([]byte, 65)) },
			func(b *mst.Batch) { b.Put([]byte("key"), make([]byte, 70_000)) },
		},
	}
	for wanted, edits := range add {
		for at, edit := range edits {
			var batch mst.Batch
			for place := 0; place < at; place++ {
				batch.Put([]byte("key"), []byte("value"))
			}
			edit(&batch)
			edit(batch.Put([]byte("key"), nil))
			err := pass.Apply(&batch)
			var refused *mst.EditError
			if !errors.As(err, &refused) || refused.Place != at || !errors.Is(err, wanted) {
				t.Errorf("edit %d: %v, and not %v", at, err, wanted)
			}
		}
	}
	if version, err := pass.Version(); version != 0 || err != nil {
		t.Errorf("version %d, %v", version, err)
	}
	expect(t, "an empty batch", pass.Apply(new(mst.Batch)), nil)
}

func TestTheLibrarySaysItsVersion(t *testing.T) {
	version := mst.LibraryVersion()
	if isNumbered, err := regexp.MatchString(`^\d+\.\d+\.\d+(-dev)?$`, version); !isNumbered {
		t.Errorf("%s, %v", version, err)
	}
}

func TestShapesAndFormats(t *testing.T) {
	for _, it := range [][2]int{
		{3, 1}, {65_536, 1}, {1000, 0}, {1000, 33}, {1000, -1}, {-1, 1}, {1<<32 + 4, 1}, {1000, 1 << 40},
	} {
		_, err := mst.Open(mst.Options{Rows: it[0], Passes: it[1]})
		expect(t, "Open", err, mst.ErrBadShape)
	}
	_, err := mst.Open(mst.Options{})
	expect(t, "Open", err, mst.ErrBadShape)
	pass := one(t, 1000)
	for _, format := range []mst.Format{3, 1 << 31} {
		_, err := mst.Open(mst.Options{Rows: 1000, Passes: 1, Format: format})
		expect(t, "Open", err, mst.ErrUnknownFormat)
		_, err = pass.Migrate(format)
		expect(t, "Migrate", err, mst.ErrUnknownFormat)
	}
	_, err = pass.Migrate(0)
	expect(t, "Migrate", err, mst.ErrUnknownFormat)
}

func TestTheFormatOfOptions(t *testing.T) {
	for format, wanted := range map[mst.Format]mst.Format{
		0: mst.Format1, mst.Format1: mst.Format1, mst.Format2: mst.Format2,
	} {
		told, err := open(t, format, 4, 1)[0].Format()
		if err != nil || told != wanted {
			t.Fatal(format, told, err)
		}
		options := mst.ShardedOptions{Rows: 4, Readers: 1, Format: format}
		_, readers, err := mst.OpenSharded(options)
		if err != nil {
			t.Fatal(err)
		}
		told, err = snapshotOf(t, readers[0]).Format()
		if err != nil || told != wanted {
			t.Fatal(format, told, err)
		}
	}
}

func TestAPinnedPassNeitherWritesNorPins(t *testing.T) {
	pass := one(t, 1000)
	pinned, err := pass.Pin()
	expect(t, "Pin", err, nil)
	expect(t, "Put", put(pass, []byte("key"), nil), mst.ErrWrongState)
	_, _, err = pass.Remove([]byte("key"))
	expect(t, "Remove", err, mst.ErrWrongState)
	expect(t, "Apply", pass.Apply(new(mst.Batch)), mst.ErrWrongState)
	_, err = pass.Migrate(mst.Format2)
	expect(t, "Migrate", err, mst.ErrWrongState)
	_, err = pass.Rows()
	expect(t, "Rows", err, mst.ErrWrongState)
	_, err = pass.Pin()
	expect(t, "Pin", err, mst.ErrWrongState)
	pinned.Unpin()
	expect(t, "Put", put(pass, []byte("key"), nil), nil)
}

func TestAnOldPinHasNoPartInALaterOne(t *testing.T) {
	passes := open(t, mst.Format1, 1000, 2)
	first, err := passes[0].Pin()
	expect(t, "Pin", err, nil)
	first.Unpin()
	_, _, err = first.Get([]byte("key"))
	expect(t, "Get", err, mst.ErrClosed)
	second, err := passes[0].Pin()
	expect(t, "Pin", err, nil)
	first.Unpin()
	expect(t, "Put", put(passes[1], []byte("key"), nil), nil)
	if _, present, err := second.Get([]byte("key")); present || err != nil {
		t.Errorf("%v, %v", present, err)
	}
	_, _, err = first.Get([]byte("key"))
	expect(t, "Get", err, mst.ErrClosed)
	_, err = passes[1].Rows()
	expect(t, "Rows", err, mst.ErrRowsPinned)
	expect(t, "Close", passes[0].Close(), nil)
	_, _, err = second.Get([]byte("key"))
	expect(t, "Get", err, mst.ErrClosed)
	second.Unpin()
	if rows, err := passes[1].Rows(); rows != 2 || err != nil {
		t.Errorf("%d rows, %v", rows, err)
	}
}

func TestRows(t *testing.T) {
	pass := one(t, 8)
	err := error(nil)
	for at := 0; at < 20 && err == nil; at++ {
		err = put(pass, []byte{byte(at)}, nil)
	}
	expect(t, "Put", err, mst.ErrNoFreeRows)
	var batch mst.Batch
	for at := 0; at < 20; at++ {
		batch.Put([]byte{byte(at)}, nil)
	}
	expect(t, "Apply", pass.Apply(&batch), mst.ErrNoFreeRows)
	_, err = pass.Migrate(mst.Format2)
	expect(t, "Migrate", err, mst.ErrNoFreeRows)
	rows, err := pass.Rows()
	if rows > 8 || err != nil {
		t.Errorf("%d rows, %v", rows, err)
	}
	if free, err := pass.FreeRows(); free != 8-rows || err != nil {
		t.Errorf("%d of 8 rows are free, %v", free, err)
	}
}

func TestPinnedVersions(t *testing.T) {
	passes := open(t, mst.Format1, 32, 3)
	lists := func(wanted ...uint64) {
		t.Helper()
		versions, err := passes[0].PinnedVersions()
		if fmt.Sprint(versions) != fmt.Sprint(wanted) || err != nil {
			t.Errorf("pinned versions %v, and not %v, %v", versions, wanted, err)
		}
	}
	lists()
	expect(t, "Put", put(passes[0], []byte("key"), nil), nil)
	older, err := passes[1].Pin()
	expect(t, "Pin", err, nil)
	lists(1)
	expect(t, "Put", put(passes[0], []byte("key"), nil), nil)
	newest, err := passes[2].Pin()
	expect(t, "Pin", err, nil)
	lists(1, 2)
	_, err = passes[1].PinnedVersions()
	expect(t, "PinnedVersions", err, mst.ErrWrongState)
	older.Unpin()
	lists(2)
	newest.Unpin()
	lists()
	expect(t, "Close", passes[0].Close(), nil)
	_, err = passes[0].PinnedVersions()
	expect(t, "PinnedVersions", err, mst.ErrClosed)
}

func TestMade(t *testing.T) {
	passes := open(t, mst.Format1, 32, 2)
	if _, made, err := passes[0].Made(); made || err != nil {
		t.Errorf("a version is made, %v", err)
	}
	for _, pass := range passes {
		expect(t, "Put", put(pass, []byte("key"), nil), nil)
	}
	for at, pass := range passes {
		if version, made, err := pass.Made(); version != uint64(at+1) || !made || err != nil {
			t.Errorf("pass %d made version %d, %v", at, version, err)
		}
	}
}

func TestClosed(t *testing.T) {
	pass, none := one(t, 1000), new(mst.Pass)
	expect(t, "Close", pass.Close(), nil)
	for _, it := range []*mst.Pass{pass, none} {
		expect(t, "Close", it.Close(), mst.ErrClosed)
		expect(t, "Get", get(it, []byte("key")), mst.ErrClosed)
		expect(t, "Put", put(it, []byte("key"), nil), mst.ErrClosed)
		expect(t, "Apply", it.Apply(new(mst.Batch)), mst.ErrClosed)
		for name, call := range map[string]func() error{
			"Next":    func() error { _, _, err := it.Next(nil); return err },
			"Range":   func() error { _, err := it.Range(nil, nil, -1); return err },
			"Page":    func() error { _, err := it.PageAfter(nil, nil, -1); return err },
			"Root":    func() error { _, err := it.Root(); return err },
			"Prove":   func() error { _, err := it.Prove([]byte("key")); return err },
			"Version": func() error { _, err := it.Version(); return err },
			"Len":     func() error { _, err := it.Len(); return err },
			"Format":  func() error { _, err := it.Format(); return err },
			"Rows":    func() error { _, err := it.Rows(); return err },
			"Remove":  func() error { _, _, err := it.Remove([]byte("key")); return err },
			"Migrate": func() error { _, err := it.Migrate(mst.Format2); return err },
			"Pin":     func() error { _, err := it.Pin(); return err },
		} {
			expect(t, name, call(), mst.ErrClosed)
		}
	}
}

// What nothing refers to any more is closed by the runtime.
func TestTheRuntimeClosesWhatIsForgotten(t *testing.T) {
	passes, err := mst.Open(mst.Options{Rows: 65_535, Passes: 2})
	expect(t, "Open", err, nil)
	kept := passes[0]
	_, err = passes[1].Pin()
	expect(t, "Pin", err, nil)
	_, err = kept.Rows()
	expect(t, "Rows", err, mst.ErrRowsPinned)
	passes = nil
	for deadline := time.Now().Add(time.Minute); ; time.Sleep(time.Millisecond) {
		runtime.GC()
		if _, err = kept.Rows(); err == nil {
			break
		}
		if time.Now().After(deadline) {
			t.Fatal("the pin stays")
		}
	}
	expect(t, "Put", put(kept, []byte("key"), bytes.Repeat([]byte("x"), 64)), nil)
	expect(t, "Close", kept.Close(), nil)
}
