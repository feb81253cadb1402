package mst

// #include "mst_store.h"
import "C"

import (
	"runtime"
	"time"
)

// Pass is a pass of a store, from Open. While it pins a version, its reads are of that version and
// its writes are refused with ErrWrongState.
type Pass struct {
	Reads
}

// Pinned is a pass while it pins a version: all its reads are of that version, which keeps its
// rows.
type Pinned struct {
	Reads
}

// Close closes the pass, and ends its pin if it has one. The store is freed with its last pass. A
// second close returns ErrClosed and has no other effect. The runtime closes a pass that nothing
// refers to any more, at some time.
func (p *Pass) Close() error {
	s, err := p.take()
	if err != nil {
		return err
	}
	defer s.giveBack()
	s.isPinned = false
	if told := C.mst_close(&s.hand); told != C.MST_OK {
		return refusal(told)
	}
	runtime.SetFinalizer(s, nil)
	return nil
}

// Pin pins the current version: until Unpin all reads by the pass and by the result are of it. The
// error is ErrClosed, or ErrWrongState if the pass pins already.
func (p *Pass) Pin() (*Pinned, error) {
	s, err := p.take()
	if err != nil {
		return nil, err
	}
	defer s.giveBack()
	if told := C.mst_pin(&s.hand); told != C.MST_OK {
		return nil, refusal(told)
	}
	s.pins, s.isPinned = s.pins+1, true
	pinned := &Pinned{Reads{of: s, pin: s.pins}}
	runtime.SetFinalizer(pinned, (*Pinned).Unpin)
	return pinned, nil
}

// Unpin ends the pin. It has no effect if the pin has ended before, by an Unpin or with its pass.
// The runtime ends the pin of a Pinned that nothing refers to any more, at some time.
func (p *Pinned) Unpin() {
	s, err := p.take()
	if err != nil {
		return
	}
	defer s.giveBack()
	s.isPinned = false
	C.mst_unpin(&s.hand)
	runtime.SetFinalizer(p, nil)
}

// Rows returns how many rows the current version takes. The error is ErrClosed, ErrWrongState,
// ErrBusy, or ErrRowsPinned.
func (p *Pass) Rows() (int, error) {
	s, err := p.take()
	if err != nil {
		return 0, err
	}
	defer s.giveBack()
	var rows C.uint32_t
	if told := C.mst_rows(&s.hand, &rows); told != C.MST_OK {
		return 0, refusal(told)
	}
	return int(rows), nil
}

// FreeRows returns how many rows are free to the next write, also while versions are pinned. The
// error is ErrClosed, ErrWrongState, or ErrBusy.
func (p *Pass) FreeRows() (int, error) {
	s, err := p.take()
	if err != nil {
		return 0, err
	}
	defer s.giveBack()
	var rows C.uint32_t
	if told := C.mst_free_rows(&s.hand, &rows); told != C.MST_OK {
		return 0, refusal(told)
	}
	return int(rows), nil
}

// PinnedVersions returns the versions that are pinned, in rising order, each once. The current one
// is among them only if it is pinned. The error is ErrClosed, ErrWrongState, or ErrBusy.
func (p *Pass) PinnedVersions() ([]uint64, error) {
	s, err := p.take()
	if err != nil {
		return nil, err
	}
	defer s.giveBack()
	var room [PassesMost]C.uint64_t
	var count C.size_t
	if told := C.mst_pinned_versions(&s.hand, &room[0], PassesMost, &count); told != C.MST_OK {
		return nil, refusal(told)
	}
	versions := make([]uint64, count)
	for i := range versions {
		versions[i] = uint64(room[i])
	}
	return versions, nil
}

// Made returns the version that the last write of this pass made, whatever other passes wrote
// since, and whether it has made one. The error is ErrClosed.
func (p *Pass) Made() (version uint64, present bool, err error) {
	s, err := p.take()
	if err != nil {
		return 0, false, err
	}
	defer s.giveBack()
	var made C.uint64_t
	switch told := C.mst_made(&s.hand, &made); told {
	case C.MST_OK:
		return uint64(made), true, nil
	case C.MST_ABSENT:
		return 0, false, nil
	default:
		return 0, false, refusal(told)
	}
}

// TryPut gives the key the value, if no other pass has the turn. It returns the value that the key
// had before, if it was present. The error is ErrClosed, ErrBadKey, ErrBadValue, ErrWrongState,
// ErrBusy, ErrVersionsSpent, or ErrNoFreeRows.
func (p *Pass) TryPut(key, value []byte) (old []byte, present bool, err error) {
	return p.old(func(s *seat) C.int32_t {
		return C.mst_try_put(&s.hand, at(key), size(key), at(value), size(value),
			at(s.room[:]), size(s.room[:]))
	})
}

// Put is as TryPut, but waits for the turn.
func (p *Pass) Put(key, value []byte) (old []byte, present bool, err error) {
	return p.old(func(s *seat) C.int32_t {
		return C.mst_put(&s.hand, at(key), size(key), at(value), size(value),
			at(s.room[:]), size(s.room[:]))
	})
}

// PutWithin is as Put, but waits for no longer than this, in whole microseconds: then the error is
// ErrBusy, and nothing is written. It tries at least once, and with less than a microsecond exactly
// once, as TryPut does. A goroutine that has this pass in another call is waited for all the same.
func (p *Pass) PutWithin(key, value []byte, longest time.Duration) (
	old []byte, present bool, err error,
) {
	return p.old(func(s *seat) C.int32_t {
		return C.mst_put_within(&s.hand, at(key), size(key), at(value), size(value),
			at(s.room[:]), size(s.room[:]), microseconds(longest))
	})
}

// TryRemove takes the key out, if no other pass has the turn. It returns the value that the key had
// before, if it was present. The error is that of TryPut, but for ErrBadValue.
func (p *Pass) TryRemove(key []byte) (old []byte, present bool, err error) {
	return p.old(func(s *seat) C.int32_t {
		return C.mst_try_remove(&s.hand, at(key), size(key), at(s.room[:]), size(s.room[:]))
	})
}

// Remove is as TryRemove, but waits for the turn.
func (p *Pass) Remove(key []byte) (old []byte, present bool, err error) {
	return p.old(func(s *seat) C.int32_t {
		return C.mst_remove(&s.hand, at(key), size(key), at(s.room[:]), size(s.room[:]))
	})
}

// RemoveWithin is as Remove, but waits for no longer than this, as PutWithin does.
func (p *Pass) RemoveWithin(key []byte, longest time.Duration) (
	old []byte, present bool, err error,
) {
	return p.old(func(s *seat) C.int32_t {
		return C.mst_remove_within(&s.hand, at(key), size(key), at(s.room[:]), size(s.room[:]),
			microseconds(longest))
	})
}

// old makes a write, and returns the value that the key had before.
func (p *Pass) old(write func(s *seat) C.int32_t) (old []byte, present bool, err error) {
	s, err := p.take()
	if err != nil {
		return nil, false, err
	}
	defer s.giveBack()
	return s.value(write(s))
}

// TryApply makes the edits of the batch as one version, if no other pass has the turn: each read
// sees all of them or none. No edits make a version too. The error is ErrClosed, an *EditError,
// ErrWrongState, ErrBusy, ErrVersionsSpent, ErrMemory, or ErrNoFreeRows.
func (p *Pass) TryApply(batch *Batch) error {
	s, err := p.take()
	if err != nil {
		return err
	}
	defer s.giveBack()
	var place C.size_t
	told := C.mst_try_apply(&s.hand, at(batch.packed), size(batch.packed), &place)
	return refusalOfBatch(told, place)
}

// Apply is as TryApply, but waits for the turn.
func (p *Pass) Apply(batch *Batch) error {
	s, err := p.take()
	if err != nil {
		return err
	}
	defer s.giveBack()
	var place C.size_t
	told := C.mst_apply(&s.hand, at(batch.packed), size(batch.packed), &place)
	return refusalOfBatch(told, place)
}

// ApplyWithin is as Apply, but waits for no longer than this, as PutWithin does.
func (p *Pass) ApplyWithin(batch *Batch, longest time.Duration) error {
	s, err := p.take()
	if err != nil {
		return err
	}
	defer s.giveBack()
	var place C.size_t
	told := C.mst_apply_within(&s.hand, at(batch.packed), size(batch.packed), &place,
		microseconds(longest))
	return refusalOfBatch(told, place)
}

// TryMigrate turns the tree of the map to a format, if no other pass has the turn, and returns the
// format before. The map stays, and so do the pinned versions, each in its format. The error is
// ErrClosed, ErrUnknownFormat, ErrWrongState, ErrBusy, ErrVersionsSpent, ErrMemory, or
// ErrNoFreeRows.
func (p *Pass) TryMigrate(to Format) (was Format, err error) {
	s, err := p.take()
	if err != nil {
		return 0, err
	}
	defer s.giveBack()
	return formatOf(C.mst_try_migrate(&s.hand, C.uint32_t(to)))
}

// Migrate is as TryMigrate, but waits for the turn.
func (p *Pass) Migrate(to Format) (was Format, err error) {
	s, err := p.take()
	if err != nil {
		return 0, err
	}
	defer s.giveBack()
	return formatOf(C.mst_migrate(&s.hand, C.uint32_t(to)))
}

// MigrateWithin is as Migrate, but waits for no longer than this, as PutWithin does.
func (p *Pass) MigrateWithin(to Format, longest time.Duration) (was Format, err error) {
	s, err := p.take()
	if err != nil {
		return 0, err
	}
	defer s.giveBack()
	return formatOf(C.mst_migrate_within(&s.hand, C.uint32_t(to), microseconds(longest)))
}
