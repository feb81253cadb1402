// Package mst is the store for Go, by cgo: an in-memory ordered map of short keys and values with a
// root digest, proofs, and versions that stay readable while they are pinned.
//
//	passes, err := mst.Open(mst.Options{Rows: 1000, Passes: 2})
//	writer, reader := passes[0], passes[1]
//	_, _, err = writer.Put([]byte("apple"), []byte("30"))
//	then, err := reader.Pin()
//	_, _, err = writer.Put([]byte("apple"), []byte("31"))
//	value, present, err := then.Get([]byte("apple")) // 30
//	then.Unpin()
//
// A store is used through its passes alone, one for each goroutine, say: goroutines that share a
// pass wait for each other. By their code reads wait for no other pass (docs/LIMITS.md has how that
// is known). One pass at a time has the turn to write; the calls that begin with Try return ErrBusy
// meanwhile, and the others wait, each in a thread of the system, so that other goroutines run.
// Those that end with Within wait for no longer than a time that they are given.
//
// Keys have 1 to 32 bytes, values 0 to 64. What a call is given it does not keep, and what it
// returns is the caller's own. Each refusal is one of the errors below, as errors.Is finds it;
// after one nothing has changed, but where the call says otherwise. MST_SHORT_ROOM of the library,
// with which a put has been made all the same, is none of them: a call has room for each answer.
//
// The package links bindings/out/libmst_store.a, which `make -C bindings` makes; with the build tag
// mst_installed that of the system, which pkg-config finds as mst_store.
package mst

// #include "mst_store.h"
import "C"

import (
	"runtime"
	"sync"
	"time"
	"unsafe"
)

// Format is a format of trees, root digests and proofs. Its number is what verifiers take.
type Format uint32

// The formats.
const (
	Format1 Format = 1
	Format2 Format = 2
)

// The limits of keys, values and stores. A map takes a row for each of its pairs and nodes.
const (
	KeyLongest   = C.MST_KEY_LONGEST
	ValueLongest = C.MST_VALUE_LONGEST
	RowsLeast    = C.MST_ROWS_LEAST
	RowsMost     = C.MST_ROWS_MOST
	PassesMost   = C.MST_PASSES_MOST
)

// Root is a root digest.
type Root [C.MST_ROOT_LENGTH]byte

// Pair is a key and its value.
type Pair struct {
	Key, Value []byte
}

// seat holds a pass of the library, and the rooms that its calls write to.
type seat struct {
	mutex sync.Mutex
	// How many pins there were, and whether the last one still holds.
	pins     uint64
	isPinned bool
	keyRoom  [C.MST_KEY_LONGEST]byte
	room     [C.MST_VALUE_LONGEST]byte
	// The room for proofs and ranges, which grows with the longest.
	long []byte
	// It ends with padding, and stands last: so no other seat is in the cache lines of this one.
	hand C.mst_pass
}

// Options are the shape and the format of a store. The rows and the passes have to be given.
type Options struct {
	// Rows are 4 to 65,535: a map takes one for each of its pairs and nodes.
	Rows int
	// Passes are 1 to 32.
	Passes int
	// Format is the format in which the store opens; 0 is for Format1.
	Format Format
}

// Open opens a store of the empty map, and returns its passes. The store is freed when all passes
// are closed. The error is ErrUnknownFormat, ErrBadShape, or ErrMemory.
func Open(options Options) ([]*Pass, error) {
	passes := options.Passes
	// 33 passes are as refused as any other number out of the limits.
	if passes < 0 || passes > PassesMost {
		passes = PassesMost + 1
	}
	hands := make([]C.mst_pass, passes+1)
	told := C.mst_open(numbered(options.Format), word(options.Rows), &hands[0], C.size_t(passes))
	if told != C.MST_OK {
		return nil, refusal(told)
	}
	made := make([]*Pass, passes)
	for at := range made {
		// The hand moves: its old place is not used again.
		of := &seat{hand: hands[at]}
		runtime.SetFinalizer(of, (*seat).close)
		made[at] = &Pass{Reads{of: of}}
	}
	return made, nil
}

// LibraryVersion returns the version of the library that is linked.
func LibraryVersion() string {
	return C.GoString(C.mst_library_version())
}

// numbered is the format of options as the library takes it.
func numbered(format Format) C.uint32_t {
	if format == 0 {
		format = Format1
	}
	return C.uint32_t(format)
}

// word is the number as the library takes it. Of a number out of its range it is one that each call
// refuses or takes for no limit.
func word(number int) C.uint32_t {
	if number < 0 || uint64(number) > 0xFFFFFFFF {
		return 0xFFFFFFFF
	}
	return C.uint32_t(number)
}

// microseconds is a time as the library takes it. One below 0 is none.
func microseconds(longest time.Duration) C.uint64_t {
	if longest < 0 {
		return 0
	}
	return C.uint64_t(longest / time.Microsecond)
}

// at is a pointer to the bytes, for a call that gets their length too.
func at(bytes []byte) *C.uint8_t {
	if len(bytes) == 0 {
		return nil
	}
	return (*C.uint8_t)(unsafe.Pointer(&bytes[0]))
}

func size(bytes []byte) C.size_t {
	return C.size_t(len(bytes))
}

func copied(bytes []byte) []byte {
	return append(make([]byte, 0, len(bytes)), bytes...)
}

func (s *seat) close() {
	s.mutex.Lock()
	defer s.mutex.Unlock()
	C.mst_close(&s.hand)
	s.isPinned = false
}

// value is the value that a call has written to the room, by the number that it returned.
func (s *seat) value(told C.int32_t) (value []byte, present bool, err error) {
	switch {
	case told >= 0:
		return copied(s.room[:told]), true, nil
	case told == C.MST_ABSENT:
		return nil, false, nil
	}
	return nil, false, refusal(told)
}

// longest calls with the long room until it is long enough: of a free pass the next call may find
// more. It returns what then stands in the room.
func (s *seat) longest(call func(room []byte, length *C.size_t) C.int32_t) ([]byte, error) {
	for {
		var length C.size_t
		told := call(s.long, &length)
		switch told {
		case C.MST_OK:
			return s.long[:length], nil
		case C.MST_SHORT_ROOM:
			s.long = make([]byte, length)
		default:
			return nil, refusal(told)
		}
	}
}
