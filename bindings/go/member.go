package mst

// #include "mst_store.h"
import "C"

import "sync"

// member holds a hand of a sharded map, and the rooms that its calls write to. A call has its
// mutex.
type member struct {
	mutex   sync.Mutex
	keyRoom [C.MST_KEY_LONGEST]byte
	room    [C.MST_VALUE_LONGEST]byte
	// The room for proofs and ranges, which grows with the longest.
	long []byte
	// It ends with padding, and stands last, as the hand of a pass.
	hand C.mst_handle
}

// close closes the hand.
func (m *member) close() error {
	if told := C.mst_sharded_close(&m.hand); told != C.MST_OK {
		return refusal(told)
	}
	return nil
}

func (m *member) shards() (int, error) {
	told := C.mst_sharded_shards(&m.hand)
	if told < 0 {
		return 0, refusal(told)
	}
	return int(told), nil
}

func (m *member) number() (uint64, error) {
	var number C.uint64_t
	if told := C.mst_sharded_number(&m.hand, &number); told != C.MST_OK {
		return 0, refusal(told)
	}
	return uint64(number), nil
}

func (m *member) root() (root Root, err error) {
	if told := C.mst_sharded_root(&m.hand, at(root[:]), size(root[:])); told < 0 {
		return root, refusal(told)
	}
	return root, nil
}

// value is the value that a call has written to the room, by the number that it returned.
func (m *member) value(told C.int32_t) (value []byte, present bool, err error) {
	switch {
	case told >= 0:
		return copied(m.room[:told]), true, nil
	case told == C.MST_ABSENT:
		return nil, false, nil
	}
	return nil, false, refusal(told)
}

func (m *member) get(key []byte) (value []byte, present bool, err error) {
	return m.value(C.mst_sharded_get(&m.hand, at(key), size(key), at(m.room[:]), size(m.room[:])))
}

// longest calls with the long room until it is long enough, and returns a copy of what then stands
// in the room.
func (m *member) longest(call func(room []byte, length *C.size_t) C.int32_t) ([]byte, error) {
	for {
		var length C.size_t
		told := call(m.long, &length)
		switch told {
		case C.MST_OK:
			return copied(m.long[:length]), nil
		case C.MST_SHORT_ROOM:
			m.long = make([]byte, length)
		default:
			return nil, refusal(told)
		}
	}
}
