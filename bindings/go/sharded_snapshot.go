package mst

// #include "mst_store.h"
import "C"

import "runtime"

// ShardedSnapshot is a reader while it has a snapshot of exactly one block, unless SHA-256
// collides: all its reads are of this block. After Release the error of a read is ErrClosed.
type ShardedSnapshot struct {
	by     *ShardedReader
	number uint64
}

// take gets the hand for a call, which then gives it back.
func (s *ShardedSnapshot) take() (*member, error) {
	s.by.of.mutex.Lock()
	if !s.by.isPinned || s.by.snapshots != s.number {
		s.by.of.mutex.Unlock()
		return nil, ErrClosed
	}
	return &s.by.of, nil
}

// Shards returns how many shards there are. The error is ErrClosed.
func (s *ShardedSnapshot) Shards() (int, error) {
	m, err := s.take()
	if err != nil {
		return 0, err
	}
	defer m.mutex.Unlock()
	return m.shards()
}

// Number returns the number of the block: how many blocks led to this map. The error is ErrClosed.
func (s *ShardedSnapshot) Number() (uint64, error) {
	m, err := s.take()
	if err != nil {
		return 0, err
	}
	defer m.mutex.Unlock()
	return m.number()
}

// Root returns the root digest of all shards. It depends on their pairs, their format and the
// splits alone. The error is ErrClosed.
func (s *ShardedSnapshot) Root() (root Root, err error) {
	m, err := s.take()
	if err != nil {
		return root, err
	}
	defer m.mutex.Unlock()
	return m.root()
}

// Len returns how many pairs all shards have together. It counts them anew each time, by the nodes
// of their trees. The error is ErrClosed.
func (s *ShardedSnapshot) Len() (uint64, error) {
	m, err := s.take()
	if err != nil {
		return 0, err
	}
	defer m.mutex.Unlock()
	var count C.uint64_t
	if told := C.mst_sharded_len(&m.hand, &count); told != C.MST_OK {
		return 0, refusal(told)
	}
	return uint64(count), nil
}

// Format returns the format of the map, in which the root digest and the proofs are. The error is
// ErrClosed.
func (s *ShardedSnapshot) Format() (Format, error) {
	m, err := s.take()
	if err != nil {
		return 0, err
	}
	defer m.mutex.Unlock()
	return formatOf(C.mst_sharded_format(&m.hand))
}

// Get returns the value of the key, if the key is present. The error is ErrClosed or ErrBadKey.
func (s *ShardedSnapshot) Get(key []byte) (value []byte, present bool, err error) {
	m, err := s.take()
	if err != nil {
		return nil, false, err
	}
	defer m.mutex.Unlock()
	return m.get(key)
}

// Next returns the pair of the least key above after, or of the least key of all if after is empty,
// if there is such a pair. The error is ErrClosed or ErrBadKey.
func (s *ShardedSnapshot) Next(after []byte) (pair Pair, found bool, err error) {
	m, err := s.take()
	if err != nil {
		return Pair{}, false, err
	}
	defer m.mutex.Unlock()
	var length C.size_t
	value, found, err := m.value(C.mst_sharded_next(&m.hand, at(after), size(after),
		at(m.keyRoom[:]), size(m.keyRoom[:]), &length, at(m.room[:]), size(m.room[:])))
	if !found {
		return Pair{}, false, err
	}
	return Pair{copied(m.keyRoom[:length]), value}, true, nil
}

// Range returns the first pairs, at most limit, whose keys are at least from and below to, by
// rising keys. An empty bound does not bind, and neither does a limit below 0. The error is
// ErrClosed, ErrBadKey, or ErrMemory.
func (s *ShardedSnapshot) Range(from, to []byte, limit int) ([]Pair, error) {
	m, err := s.take()
	if err != nil {
		return nil, err
	}
	defer m.mutex.Unlock()
	var count C.size_t
	listing, err := m.longest(func(room []byte, length *C.size_t) C.int32_t {
		return C.mst_sharded_range(&m.hand, at(from), size(from), at(to), size(to), word(limit),
			at(room), size(room), &count, length)
	})
	if err != nil {
		return nil, err
	}
	return pairsIn(listing, int(count)), nil
}

// Items returns an iterator over the pairs whose keys are at least from and below to, by rising
// keys, for a loop, which reads them in pages. It is as that of Reads.
func (s *ShardedSnapshot) Items(from, to []byte) func(yield func(Pair, error) bool) {
	return itemsOf(s.Range, from, to)
}

// Directory returns of each shard its lower bound, with its root digest of 32 bytes and its upper
// bound, which is empty if there is none: the pairs whose root digest is that of the snapshot. The
// error is ErrClosed or ErrMemory.
func (s *ShardedSnapshot) Directory() ([]Pair, error) {
	m, err := s.take()
	if err != nil {
		return nil, err
	}
	defer m.mutex.Unlock()
	var count C.size_t
	listing, err := m.longest(func(room []byte, length *C.size_t) C.int32_t {
		return C.mst_sharded_directory(&m.hand, at(room), size(room), &count, length)
	})
	if err != nil {
		return nil, err
	}
	return pairsIn(listing, int(count)), nil
}

// Prove returns the proof of the key's answer, for a verifier of sharded maps and the format and
// the root digest of this snapshot. The error is ErrClosed, ErrBadKey, or ErrMemory.
func (s *ShardedSnapshot) Prove(key []byte) ([]byte, error) {
	m, err := s.take()
	if err != nil {
		return nil, err
	}
	defer m.mutex.Unlock()
	return m.longest(func(room []byte, length *C.size_t) C.int32_t {
		return C.mst_sharded_prove(&m.hand, at(key), size(key), at(room), size(room), length)
	})
}

// CopyTo puts all pairs, as one block, into another sharded map, by its writer, and returns the
// number of this block. The other map may be of the other format, with other splits, or with more
// rows: so a map is migrated, split anew, or enlarged, while its readers go on. Keys that the other
// map has besides keep their values. Blocks that are made after the snapshot are not copied. After
// an error nothing has changed in any shard. The error is ErrClosed, or a *ShardError as that of
// Apply, with ErrMemory also if there is no memory for the list of all pairs.
func (s *ShardedSnapshot) CopyTo(writer *ShardedWriter) (number uint64, err error) {
	m, err := s.take()
	if err != nil {
		return 0, err
	}
	defer m.mutex.Unlock()
	other, err := writer.take()
	if err != nil {
		return 0, err
	}
	defer other.mutex.Unlock()
	var shard C.size_t
	var made C.uint64_t
	told := C.mst_sharded_copy(&m.hand, &other.hand, &shard, &made)
	return uint64(made), refusalOfBlock(told, 0, shard)
}

// Release ends the pins. It has no effect if they have ended before, by a Release or with the
// reader. The runtime ends the pins of a ShardedSnapshot that nothing refers to any more, at some
// time.
func (s *ShardedSnapshot) Release() {
	m, err := s.take()
	if err != nil {
		return
	}
	defer m.mutex.Unlock()
	s.by.isPinned = false
	C.mst_sharded_release(&m.hand)
	runtime.SetFinalizer(s, nil)
}
