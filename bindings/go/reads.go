package mst

// #include "mst_store.h"
import "C"

import "bytes"

// Reads are the reads that a Pass and a Pinned have: of the current version, or of the pinned one.
// They wait for no other pass. After a close the error is ErrClosed, and so it is by a Pinned after
// its pin.
type Reads struct {
	of *seat
	// The number of the pin, 0 for a pass.
	pin uint64
}

// take gets the seat for a call, which then gives it back.
func (r *Reads) take() (*seat, error) {
	if r.of == nil {
		return nil, ErrClosed
	}
	r.of.mutex.Lock()
	if r.pin != 0 && (!r.of.isPinned || r.of.pins != r.pin) {
		r.of.mutex.Unlock()
		return nil, ErrClosed
	}
	return r.of, nil
}

func (s *seat) giveBack() {
	s.mutex.Unlock()
}

// Get returns the value of the key, if the key is present. The error may also be ErrBadKey.
func (r *Reads) Get(key []byte) (value []byte, present bool, err error) {
	s, err := r.take()
	if err != nil {
		return nil, false, err
	}
	defer s.giveBack()
	return s.value(C.mst_get(&s.hand, at(key), size(key), at(s.room[:]), size(s.room[:])))
}

// Next returns the pair of the least key above after, or of the least key of all if after is empty,
// if there is such a pair. The error may also be ErrBadKey.
func (r *Reads) Next(after []byte) (pair Pair, found bool, err error) {
	s, err := r.take()
	if err != nil {
		return Pair{}, false, err
	}
	defer s.giveBack()
	var length C.size_t
	value, found, err := s.value(C.mst_next(&s.hand, at(after), size(after), at(s.keyRoom[:]),
		size(s.keyRoom[:]), &length, at(s.room[:]), size(s.room[:])))
	if !found {
		return Pair{}, false, err
	}
	return Pair{copied(s.keyRoom[:length]), value}, true, nil
}

// Range returns the first pairs, at most limit, whose keys are at least from and below to, by
// rising keys and all of one version. An empty bound does not bind, and neither does a limit below
// 0. The error may also be ErrBadKey or ErrMemory.
func (r *Reads) Range(from, to []byte, limit int) ([]Pair, error) {
	s, err := r.take()
	if err != nil {
		return nil, err
	}
	defer s.giveBack()
	return s.pairs(func(room []byte, count, length *C.size_t) C.int32_t {
		return C.mst_range(&s.hand, at(from), size(from), at(to), size(to), word(limit),
			at(room), size(room), count, length)
	})
}

// PageAfter is as Range, of the keys that are above after: the page behind a pair that was the last
// of the page before. Behind an empty key are all pairs. The pages of a Pinned are of one version;
// those of a Pass are not, if another pass writes between them.
func (r *Reads) PageAfter(after, to []byte, limit int) ([]Pair, error) {
	s, err := r.take()
	if err != nil {
		return nil, err
	}
	defer s.giveBack()
	return s.pairs(func(room []byte, count, length *C.size_t) C.int32_t {
		return C.mst_page_after(&s.hand, at(after), size(after), at(to), size(to), word(limit),
			at(room), size(room), count, length)
	})
}

// Items returns an iterator over the pairs whose keys are at least from and below to, by rising
// keys, for a loop, which reads them in pages of at most 64. An empty bound does not bind. Those of
// a Pinned are of one version; those of a Pass are not, if another pass writes between two pages.
// Each loop begins anew, takes memory for one page, and may end at any pair. If Range returns an
// error for a page, that is the last that a loop is given, with an empty Pair.
//
//	for pair, err := range then.Items(nil, nil) { // from Go 1.23 on
//		if err != nil {
//			return err
//		}
//		use(pair.Key, pair.Value)
//	}
//
// Before Go 1.23, call it with the body of the loop, which returns whether to go on:
//
//	then.Items(nil, nil)(func(pair mst.Pair, err error) bool {
//		..
//	})
func (r *Reads) Items(from, to []byte) func(yield func(Pair, error) bool) {
	return itemsOf(r.Range, from, to)
}

// pageMost is the most pairs of a page of Items.
const pageMost = 64

// itemsOf is an iterator over what a range finds. No lock is held while a loop has a pair.
func itemsOf(
	list func(from, to []byte, limit int) ([]Pair, error), from, to []byte,
) func(yield func(Pair, error) bool) {
	from, to = copied(from), copied(to)
	return func(yield func(Pair, error) bool) {
		low, isFirst := from, true
		for {
			page, err := list(low, to, pageMost)
			if err != nil {
				yield(Pair{}, err)
				return
			}
			isLast := len(page) < pageMost
			// A page begins with the last pair of the one before, if it is still there.
			if !isFirst && len(page) > 0 && bytes.Equal(page[0].Key, low) {
				page = page[1:]
			}
			if !isLast {
				low, isFirst = copied(page[len(page)-1].Key), false
			}
			for _, pair := range page {
				if !yield(pair, nil) {
					return
				}
			}
			if isLast {
				return
			}
		}
	}
}

// pairs are those that a call finds.
func (s *seat) pairs(find func(room []byte, count, length *C.size_t) C.int32_t) ([]Pair, error) {
	var count C.size_t
	listing, err := s.longest(func(room []byte, length *C.size_t) C.int32_t {
		return find(room, &count, length)
	})
	if err != nil {
		return nil, err
	}
	return pairsIn(copied(listing), int(count)), nil
}

// pairsIn are the pairs of a listing, which they have parts of.
func pairsIn(listing []byte, count int) []Pair {
	pairs := make([]Pair, count)
	take := func(length int) []byte {
		part := listing[:length:length]
		listing = listing[length:]
		return part
	}
	for place := range pairs {
		lengths := take(4)
		key := take(int(lengths[0])<<8 | int(lengths[1]))
		pairs[place] = Pair{key, take(int(lengths[2])<<8 | int(lengths[3]))}
	}
	return pairs
}

// Root returns the root digest, in the format of the version.
func (r *Reads) Root() (root Root, err error) {
	s, err := r.take()
	if err != nil {
		return Root{}, err
	}
	defer s.giveBack()
	if told := C.mst_root(&s.hand, at(root[:]), size(root[:])); told < 0 {
		return Root{}, refusal(told)
	}
	return root, nil
}

// Prove returns the proof of the key's answer, which a verifier judges by the format and the root
// digest of the same version: those that a Pinned tells. The error may also be ErrBadKey or
// ErrMemory.
func (r *Reads) Prove(key []byte) (proof []byte, err error) {
	s, err := r.take()
	if err != nil {
		return nil, err
	}
	defer s.giveBack()
	made, err := s.longest(func(room []byte, length *C.size_t) C.int32_t {
		return C.mst_prove(&s.hand, at(key), size(key), at(room), size(room), length)
	})
	if err != nil {
		return nil, err
	}
	return copied(made), nil
}

// Version returns the number of the version: how many writes and migrations there were before it.
// Sent with a message, it, or that of Made, is all that read-your-writes over threads needs: a pass
// that is not pinned, and has here at least the number that it was sent, has seen, in this call and
// in each later one, all that the sender had written and read.
func (r *Reads) Version() (version uint64, err error) {
	s, err := r.take()
	if err != nil {
		return 0, err
	}
	defer s.giveBack()
	var number C.uint64_t
	if told := C.mst_version(&s.hand, &number); told != C.MST_OK {
		return 0, refusal(told)
	}
	return uint64(number), nil
}

// Len returns how many pairs the version has. It counts them anew each time, by the nodes of the
// tree.
func (r *Reads) Len() (uint64, error) {
	s, err := r.take()
	if err != nil {
		return 0, err
	}
	defer s.giveBack()
	var count C.uint64_t
	if told := C.mst_len(&s.hand, &count); told != C.MST_OK {
		return 0, refusal(told)
	}
	return uint64(count), nil
}

// Format returns the format of the version, in which its root digest and its proofs are.
func (r *Reads) Format() (Format, error) {
	s, err := r.take()
	if err != nil {
		return 0, err
	}
	defer s.giveBack()
	return formatOf(C.mst_format(&s.hand))
}

func formatOf(told C.int32_t) (Format, error) {
	if told < 0 {
		return 0, refusal(told)
	}
	return Format(told), nil
}
