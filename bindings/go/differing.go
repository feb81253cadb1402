package mst

/*
#include "mst_store.h"
#include <stdlib.h>

// In asking.go: what Go exports knows no const.
extern int32_t mstAsk(void *, uint8_t *, size_t, uint32_t, uint8_t **, size_t *);
extern int32_t mstTell(void *, mst_difference *);

static int32_t ask(void *with, const uint8_t *key, size_t key_length, uint32_t number,
                   const uint8_t **piece, size_t *length) {
	return mstAsk(with, (uint8_t *)key, key_length, number, (uint8_t **)piece, length);
}

static int32_t tell(void *with, const mst_difference *difference) {
	return mstTell(with, (mst_difference *)difference);
}

// Where the piece begins, since C stores no pointer of Go's.
static int32_t piece_in(const uint8_t *proof, size_t proof_length, uint32_t number, size_t *begin,
                        size_t *length) {
	const uint8_t *piece = proof;
	int32_t told = mst_proof_piece(proof, proof_length, number, &piece, length);
	*begin = (size_t)(piece - proof);
	return told;
}

static int32_t differing(mst_pass *ours, uint8_t *root, void *with) {
	return mst_differing(ours, root, MST_ROOT_LENGTH, ask, tell, with);
}
*/
import "C"

import (
	"runtime/cgo"
	"unsafe"
)

// Difference is a key at which two maps differ, with its two values: nil where the key is absent.
type Difference struct {
	Key, Ours, Theirs []byte
}

// ProofPiece returns a piece of a proof: of number 0 the text of the top node, of 1 that of the
// node below it, and so on; in format 2 there is one more piece behind the texts, in which the
// value stands. It is nil if the proof has no such piece. Nothing is verified.
func ProofPiece(proof []byte, number uint32) []byte {
	var begin, length C.size_t
	told := C.piece_in(at(proof), size(proof), C.uint32_t(number), &begin, &length)
	if told != C.MST_OK {
		return nil
	}
	return copied(proof[begin : begin+length])
}

// walk is what the callbacks of mst_differing work with.
type walk struct {
	ask   func(key []byte, number uint32) ([]byte, error)
	piece unsafe.Pointer // in C's memory, until the next one is asked for
	found []Difference
	// What ends it: an error of ask, or its panic.
	err      error
	panicked interface{}
}

func (w *walk) free() {
	C.free(w.piece)
	w.piece = nil
}

// Differing returns where the map differs from another one of the same format, of which only this
// root digest need be trusted, by rising keys: it goes down both trees, and asks for what differs
// node by node, each once. ask is given a key and a number, and returns what the other map gives by
// ProofPiece of its proof of the key, all of one version. It does not use this pass. The error is
// that of ask, or ErrOtherPiece if a piece is not the one asked for; it may also be ErrMemory.
func (r *Reads) Differing(
	root Root, ask func(key []byte, number uint32) ([]byte, error),
) ([]Difference, error) {
	s, err := r.take()
	if err != nil {
		return nil, err
	}
	defer s.giveBack()
	going := &walk{ask: ask}
	handle := cgo.NewHandle(going)
	defer handle.Delete()
	defer going.free()
	told := C.differing(&s.hand, at(root[:]), unsafe.Pointer(&handle))
	if going.panicked != nil {
		panic(going.panicked)
	}
	if going.err != nil {
		return nil, going.err
	}
	if told != C.MST_OK {
		return nil, refusal(told)
	}
	return going.found, nil
}
