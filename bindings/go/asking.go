package mst

// #include "mst_store.h"
import "C"

import (
	"runtime/cgo"
	"unsafe"
)

// stopped is what a callback returns to end the call. No call of the library does.
const stopped = 1

func walkOf(with unsafe.Pointer) *walk {
	return (*(*cgo.Handle)(with)).Value().(*walk)
}

// keep asks for a piece, and keeps it in C's memory. No panic goes through the library.
func (w *walk) keep(key []byte, number uint32) (length int) {
	defer func() { w.panicked = recover() }()
	piece, err := w.ask(key, number)
	w.err = err
	if err == nil {
		w.piece = C.CBytes(piece)
	}
	return len(piece)
}

//export mstAsk
func mstAsk(
	with unsafe.Pointer, key *C.uint8_t, keyLength C.size_t, number C.uint32_t,
	piece **C.uint8_t, length *C.size_t,
) C.int32_t {
	w := walkOf(with)
	w.free()
	kept := w.keep(C.GoBytes(unsafe.Pointer(key), C.int(keyLength)), uint32(number))
	if w.err != nil || w.panicked != nil {
		return stopped
	}
	*piece, *length = (*C.uint8_t)(w.piece), C.size_t(kept)
	return C.MST_OK
}

//export mstTell
func mstTell(with unsafe.Pointer, it *C.mst_difference) C.int32_t {
	w := walkOf(with)
	w.found = append(w.found, Difference{
		Key:    valueAt(it.key, it.key_length),
		Ours:   valueAt(it.ours, it.ours_length),
		Theirs: valueAt(it.theirs, it.theirs_length),
	})
	return C.MST_OK
}

// valueAt is nil if there is none, and not nil if it is empty.
func valueAt(at *C.uint8_t, length C.size_t) []byte {
	if at == nil {
		return nil
	}
	return C.GoBytes(unsafe.Pointer(at), C.int(length))
}
