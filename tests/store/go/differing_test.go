package store

import (
	"bytes"
	"encoding/binary"
	"errors"
	"testing"

	"mst"
)

// ofNumbers is a pass of a store with so many numbers of four bytes as keys.
func ofNumbers(t *testing.T, format mst.Format, count uint32) *mst.Pass {
	t.Helper()
	pass := open(t, format, 4000, 1)[0]
	var batch mst.Batch
	for number := uint32(0); number < count; number++ {
		var key [4]byte
		binary.BigEndian.PutUint32(key[:], number)
		batch.Put(key[:], []byte("value"))
	}
	if err := pass.Apply(&batch); err != nil {
		t.Fatal(err)
	}
	return pass
}

// asker answers by the pieces of a pass, and counts them.
func asker(of *mst.Pass, asked *int) func(key []byte, number uint32) ([]byte, error) {
	return func(key []byte, number uint32) ([]byte, error) {
		*asked++
		proof, err := of.Prove(key)
		return mst.ProofPiece(proof, number), err
	}
}

func TestWhereTwoMapsDiffer(t *testing.T) {
	for _, format := range []mst.Format{mst.Format1, mst.Format2} {
		ours, theirs, asked := ofNumbers(t, format, 1000), ofNumbers(t, format, 1000), 0
		var batch mst.Batch
		batch.Put([]byte("a"), nil).Remove([]byte{0, 0, 0, 9}).Put([]byte{0, 0, 1, 9}, []byte("x"))
		if err := theirs.Apply(&batch); err != nil {
			t.Fatal(err)
		}
		root, err := theirs.Root()
		if err != nil {
			t.Fatal(err)
		}
		found, err := ours.Differing(root, asker(theirs, &asked))
		if err != nil || len(found) != 3 || asked == 0 || asked > 40 {
			t.Fatalf("%v, %v, %d", found, err, asked)
		}
		if found[0].Theirs != nil || string(found[0].Ours) != "value" {
			t.Errorf("%v", found[0])
		}
		if string(found[1].Theirs) != "x" || !bytes.Equal(found[1].Key, []byte{0, 0, 1, 9}) {
			t.Errorf("%v", found[1])
		}
		if found[2].Ours != nil || found[2].Theirs == nil || len(found[2].Theirs) != 0 {
			t.Errorf("%v", found[2])
		}
	}
}

func TestWhatEndsIt(t *testing.T) {
	ours, theirs := ofNumbers(t, mst.Format1, 0), ofNumbers(t, mst.Format1, 100)
	root, err := theirs.Root()
	if err != nil {
		t.Fatal(err)
	}
	own := errors.New("as it is to")
	_, err = ours.Differing(root, func([]byte, uint32) ([]byte, error) { return nil, own })
	if err != own {
		t.Errorf("%v", err)
	}
	_, err = ours.Differing(root, func([]byte, uint32) ([]byte, error) { return nil, nil })
	if err != mst.ErrOtherPiece {
		t.Errorf("%v", err)
	}
	func() {
		defer func() {
			if recover() != own {
				t.Error("no panic")
			}
		}()
		_, _ = ours.Differing(root, func([]byte, uint32) ([]byte, error) { panic(own) })
	}()
	// it is not pinned
	if _, _, err := ours.Put([]byte("a"), nil); err != nil {
		t.Errorf("%v", err)
	}
	if mst.ProofPiece(nil, 0) != nil || mst.ProofPiece([]byte{1, 0}, 0) != nil {
		t.Error("a piece of no proof")
	}
	if err := ours.Close(); err != nil {
		t.Fatal(err)
	}
	if _, err := ours.Differing(root, nil); err != mst.ErrClosed {
		t.Errorf("%v", err)
	}
}
