package store

import (
	"errors"
	"math/rand"
	"testing"

	"mst"
	"mstverifier"
)

// version is a pass or a pinned one that tells a root digest.
type version interface {
	Format() (mst.Format, error)
	Root() (mst.Root, error)
	Prove(key []byte) ([]byte, error)
}

// expectProof sees that the verifier takes the proof with the map's answer, and none that is forged
// or of the other format.
func (m model) expectProof(t *testing.T, of version, key []byte) {
	t.Helper()
	format, err := of.Format()
	if err != nil {
		t.Fatal(err)
	}
	root, err := of.Root()
	if err != nil {
		t.Fatal(err)
	}
	proof, err := of.Prove(key)
	if err != nil {
		t.Fatal(err)
	}
	known := mstverifier.Format(format)
	value, present, err := mstverifier.Verify(known, root, key, proof)
	m.check(t, "Verify", key, value, present, err)
	var refused mstverifier.Refused
	if _, _, err := mstverifier.Verify(3-known, root, key, proof); !errors.As(err, &refused) {
		t.Errorf("the other format: %v", err)
	}
	proof[len(proof)-1] ^= 1
	if _, _, err := mstverifier.Verify(known, root, key, proof); !errors.As(err, &refused) {
		t.Errorf("a forged proof: %v", err)
	}
}

func TestEachProofIsTakenByTheVerifier(t *testing.T) {
	chance, pass, known := rand.New(rand.NewSource(8)), one(t, 4000), model{}
	known.expectProof(t, pass, []byte("key"))
	for step := 0; step < 600; step++ {
		known.write(t, pass, chance)
	}
	for _, format := range []mst.Format{mst.Format1, mst.Format2} {
		if _, err := pass.Migrate(format); err != nil {
			t.Fatal(err)
		}
		for step := 0; step < 600; step++ {
			known.expectProof(t, pass, keyBy(chance))
		}
	}
}

func TestAMigrationGivesTheRootOfAStoreInThatFormat(t *testing.T) {
	chance, pass, known := rand.New(rand.NewSource(9)), one(t, 4000), model{}
	format := mst.Format1
	for step := 0; step < 40; step++ {
		for left := 20; left > 0; left-- {
			known.write(t, pass, chance)
		}
		to := mst.Format(1 + chance.Intn(2))
		if was, err := pass.Migrate(to); was != format || err != nil {
			t.Fatalf("format %d before, %v, and not %d", was, err, format)
		}
		format = to
		twin := open(t, format, 4000, 1)[0]
		for _, pair := range known.pairs(nil, nil) {
			if _, _, err := twin.Put(pair.Key, pair.Value); err != nil {
				t.Fatal(err)
			}
		}
		expectEqualRoots(t, pass, twin)
		if told, err := pass.Format(); told != format || err != nil {
			t.Errorf("format %d, %v, and not %d", told, err, format)
		}
	}
}

func TestAPinnedVersionKeepsItsFormat(t *testing.T) {
	passes := open(t, mst.Format1, 1000, 2)
	reader, writer := passes[0], passes[1]
	known := model{"key": "value"}
	if _, _, err := writer.Put([]byte("key"), []byte("value")); err != nil {
		t.Fatal(err)
	}
	pinned, err := reader.Pin()
	if err != nil {
		t.Fatal(err)
	}
	if was, err := writer.TryMigrate(mst.Format2); was != mst.Format1 || err != nil {
		t.Fatalf("format %d before, %v", was, err)
	}
	known.expectProof(t, pinned, []byte("key"))
	known.expectProof(t, writer, []byte("key"))
	before, _ := pinned.Format()
	now, _ := writer.Format()
	if before != mst.Format1 || now != mst.Format2 {
		t.Errorf("formats %d and %d", before, now)
	}
	pinned.Unpin()
	if now, err := reader.Format(); now != mst.Format2 || err != nil {
		t.Errorf("format %d, %v", now, err)
	}
}
