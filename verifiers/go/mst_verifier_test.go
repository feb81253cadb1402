package mstverifier

import (
	"bytes"
	"encoding/hex"
	"errors"
	"math/rand"
	"strings"
	"testing"
)

const (
	rootWord  = "d4a8a9fc55058427163bd8a1f09ca5ec542de1cdaf28df100be5472e47b72503"
	proofWord = "0101000000110100000200016101310003616263017800"
)

var verifiers = map[string]func(Format, [32]byte, []byte, []byte) ([]byte, bool, error){
	"P": Verify,
	"S": VerifySharded,
}

func bytesOf(word string) []byte {
	made, err := hex.DecodeString(word)
	if err != nil {
		panic(err)
	}
	return made
}

// question is one whose answer is that the key 61 has the value 31.
func question() (root [32]byte, key, proof []byte) {
	copy(root[:], bytesOf(rootWord))
	return root, []byte("a"), bytesOf(proofWord)
}

func TestAnswers(t *testing.T) {
	root, key, proof := question()
	value, present, err := Verify(Format1, root, key, proof)
	if err != nil || !present || string(value) != "1" {
		t.Fatalf("the key a: %q, %v, %v", value, present, err)
	}
	for length := 2; length <= 32; length++ {
		longer := append([]byte("a"), make([]byte, length-1)...)
		if value, present, err := Verify(Format1, root, longer, proof); err != nil || present {
			t.Errorf("a key of %d bytes: %q, %v, %v", length, value, present, err)
		}
	}
}

func TestQuestionsThatCannotBeAsked(t *testing.T) {
	root, key, proof := question()
	for name, verify := range verifiers {
		for format := 0; format < 256; format++ {
			_, present, err := verify(Format(format), root, key, proof)
			isKnown := format == 1 || format == 2
			if present && !isKnown || (err == ErrFormat) == isKnown {
				t.Errorf("%s, format %d: %v", name, format, err)
			}
		}
		for _, length := range []int{0, 33, 64, 255, 256, 257, 300} {
			_, present, err := verify(Format1, root, make([]byte, length), proof)
			if present || err != ErrKey {
				t.Errorf("%s, a key of %d bytes: %v", name, length, err)
			}
		}
		if _, _, err := verify(Format1, root, nil, nil); err != ErrKey {
			t.Errorf("%s, no key: %v", name, err)
		}
	}
}

func TestRefusals(t *testing.T) {
	root, key, proof := question()
	other := bytes.Replace(proof, []byte("1\x00\x03"), []byte("2\x00\x03"), 1)
	for _, it := range []struct {
		what   string
		wanted Refused
		format Format
		proof  []byte
	}{
		{"no proof", "P2", Format1, nil},
		{"another format", "P1", Format2, proof},
		{"a byte more", "P3", Format1, append(proof[:len(proof):len(proof)], 0)},
		{"another value", "P5", Format1, other},
	} {
		_, present, err := Verify(it.format, root, key, it.proof)
		if present || !errors.Is(err, it.wanted) {
			t.Errorf("%s: %v, and not %s", it.what, err, it.wanted)
		}
	}
	if _, _, err := VerifySharded(Format1, root, key, proof); !errors.Is(err, Refused("S1")) {
		t.Errorf("no sharded map: %v", err)
	}
}

func TestValueIsTheCallersAlone(t *testing.T) {
	root, key, proof := question()
	value, _, _ := Verify(Format1, root, key, proof)
	for at := range proof {
		proof[at] = 0
	}
	if string(value) != "1" {
		t.Errorf("the value became %q", value)
	}
}

// Of bytes of any kind no answer comes: it would need two texts that have one SHA-256.
func checkAnyBytes(t *testing.T, format Format, key, proof []byte) {
	root, _, _ := question()
	for letter, verify := range verifiers {
		value, present, err := verify(format, root, key, proof)
		var refused Refused
		if !errors.As(err, &refused) || present || value != nil {
			t.Errorf("%x for %x: %q, %v, %v", proof, key, value, present, err)
		}
		if !strings.HasPrefix(string(refused), letter) {
			t.Errorf("%x for %x: refused by %s", proof, key, refused)
		}
	}
}

func TestAnyBytes(t *testing.T) {
	some := rand.New(rand.NewSource(1))
	for run := 0; run < 100_000; run++ {
		proof := make([]byte, some.Intn(97))
		for at := range proof {
			proof[at] = byte(some.Intn([]int{256, 5, 5}[some.Intn(3)]))
		}
		key := make([]byte, 1+some.Intn(32))
		some.Read(key)
		checkAnyBytes(t, Format(1+run%2), key, proof)
	}
}

func FuzzVerify(f *testing.F) {
	root, key, proof := question()
	f.Add(byte(1), key, proof)
	f.Add(byte(2), key, append([]byte{3, 1, 0, 0, 0, 0, byte(len(proof))}, proof...))
	f.Fuzz(func(t *testing.T, format byte, key, proof []byte) {
		for _, verify := range verifiers {
			value, present, err := verify(Format(format), root, key, proof)
			if present == (value == nil) || present && err != nil || len(value) > 64 {
				t.Errorf("%q, %v, %v", value, present, err)
			}
		}
	})
}
