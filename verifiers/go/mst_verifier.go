// Package mstverifier checks proofs against a root digest. It was written from docs/FORMAT.md
// alone, over the standard library.
//
// A root digest tells neither its format nor whether it is of one map or of a sharded map. Take both
// from where you take the root digest, never from the proof: the wrong call may accept a false
// answer.
package mstverifier

import (
	"bytes"
	"crypto/sha256"
	"errors"
	"math/bits"
	"sort"
)

// Format is the format of a root digest and of its proofs.
type Format uint8

// The formats.
const (
	Format1 Format = 1
	Format2 Format = 2
)

// The errors of questions that cannot be asked.
var (
	ErrFormat = errors.New("mstverifier: there are formats 1 and 2")
	ErrKey    = errors.New("mstverifier: a key has 1 to 32 bytes")
)

// Refused is the error of a proof that fails a test: the first one that it fails, as "P5", of a
// sharded map as "S1" or "S4 P5".
type Refused string

func (r Refused) Error() string {
	return "mstverifier: the proof fails " + string(r)
}

// Verify returns what a proof shows of a key, in the map with this root digest: the key's value,
// or that the key is not present. The error is ErrFormat, ErrKey, or Refused if the proof fails a
// test. With an error nothing is shown. Of the bytes that it is given it keeps none.
func Verify(
	format Format, root [32]byte, key, proof []byte,
) (value []byte, present bool, err error) {
	return ask(answerOf, format, root, key, proof)
}

// VerifySharded is as Verify, in the sharded map with this root digest.
func VerifySharded(
	format Format, root [32]byte, key, proof []byte,
) (value []byte, present bool, err error) {
	return ask(answerOfSharded, format, root, key, proof)
}

// answer is what is shown of a key: bytes, if it is present.
type answer struct {
	value   []byte
	present bool
}

type verifier func(format Format, root, key, proof []byte) (answer, error)

func ask(by verifier, format Format, root [32]byte, key, proof []byte) ([]byte, bool, error) {
	if format != Format1 && format != Format2 {
		return nil, false, ErrFormat
	}
	if len(key) < 1 || len(key) > 32 {
		return nil, false, ErrKey
	}
	shown, err := by(format, root[:], key, proof)
	if err != nil || !shown.present {
		return nil, false, err
	}
	return append([]byte{}, shown.value...), true, nil
}

func answerOf(format Format, root, key, proof []byte) (answer, error) {
	texts, claimed, err := readFrame(format, proof)
	if err != nil {
		return answer{}, err
	}
	held, err := follow(format, root, key, texts)
	if err != nil || format == Format1 {
		return held, err
	}
	return claimed.opened(held)
}

// ---- bytes

// reader takes bytes from the front. It is broken once one is missing or out of place, and then
// gives no more.
type reader struct {
	rest     []byte
	isBroken bool
}

func (r *reader) take(count uint64) []byte {
	if r.isBroken || uint64(len(r.rest)) < count {
		r.isBroken = true
		return nil
	}
	part := r.rest[:count]
	r.rest = r.rest[count:]
	return part
}

// number takes a number of a given count of bytes, the high one first.
func (r *reader) number(size uint64) uint64 {
	var number uint64
	for _, it := range r.take(size) {
		number = number<<8 | uint64(it)
	}
	return number
}

// counted takes a length in one byte, and as many bytes as it says.
func (r *reader) counted(least, most uint64) []byte {
	length := r.number(1)
	if length < least || length > most {
		r.isBroken = true
	}
	return r.take(length)
}

// child takes a child's digest, or nil if there is no child.
func (r *reader) child() []byte {
	switch r.number(1) {
	case 0:
		return nil
	case 1:
		return r.take(sha256.Size)
	}
	r.isBroken = true
	return nil
}

// ---- the text of a node

// node has of each key the value, in format 2 the SHA-256 of the value; and the digests of the
// children before the first key and after each, nil where there is none.
type node struct {
	layer                uint64
	keys, held, children [][]byte
}

// layerOf counts the digits 0 with which the key's SHA-256 begins: of base 16 in format 1, of base
// 4 in format 2.
func layerOf(format Format, key []byte) uint64 {
	digest := sha256.Sum256(key)
	zeros := 0
	for _, it := range digest {
		zeros += bits.LeadingZeros8(it)
		if it != 0 {
			break
		}
	}
	if format == Format1 {
		return uint64(zeros / 4)
	}
	return uint64(zeros / 2)
}

// entry takes an entry and the child after it.
func (n *node) entry(format Format, text *reader) {
	key := text.counted(1, 32)
	if last := len(n.keys) - 1; last >= 0 && bytes.Compare(n.keys[last], key) >= 0 {
		text.isBroken = true
	}
	if text.isBroken || layerOf(format, key) != n.layer {
		text.isBroken = true
		return
	}
	n.keys = append(n.keys, key)
	if format == Format1 {
		n.held = append(n.held, text.counted(0, 64))
	} else {
		n.held = append(n.held, text.take(sha256.Size))
	}
	n.children = append(n.children, text.child())
}

// readNode reads a text, and tells whether it is that of a node.
func readNode(format Format, whole []byte) (*node, bool) {
	text := reader{rest: whole}
	first, layer, count := text.number(1), text.number(1), text.number(2)
	n := &node{layer: layer, children: [][]byte{text.child()}}
	if first != uint64(format) || count == 0 {
		return nil, false
	}
	for ; count > 0 && !text.isBroken; count-- {
		n.entry(format, &text)
	}
	return n, !text.isBroken && len(text.rest) == 0
}

// find returns the place of the key, or the gap that it falls into.
func (n *node) find(key []byte) (gap int, isHeld bool) {
	gap = sort.Search(len(n.keys), func(at int) bool {
		return bytes.Compare(n.keys[at], key) >= 0
	})
	return gap, gap < len(n.keys) && bytes.Equal(n.keys[gap], key)
}

// ---- the frame of a proof

// claim is the answer that a proof of format 2 claims. It may be fit for none.
type claim struct {
	answer
	isFit bool
}

func readTail(proof *reader) claim {
	first := proof.number(1)
	if first != 1 {
		return claim{isFit: first == 0}
	}
	value := proof.take(proof.number(1))
	return claim{answer{value, true}, len(value) <= 64}
}

func readFrame(format Format, whole []byte) (texts [][]byte, claimed claim, err error) {
	proof := reader{rest: whole}
	first := proof.number(1)
	if !proof.isBroken && first != uint64(format) {
		return nil, claim{}, Refused("P1")
	}
	for left := proof.number(1); left > 0; left-- {
		texts = append(texts, proof.take(proof.number(4)))
	}
	if format == Format2 {
		claimed = readTail(&proof)
	}
	if proof.isBroken {
		return nil, claim{}, Refused("P2")
	}
	if len(proof.rest) > 0 {
		return nil, claim{}, Refused("P3")
	}
	return texts, claimed, nil
}

// opened returns the claimed answer if its SHA-256 is what is held.
func (c claim) opened(held answer) (answer, error) {
	isHeld := c.present == held.present
	if isHeld && c.present {
		digest := sha256.Sum256(c.value)
		isHeld = bytes.Equal(digest[:], held.value)
	}
	if !c.isFit || !isHeld {
		return answer{}, Refused("P10")
	}
	return c.answer, nil
}

// ---- the tests of a proof

// expected is what is expected of a text. A bound that is nil does not bind.
type expected struct {
	digest    []byte
	upper     uint64
	low, high []byte
}

// noUpper is above all layers.
const noUpper = 256

func (e *expected) test(text []byte, n *node) error {
	digest := sha256.Sum256(text)
	if !bytes.Equal(digest[:], e.digest) {
		return Refused("P5")
	}
	if n.layer >= e.upper {
		return Refused("P6")
	}
	first, last := n.keys[0], n.keys[len(n.keys)-1]
	if e.low != nil && bytes.Compare(first, e.low) <= 0 ||
		e.high != nil && bytes.Compare(last, e.high) >= 0 {
		return Refused("P7")
	}
	return nil
}

// next is what is expected of the child in a gap.
func (e *expected) next(n *node, gap int) expected {
	low, high := e.low, e.high
	if gap > 0 {
		low = n.keys[gap-1]
	}
	if gap < len(n.keys) {
		high = n.keys[gap]
	}
	return expected{n.children[gap], n.layer, low, high}
}

// follow returns what the texts show that a node holds of the key.
func follow(format Format, root, key []byte, texts [][]byte) (answer, error) {
	if empty := sha256.Sum256(nil); len(texts) == 0 {
		if !bytes.Equal(root, empty[:]) {
			return answer{}, Refused("P5")
		}
		return answer{}, nil
	}
	want := expected{digest: root, upper: noUpper}
	for place, text := range texts {
		n, isNode := readNode(format, text)
		if !isNode {
			return answer{}, Refused("P4")
		}
		if err := want.test(text, n); err != nil {
			return answer{}, err
		}
		gap, isHeld := n.find(key)
		if isHeld || n.children[gap] == nil {
			return decided(n, gap, isHeld, place == len(texts)-1)
		}
		want = want.next(n, gap)
	}
	return answer{}, Refused("P8")
}

// decided is the answer of the node that decides the key, which is to be the last one.
func decided(n *node, gap int, isHeld, isLast bool) (answer, error) {
	if !isLast {
		return answer{}, Refused("P9")
	}
	if !isHeld {
		return answer{}, nil
	}
	return answer{n.held[gap], true}, nil
}

// ---- sharded maps

// parts are those of a proof of a sharded map: the lower bound, the directory's proof, the shard's.
type parts struct {
	low, directory, shard []byte
}

func readParts(format Format, whole []byte) (parts, error) {
	proof := reader{rest: whole}
	first := proof.number(1)
	if !proof.isBroken && first != uint64(format)+2 {
		return parts{}, Refused("S1")
	}
	low := proof.take(proof.number(1))
	if !proof.isBroken && (len(low) < 1 || len(low) > 32) {
		return parts{}, Refused("S3")
	}
	directory := proof.take(proof.number(4))
	if proof.isBroken {
		return parts{}, Refused("S2")
	}
	return parts{low, directory, proof.rest}, nil
}

// answerOfPart is as answerOf, for a part of a proof, which is to pass this test.
func answerOfPart(test Refused, format Format, root, key, proof []byte) (answer, error) {
	shown, err := answerOf(format, root, key, proof)
	var refused Refused
	if errors.As(err, &refused) {
		return answer{}, test + " " + refused
	}
	return shown, err
}

func answerOfSharded(format Format, root, key, proof []byte) (answer, error) {
	it, err := readParts(format, proof)
	if err != nil {
		return answer{}, err
	}
	listing, err := answerOfPart("S4", format, root, it.low, it.directory)
	switch {
	case err != nil:
		return answer{}, err
	case !listing.present:
		return answer{}, Refused("S5")
	case len(listing.value) < sha256.Size:
		return answer{}, Refused("S6")
	case bytes.Compare(key, it.low) < 0:
		return answer{}, Refused("S7")
	}
	digest, high := listing.value[:sha256.Size], listing.value[sha256.Size:]
	if len(high) > 0 && bytes.Compare(key, high) >= 0 {
		return answer{}, Refused("S8")
	}
	return answerOfPart("S9", format, digest, key, it.shard)
}
