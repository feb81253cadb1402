package mst

// Batch is a list of edits that Apply makes as one version, of a sharded map as one block, in their
// order: of the edits of one key the last decides. The zero Batch has no edits. One goroutine at a
// time uses a Batch.
//
//	var batch mst.Batch
//	batch.Put([]byte("apple"), []byte("35")).Remove([]byte("pear"))
//	err := pass.Apply(&batch)
type Batch struct {
	// The edits as mst_try_apply takes them.
	packed []byte
	count  int
}

const (
	putKind    = 1
	removeKind = 2
)

// Put adds a put, and returns the batch. If a length is out of the limits, Apply refuses it.
func (b *Batch) Put(key, value []byte) *Batch {
	return b.add(putKind, key, value)
}

// Remove adds a remove, and returns the batch. The remove of an absent key changes nothing.
func (b *Batch) Remove(key []byte) *Batch {
	return b.add(removeKind, key, nil)
}

func (b *Batch) add(kind byte, key, value []byte) *Batch {
	keys, values := bounded(len(key)), bounded(len(value))
	b.count++
	b.packed = append(b.packed, kind, byte(keys>>8), byte(keys), byte(values>>8), byte(values))
	if keys <= KeyLongest && values <= ValueLongest {
		b.packed = append(append(b.packed, key...), value...)
	}
	return b
}

// bounded is the length in two bytes; one that does not fit is as refused as the greatest.
func bounded(length int) int {
	if length > 0xFFFF {
		return 0xFFFF
	}
	return length
}

// Len returns how many edits there are.
func (b *Batch) Len() int {
	return b.count
}

// Reset takes all edits out, and keeps the memory for others.
func (b *Batch) Reset() {
	b.packed, b.count = b.packed[:0], 0
}
