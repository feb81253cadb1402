package store

import (
	"fmt"
	"sync"
	"testing"

	"mst"
)

const benchKeys = 1000

// filled opens a store of 1,000 keys of 16 bytes with values of 32.
func filled(b *testing.B, passes int) ([]*mst.Pass, [][]byte) {
	b.Helper()
	opened, err := mst.Open(mst.Options{Rows: mst.RowsMost, Passes: passes})
	if err != nil {
		b.Fatal(err)
	}
	var batch mst.Batch
	keys := make([][]byte, benchKeys)
	for at := range keys {
		keys[at] = []byte(fmt.Sprintf("%016x", uint64(at)*0x9E3779B97F4A7C15))
		batch.Put(keys[at], append(numbered(at), make([]byte, 24)...))
	}
	if err := opened[0].Apply(&batch); err != nil {
		b.Fatal(err)
	}
	b.ReportAllocs()
	b.ResetTimer()
	return opened, keys
}

func BenchmarkGet(b *testing.B) {
	passes, keys := filled(b, 1)
	for at := 0; at < b.N; at++ {
		if _, present, err := passes[0].Get(keys[at%benchKeys]); !present || err != nil {
			b.Fatal(err)
		}
	}
}

func BenchmarkGetOfAPinnedVersion(b *testing.B) {
	passes, keys := filled(b, 1)
	pinned, err := passes[0].Pin()
	if err != nil {
		b.Fatal(err)
	}
	for at := 0; at < b.N; at++ {
		if _, present, err := pinned.Get(keys[at%benchKeys]); !present || err != nil {
			b.Fatal(err)
		}
	}
}

func BenchmarkRangeOf100(b *testing.B) {
	passes, _ := filled(b, 1)
	for at := 0; at < b.N; at++ {
		if pairs, err := passes[0].Range(nil, nil, 100); len(pairs) != 100 || err != nil {
			b.Fatal(err)
		}
	}
}

func BenchmarkProve(b *testing.B) {
	passes, keys := filled(b, 1)
	for at := 0; at < b.N; at++ {
		if _, err := passes[0].Prove(keys[at%benchKeys]); err != nil {
			b.Fatal(err)
		}
	}
}

// Each operation is a put, by as many writers side by side.
func BenchmarkPut(b *testing.B) {
	for _, writers := range []int{1, 2, 4, 8} {
		b.Run(fmt.Sprintf("writers=%d", writers), func(b *testing.B) {
			passes, keys := filled(b, writers)
			var all sync.WaitGroup
			for place, pass := range passes {
				all.Add(1)
				go func(pass *mst.Pass, begin int) {
					defer all.Done()
					for at := begin; at < b.N; at += writers {
						if _, _, err := pass.Put(keys[at%benchKeys], numbered(at)); err != nil {
							b.Error(err)
						}
					}
				}(pass, place)
			}
			all.Wait()
		})
	}
}
