// A writer and a reader that pins, in a goroutine each.
//
//	make -C bindings && cd examples/go && go run .
//
// It needs the library: that of a release (there is none yet), or the kit, by which make makes it.
package main

import (
	"fmt"
	"log"

	"mst"
)

func main() {
	log.SetFlags(0)
	if err := run(); err != nil {
		log.Fatal(err)
	}
}

func run() error {
	passes, err := mst.Open(mst.Options{Rows: 1000, Passes: 2})
	if err != nil {
		return err
	}
	writer, reader := passes[0], passes[1]
	defer writer.Close()
	defer reader.Close()
	if _, _, err := writer.Put([]byte("apple"), []byte("30")); err != nil {
		return err
	}
	then, err := reader.Pin()
	if err != nil {
		return err
	}
	done := make(chan error)
	go func() {
		var batch mst.Batch
		done <- writer.Apply(batch.Put([]byte("apple"), []byte("31")).Put([]byte("pear"), []byte("7")))
	}()
	if err := <-done; err != nil {
		return err
	}
	value, _, err := then.Get([]byte("apple"))
	if err != nil {
		return err
	}
	proof, err := then.Prove([]byte("apple"))
	if err != nil {
		return err
	}
	fmt.Printf("the pinned value is %s, its proof has %d bytes\n", value, len(proof))
	then.Unpin()
	pairs, err := reader.Range(nil, nil, -1)
	for _, pair := range pairs {
		fmt.Printf("%s %s\n", pair.Key, pair.Value)
	}
	return err
}
