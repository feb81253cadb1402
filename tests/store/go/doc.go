// Package store tests the Go binding of the store: its answers against those of a Go map, its proofs
// against the verifier in Go, and its calls by several goroutines.
package store
