//go:build mst_installed

package mst

// The library that `make -C bindings install` has installed.

// #cgo pkg-config: mst_store
import "C"
