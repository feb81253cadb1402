//go:build !mst_installed

package mst

// The library that `make -C bindings` makes, next to this package.

// #cgo CFLAGS: -I${SRCDIR}/../../include
// #cgo LDFLAGS: ${SRCDIR}/../out/libmst_store.a
import "C"
