package mst

// #include "mst_store.h"
import "C"

import (
	"errors"
	"fmt"
)

// The refusals.
var (
	// ErrUnknownFormat says that there are formats 1 and 2.
	ErrUnknownFormat = errors.New("mst: there are formats 1 and 2")
	// ErrBadKey says that a key has 1 to 32 bytes; a bound may also have none.
	ErrBadKey = errors.New("mst: a key has 1 to 32 bytes")
	// ErrBadValue says that a value has 0 to 64 bytes.
	ErrBadValue = errors.New("mst: a value has 0 to 64 bytes")
	// ErrClosed says that the pass is closed, or its pin ended.
	ErrClosed = errors.New("mst: the pass is closed, or its pin ended")
	// ErrWrongState says that the pass pins a version: it neither writes, migrates, pins nor
	// counts. Of a ShardedWriter it says that a block was begun, and has not ended, or that a group
	// has it.
	ErrWrongState = errors.New("mst: the pass pins a version, or a block or a group has the writer")
	// ErrMemory says that the library got no memory.
	ErrMemory = errors.New("mst: a growth of memory was refused")
	// ErrBadShape says that a store has 4 to 65,535 rows and 1 to 32 passes.
	ErrBadShape = errors.New("mst: a store has 4 to 65535 rows and 1 to 32 passes")
	// ErrBusy says that another pass has the turn: it writes, migrates or counts rows.
	ErrBusy = errors.New("mst: another pass has the turn")
	// ErrVersionsSpent says that the store has made all versions that it can number.
	ErrVersionsSpent = errors.New("mst: the store has made all versions that it can number")
	// ErrNoFreeRows says that a write or a migration needs more rows than are free.
	ErrNoFreeRows = errors.New("mst: fewer rows are free than the write needs")
	// ErrRowsPinned says that some pass pins a version, so that rows are not counted.
	ErrRowsPinned = errors.New("mst: a version is pinned, so rows are not counted")
	// ErrBadSplits says that splits are at most 1,023 keys that rise strictly, from above that of
	// one zero byte.
	ErrBadSplits = errors.New("mst: splits are at most 1023 keys that rise from above the least")
	// ErrOvertaken says that another than the writer of blocks has written. No call leads to this.
	ErrOvertaken = errors.New("mst: another than the writer of blocks has written")
	// ErrOtherPiece says that a piece of a proof is not the one that was asked for.
	ErrOtherPiece = errors.New("mst: a piece is not the one that was asked for")
	// ErrMoving says that a block is just being published, so that there is no snapshot of one
	// block.
	ErrMoving = errors.New("mst: a block is just being published")
)

var refusals = map[C.int32_t]error{
	C.MST_UNKNOWN_FORMAT: ErrUnknownFormat,
	C.MST_BAD_KEY:        ErrBadKey,
	C.MST_BAD_VALUE:      ErrBadValue,
	C.MST_CLOSED:         ErrClosed,
	C.MST_WRONG_STATE:    ErrWrongState,
	C.MST_MEMORY:         ErrMemory,
	C.MST_BAD_SHAPE:      ErrBadShape,
	C.MST_BUSY:           ErrBusy,
	C.MST_VERSIONS_SPENT: ErrVersionsSpent,
	C.MST_NO_FREE_ROWS:   ErrNoFreeRows,
	C.MST_ROWS_PINNED:    ErrRowsPinned,
	C.MST_BAD_SPLITS:     ErrBadSplits,
	C.MST_OVERTAKEN:      ErrOvertaken,
	C.MST_MOVING:         ErrMoving,
}

// refusal is the error for a number that a call returned.
func refusal(told C.int32_t) error {
	if err, isKnown := refusals[told]; isKnown {
		return err
	}
	if -20 <= told && told <= -11 { // what a verifier tests, P1 to P10
		return ErrOtherPiece
	}
	return fmt.Errorf("mst: the library answered %d", int32(told))
}

// refusalOfBatch is the same for a batch, of which the edit at a place was refused, if one was.
func refusalOfBatch(told C.int32_t, place C.size_t) error {
	switch told {
	case C.MST_OK:
		return nil
	case C.MST_BAD_KEY, C.MST_BAD_VALUE:
		return &EditError{int(place), refusal(told)}
	}
	return refusal(told)
}

// EditError says which edit of a batch is refused. Err is ErrBadKey or ErrBadValue.
type EditError struct {
	// Place is the number of the first such edit, from 0.
	Place int
	Err   error
}

// Error says which edit is refused, and why.
func (e *EditError) Error() string {
	return fmt.Sprintf("%v (edit %d)", e.Err, e.Place)
}

// Unwrap returns ErrBadKey or ErrBadValue.
func (e *EditError) Unwrap() error {
	return e.Err
}

// refusalOfPart is the error for the part of a shard, which is closed when its block has ended.
func refusalOfPart(told C.int32_t, shard int) error {
	if told == C.MST_WRONG_STATE {
		return ErrClosed
	}
	return refusalOfBlock(told, 0, C.size_t(shard))
}

// refusalOfBlock is the error for a block.
func refusalOfBlock(told C.int32_t, place, shard C.size_t) error {
	switch told {
	case C.MST_BUSY, C.MST_VERSIONS_SPENT, C.MST_MEMORY, C.MST_NO_FREE_ROWS, C.MST_OVERTAKEN:
		return &ShardError{int(shard), refusal(told)}
	}
	return refusalOfBatch(told, place)
}

// ShardError says which shard refused its edits of a block. Nothing has changed in any shard.
type ShardError struct {
	// Shard is the number of the shard, from 0. It is the number of the shards if the directory
	// refused its own edits, or if there was no memory for the lists of all edits.
	Shard int
	Err   error
}

// Error says which shard it is, and why.
func (e *ShardError) Error() string {
	return fmt.Sprintf("%v (shard %d)", e.Err, e.Shard)
}

// Unwrap returns why.
func (e *ShardError) Unwrap() error {
	return e.Err
}
