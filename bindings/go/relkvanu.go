// Package relkvanu is the checkpoint coordinator of a stream processor's job, over the C library of the same name.
//
// Goroutines may share a [Coordinator]: its own lock admits one call at a time, and it needs no particular thread. Close it. The
// coordinator reads no clock and deletes no file by itself. The caller gives the moment of each call, in milliseconds, at most
// 2^62 - 1, and fetches the files to delete.
//
// A call that is not made returns an error, and nothing has changed:
//
//   - a [Refused], which wraps its [Refusal]: errors.Is(err, relkvanu.NotRunning);
//   - a [FencedError], which wraps its [Fenced]: errors.Is(err, relkvanu.FencedOldTerm);
//   - a [BadArgument]: errors.Is(err, relkvanu.BadShape);
//   - a [LineFault]: errors.Is(err, relkvanu.LineMissing);
//   - [ErrNoMemory]: make the same call again;
//   - [ErrClosed]: the coordinator is closed, or was never opened;
//   - an [OtherLibrary]: the library that is linked does not fit this package. Each call returns it.
//
// An [Unknown] alone is different: the library gave an answer that this package does not know.
//
// Who may delete a file: the files of an accepted acknowledgement belong to the coordinator, even if it came late. After an error a
// task deletes a file only if no accepted acknowledgement ever named it. After [AlreadyAcknowledged], [NameTaken] and [FencedSpent] a file may
// be in use.
//
// A coordinator with names ([OpenFenced]) gives out the numbers of files, each once, and refuses tasks of a term that a restore or a cancel has
// ended. [Coordinator.Garbage] says at any time which files of a storage may be deleted.
//
// The package has no durable coordinator: an engine keeps the lines of its calls in a log (examples/go), calls relkvanu_store.h by cgo, or calls the
// service over HTTP.
//
// pkg-config finds the library and its header. docs/RULES.md says what each call does, and when it is refused.
package relkvanu

// #cgo pkg-config: relkvanu
// #include <relkvanu.h>
import "C"

import (
	"crypto/rand"
	"encoding/binary"
	"fmt"
	"strings"
	"unsafe"
)

// bindings/generate makes the settings

// Settings is how a job takes checkpoints.
type Settings struct {
	Interval     uint64 // 10 to 2^40 ms between two triggers
	Pause        uint64 // 0 to 2^40 ms between a completion and the next trigger
	AtOnce       uint64 // 1 to 64 checkpoints that may be pending
	Timeout      uint64 // 1 to 2^40 ms after which a pending record expires
	Tolerable    uint64 // 0 to 1000 failed checkpoints in a row
	Retained     uint64 // 1 to 1000 completed checkpoints to keep
	KeepOnCancel bool   // whether to keep them when the job is cancelled
}

func (s Settings) inC() C.relkvanu_settings {
	return C.relkvanu_settings{
		interval:       C.uint64_t(s.Interval),
		pause:          C.uint64_t(s.Pause),
		at_once:        C.uint64_t(s.AtOnce),
		timeout:        C.uint64_t(s.Timeout),
		tolerable:      C.uint64_t(s.Tolerable),
		retained:       C.uint64_t(s.Retained),
		keep_on_cancel: C.bool(s.KeepOnCancel),
	}
}

// bindings/generate: end

// Every is a checkpoint each interval, with one pending at once, a timeout of ten minutes, no tolerated failure and one retained
// checkpoint.
func Every(interval uint64) Settings {
	return Settings{Interval: interval, AtOnce: 1, Timeout: 600_000, Retained: 1}
}

// Subtask is one of the parallel tasks of a vertex.
type Subtask struct{ Vertex, Index uint16 }

// String is as a script writes it, such as "0.1".
func (s Subtask) String() string { return fmt.Sprintf("%d.%d", s.Vertex, s.Index) }

// Version is that of the linked library: three numbers, such as "1.2.3".
func Version() string { return C.GoString(C.relkvanu_version()) }

// series is the part of a version that has to be the same: its first two numbers, because before 1.0 each of these has an interface of
// its own.
func series(version string) string {
	parts := strings.SplitN(version, ".", 3)
	return strings.Join(parts[:len(parts)-1], ".")
}

func otherLibrary(own, linked string) error {
	if series(own) == series(linked) {
		return nil
	}
	return &OtherLibrary{Package: own, Library: linked}
}

// wrongLibrary is nil if the linked library fits the header that this package was compiled with.
var wrongLibrary = otherLibrary(C.RELKVANU_VERSION, Version())

// words are the secret of a coordinator's maps.
func words() (first, second C.uint64_t, err error) {
	var bytes [16]byte
	if _, err = rand.Read(bytes[:]); err != nil {
		return 0, 0, fmt.Errorf("relkvanu: no random numbers: %w", err)
	}
	return C.uint64_t(binary.LittleEndian.Uint64(bytes[:8])), C.uint64_t(binary.LittleEndian.Uint64(bytes[8:])), nil
}

// list is the address of the first number, and nil for an empty list, which the library takes.
func list(numbers []uint64) (*C.uint64_t, C.size_t) {
	if len(numbers) == 0 {
		return nil, 0
	}
	return (*C.uint64_t)(unsafe.Pointer(&numbers[0])), C.size_t(len(numbers))
}

func text(bytes []byte) (*C.uint8_t, C.size_t) {
	if len(bytes) == 0 {
		return nil, 0
	}
	return (*C.uint8_t)(unsafe.Pointer(&bytes[0])), C.size_t(len(bytes))
}

// filled is a buffer with room for so many items, or else one that is long enough, with the answer of what has written into it.
func filled[Item any](room int, write func(buffer []Item) C.relkvanu_answer) ([]Item, C.relkvanu_answer, error) {
	for {
		buffer := make([]Item, room)
		answer := write(buffer)
		if answer.code != C.RELKVANU_TOO_SHORT {
			return buffer, answer, fault(answer)
		}
		room = int(answer.a)
	}
}

// written is the text that is written into a buffer with room for so many bytes, or else into one that is long enough.
func written(room int, write func(at *C.uint8_t, length C.size_t) C.relkvanu_answer) ([]byte, error) {
	buffer, answer, err := filled(room, func(buffer []byte) C.relkvanu_answer { return write(text(buffer)) })
	if err != nil {
		return nil, err
	}
	return buffer[:answer.a], nil
}
