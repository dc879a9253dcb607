package relkvanu

// #include <relkvanu.h>
import "C"

import "fmt"

// Reads change nothing. Each returns ErrClosed after Close. PinsOf and TakenFiles may return ErrNoMemory too, and no other read has
// another error.

// bindings/generate makes the modes

// Mode is what a job is doing.
type Mode uint32

// The numbers of Mode.
const (
	Running      Mode = C.RELKVANU_MODE_RUNNING   // The job takes checkpoints.
	Failed       Mode = C.RELKVANU_MODE_FAILED    // Too many checkpoints failed in a row: restore the job.
	WasCancelled Mode = C.RELKVANU_MODE_CANCELLED // The job has ended for good.
)

var namesMode = map[Mode]string{
	Running:      "running",
	Failed:       "failed",
	WasCancelled: "cancelled",
}

// String is as a script prints it, such as "cancelled".
func (it Mode) String() string { return named(namesMode, it) }

// bindings/generate: end

// Kind is what a record is.
type Kind uint32

// The kinds of records. Fresh is that of no record.
const (
	Fresh      Kind = iota
	Checkpoint      // it belongs to the coordinator
	Savepoint       // it belongs to a user
)

var kinds = map[Kind]string{Fresh: "fresh", Checkpoint: "checkpoint", Savepoint: "savepoint"}

func (k Kind) String() string { return named(kinds, k) }

// Choice is what a job begins from: a record, or nothing.
type Choice struct {
	Kind Kind
	ID   uint64 // 0 if the kind is Fresh
}

// String is as a script writes it, such as "checkpoint 4" or "fresh".
func (c Choice) String() string {
	if c.Kind == Fresh {
		return c.Kind.String()
	}
	return fmt.Sprintf("%v %d", c.Kind, c.ID)
}

// Live is a live record.
type Live struct {
	ID   uint64
	Kind Kind
	Done bool // or it is pending
}

// bindings/generate makes the standings

// Standing is what a number is.
type Standing uint32

// The numbers of Standing.
const (
	Pending Standing = C.RELKVANU_STANDS_PENDING // A live record has the number, and lacks an acknowledgement.
	Done    Standing = C.RELKVANU_STANDS_DONE    // A live record has the number, and is complete.
	Ended   Standing = C.RELKVANU_STANDS_ENDED   // A record had the number, and is no longer live.
	NotYet  Standing = C.RELKVANU_STANDS_NOT_YET // No record has had the number so far.
	Never   Standing = C.RELKVANU_STANDS_NEVER   // The number is below the first one of the opening.
)

var namesStanding = map[Standing]string{
	Pending: "pending",
	Done:    "done",
	Ended:   "ended",
	NotYet:  "not yet",
	Never:   "never",
}

// String is as a script prints it, such as "never".
func (it Standing) String() string { return named(namesStanding, it) }

// bindings/generate: end

// FileCounts is how many files are in use by live records, each counted once, wait for deletion, and were fetched and not yet reported.
type FileCounts struct{ InUse, Waiting, Taken uint64 }

// bindings/generate makes the reads

// Mode: What the job is doing.
func (c *Coordinator) Mode() (Mode, error) {
	answer, err := c.called(func(handle *C.relkvanu) C.relkvanu_answer { return C.relkvanu_mode(handle) })
	return Mode(answer.what), known(namesMode, answer, err)
}

// Moment: The greatest moment that the coordinator has seen, at its opening or in an accepted call. It takes an earlier moment for this
// one. So it shows whether a clock has run ahead.
func (c *Coordinator) Moment() (uint64, error) {
	answer, err := c.called(func(handle *C.relkvanu) C.relkvanu_answer { return C.relkvanu_moment(handle) })
	return uint64(answer.a), err
}

// Due: The moment from which neither the interval nor the pause holds a checkpoint back. No tick before it triggers one. A tick at it or
// later triggers one, with three exceptions: as many are pending as may be, the job is not running, or so many checkpoints expire in the
// tick that the job fails over. A call that triggers, completes, restores or configures may move this moment, so read it again after a
// call.
func (c *Coordinator) Due() (uint64, error) {
	answer, err := c.called(func(handle *C.relkvanu) C.relkvanu_answer { return C.relkvanu_due(handle) })
	return uint64(answer.a), err
}

// OldestExpiry: The moment from which a pending record is expired. A tick at that moment drops the record. None if no record is pending.
// Visits each pending record.
func (c *Coordinator) OldestExpiry() (uint64, bool, error) {
	answer, err := c.called(func(handle *C.relkvanu) C.relkvanu_answer { return C.relkvanu_oldest_expiry(handle) })
	return uint64(answer.a), err == nil && answer.what == C.RELKVANU_EXPIRES, err
}

// Choice: The record that a restore of the latest would begin from.
func (c *Coordinator) Choice() (Choice, error) {
	answer, err := c.called(func(handle *C.relkvanu) C.relkvanu_answer { return C.relkvanu_choice(handle) })
	return chosen(answer, err)
}

// Live: The live record at this place, from 0, in order of their numbers; none past the last. The time grows with the place.
func (c *Coordinator) Live(place uint64) (Live, bool, error) {
	answer, err := c.called(func(handle *C.relkvanu) C.relkvanu_answer { return C.relkvanu_live(handle, C.size_t(place)) })
	return live(answer, err)
}

// Missing: How many subtasks of this record have not acknowledged. None if no record with this number is pending.
func (c *Coordinator) Missing(id uint64) (uint64, bool, error) {
	answer, err := c.called(func(handle *C.relkvanu) C.relkvanu_answer { return C.relkvanu_missing(handle, C.uint64_t(id)) })
	return uint64(answer.a), err == nil && answer.what == C.RELKVANU_MISSING, err
}

// LiveFrom: The live record with the least number that is at least id; none if there is none. To visit all live records, begin with 0, and
// go on with the returned number plus 1. A binary search. Takes no memory.
func (c *Coordinator) LiveFrom(id uint64) (Live, bool, error) {
	answer, err := c.called(func(handle *C.relkvanu) C.relkvanu_answer { return C.relkvanu_live_from(handle, C.uint64_t(id)) })
	return live(answer, err)
}

// Standing: Whether the record with this number is pending, done or ended, or no record has had the number. A binary search. Takes no
// memory.
func (c *Coordinator) Standing(id uint64) (Standing, error) {
	answer, err := c.called(func(handle *C.relkvanu) C.relkvanu_answer { return C.relkvanu_standing(handle, C.uint64_t(id)) })
	return Standing(answer.what), known(namesStanding, answer, err)
}

// WaitingFile: The file at this place, from 0, among those that wait for deletion. The next to be fetched is the first. None past the last.
// Takes constant time and no memory.
func (c *Coordinator) WaitingFile(place uint64) (uint64, bool, error) {
	answer, err := c.called(func(handle *C.relkvanu) C.relkvanu_answer { return C.relkvanu_waiting_file(handle, C.size_t(place)) })
	return uint64(answer.a), err == nil && answer.what == C.RELKVANU_WAITING, err
}

// FilesOf: The files that the subtask vertex.index acknowledged in the live record id, in ascending order. None if it has not acknowledged
// in one.
func (c *Coordinator) FilesOf(id uint64, subtask Subtask) ([]uint64, bool, error) {
	return c.files(func(o *owner, at *C.uint64_t, length C.size_t) C.relkvanu_answer {
		return C.relkvanu_files_of(o.handle, C.uint64_t(id), C.uint16_t(subtask.Vertex), C.uint16_t(subtask.Index), at, length)
	})
}

// PinsOf: The files that the pending record id pins, in ascending order: the files of the record that a restart would have begun from at
// its trigger. None if no record with this number is pending.
func (c *Coordinator) PinsOf(id uint64) ([]uint64, error) {
	files, _, err := c.files(func(o *owner, at *C.uint64_t, length C.size_t) C.relkvanu_answer {
		return C.relkvanu_pins_of(o.handle, C.uint64_t(id), at, length)
	})
	return files, err
}

// TakenFiles: The files that were fetched for deletion and are not yet reported, in ascending order.
func (c *Coordinator) TakenFiles() ([]uint64, error) {
	files, _, err := c.files(func(o *owner, at *C.uint64_t, length C.size_t) C.relkvanu_answer {
		return C.relkvanu_taken_files(o.handle, at, length)
	})
	return files, err
}

// bindings/generate: end

// NextTick is the moment of the next tick after one with this reply (the zero one: it returned an error), unless another call comes
// first: when a checkpoint is due or a pending record expires. While as many are pending as may be, it is the expiry, because Due has
// passed. The second value is false if nothing changes before the next call, for example while the job has failed. After a tick that
// ran out of memory the moment has passed: wait for a second instead.
func (c *Coordinator) NextTick(last Ticked) (next uint64, is bool, err error) {
	err = c.Locked(func(held *Coordinator) error {
		mode, err := held.Mode()
		if err != nil || mode != Running {
			return err
		}
		if next, is, err = held.OldestExpiry(); err != nil || last.End == HeldAtOnce {
			return err
		}
		due, err := held.Due()
		if !is || due < next {
			next, is = due, true
		}
		return err
	})
	return next, is, err
}

// known is an error also if an answer has a number without a name here.
func known[Number ~uint32](names map[Number]string, answer C.relkvanu_answer, err error) error {
	if _, is := names[Number(answer.what)]; err == nil && !is {
		return unknown(answer)
	}
	return err
}

func chosen(answer C.relkvanu_answer, err error) (Choice, error) {
	if err != nil {
		return Choice{}, err
	}
	switch answer.what {
	case C.RELKVANU_CHOICE_CHECKPOINT:
		return Choice{Kind: Checkpoint, ID: uint64(answer.a)}, nil
	case C.RELKVANU_CHOICE_SAVEPOINT:
		return Choice{Kind: Savepoint, ID: uint64(answer.a)}, nil
	case C.RELKVANU_CHOICE_FRESH:
		return Choice{}, nil
	}
	return Choice{}, unknown(answer)
}

func live(answer C.relkvanu_answer, err error) (Live, bool, error) {
	if err != nil {
		return Live{}, false, err
	}
	it := Live{ID: uint64(answer.a), Kind: Checkpoint, Done: answer.b == 1}
	switch answer.what {
	case C.RELKVANU_LIVE_CHECKPOINT:
		return it, true, nil
	case C.RELKVANU_LIVE_SAVEPOINT:
		it.Kind = Savepoint
		return it, true, nil
	case C.RELKVANU_LIVE_NONE:
		return Live{}, false, nil
	}
	return Live{}, false, unknown(answer)
}

func (c *Coordinator) files(fetch func(o *owner, at *C.uint64_t, length C.size_t) C.relkvanu_answer) ([]uint64, bool, error) {
	o, err := c.enter()
	if err != nil {
		return nil, false, err
	}
	defer c.leave()
	buffer, answer, err := filled(64, func(buffer []uint64) C.relkvanu_answer {
		at, length := list(buffer)
		return fetch(o, at, length)
	})
	if err != nil || answer.what != C.RELKVANU_FILES {
		return nil, false, err
	}
	return buffer[:answer.a], true, nil
}

// FileCounts counts the files.
func (c *Coordinator) FileCounts() (FileCounts, error) {
	o, err := c.enter()
	if err != nil {
		return FileCounts{}, err
	}
	defer c.leave()
	counts := C.relkvanu_file_counts(o.handle)
	return FileCounts{uint64(counts.in_use), uint64(counts.waiting), uint64(counts.taken)}, fault(C.relkvanu_answer{code: counts.code})
}
