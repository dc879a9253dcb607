package relkvanu

// #include <relkvanu.h>
import "C"

// Terms and names. A coordinator with names gives out the numbers of the files that tasks will write, each once, and counts the terms of the
// job. Each accepted restore and cancel ends the term. What a task of an ended term sends returns FencedOldTerm, and changes nothing. A
// coordinator without names returns FencedNoNames for each of these calls, except Fence.

// OpenFenced opens a coordinator with names as Open opens one without, in term 1. The first name that it gives out is firstName, 1 to 2^62: all
// numbers of files that were used before are below it. Ack and Decline return FencedOldTerm then: its tasks call AckIn and DeclineIn. A
// BadArgument is of the settings first, then of the shape, the first name, the moment and the first number.
func OpenFenced(settings Settings, shape []uint64, now, first, firstName uint64) (*Coordinator, error) {
	own := settings.inC()
	return opened(now, func(o *owner, one, two C.uint64_t) C.relkvanu_answer {
		at, length := list(shape)
		return C.relkvanu_open_fenced(o.handle, &own, at, length, C.uint64_t(now), C.uint64_t(first), C.uint64_t(firstName), one, two)
	})
}

// Fence gives the coordinator names, from firstName on, in term 1. All numbers of files that were used before are below it, those of files that
// nobody acknowledged too. Call it between the end of all tasks and their restart, since a task that began before it has no term. The
// error is FencedHasNames, BadName, or FencedNameInUse if a known file has this number or a greater one.
func (c *Coordinator) Fence(firstName uint64) error {
	return c.named(C.RELKVANU_NAMED, func(handle *C.relkvanu) C.relkvanu_answer { return C.relkvanu_fence(handle, C.uint64_t(firstName)) })
}

// named makes a call that no timer waits for, and whose only answer is this one, without numbers.
func (c *Coordinator) named(what C.uint32_t, call func(handle *C.relkvanu) C.relkvanu_answer) error {
	_, err := c.only(what, call)
	return err
}

// only makes a call whose only answer is this one. If a timer waits for it, it says so itself.
func (c *Coordinator) only(what C.uint32_t, call func(handle *C.relkvanu) C.relkvanu_answer) (C.relkvanu_answer, error) {
	answer, err := c.called(call)
	if err == nil {
		err = expected(answer, what)
	}
	return answer, err
}

// expected is nil if a call that was made has this answer.
func expected(answer C.relkvanu_answer, what C.uint32_t) error {
	if answer.what != what {
		return unknown(answer)
	}
	return nil
}

// RunningTerm is the term that runs, and the next name that is given out.
type RunningTerm struct{ Term, NextName uint64 }

// Term is the term that runs, and the next name. Whoever restarts the tasks reads it after the restore, and tells each of them once the restore
// is durable. A task never asks for it: one that should be dead would learn the new term.
func (c *Coordinator) Term() (RunningTerm, error) {
	answer, err := c.only(C.RELKVANU_TERM, func(handle *C.relkvanu) C.relkvanu_answer { return C.relkvanu_term(handle) })
	return RunningTerm{Term: uint64(answer.a), NextName: uint64(answer.b)}, err
}

// Reserve reserves names for files that a task of this term will write, 1 to 65536. The reservation is in the durable log before the task uses
// one of them.
func (c *Coordinator) Reserve(term, count uint64) (Reserved, error) {
	answer, err := c.only(C.RELKVANU_RESERVED, func(handle *C.relkvanu) C.relkvanu_answer {
		return C.relkvanu_reserve(handle, C.uint64_t(term), C.uint64_t(count))
	})
	return Reserved{First: uint64(answer.a), Count: uint64(answer.b)}, err
}

// Forfeit gives up names that a task of this term will not acknowledge, such as those of a failed upload: their files are garbage then. Names
// that the term does not hold are passed over, so the call can be repeated.
func (c *Coordinator) Forfeit(term uint64, names []uint64) error {
	return c.named(C.RELKVANU_FORFEITED, func(handle *C.relkvanu) C.relkvanu_answer {
		at, length := list(names)
		return C.relkvanu_forfeit(handle, C.uint64_t(term), at, length)
	})
}

// After an error of an Ack or an AckIn a task deletes a file only if no accepted acknowledgement ever named it. So it deletes none after
// AlreadyAcknowledged, the answer to a repeat, and FencedSpent. After NameTaken it deletes no file that it named before. What a task wrote it has
// synced before, with the folder.

// bindings/generate makes the calls of tasks

// Ack: The subtask vertex.index has taken its part of record id. fresh has the files that it wrote. reused has files of earlier records
// that it uses again. Both may be in any order, with at most 4096 files together. After a refusal the task must not delete a file that an
// accepted acknowledgement ever named.
func (c *Coordinator) Ack(now uint64, id uint64, subtask Subtask, fresh []uint64, reused []uint64) (Acked, error) {
	return replied(c, now, acked, func(handle *C.relkvanu) C.relkvanu_answer {
		freshAt, freshLength := list(fresh)
		reusedAt, reusedLength := list(reused)
		return C.relkvanu_ack(handle, C.uint64_t(now), C.uint64_t(id), C.uint16_t(subtask.Vertex), C.uint16_t(subtask.Index), freshAt, freshLength, reusedAt, reusedLength)
	})
}

// Decline: The subtask vertex.index could not take its part of record id.
func (c *Coordinator) Decline(now uint64, id uint64, subtask Subtask) (Declined, error) {
	return replied(c, now, declined, func(handle *C.relkvanu) C.relkvanu_answer {
		return C.relkvanu_decline(handle, C.uint64_t(now), C.uint64_t(id), C.uint16_t(subtask.Vertex), C.uint16_t(subtask.Index))
	})
}

// Advance: Begins a job again that goes on from an older image or log, such as one that was restored from a backup: restore of the latest,
// in the shape that the job has, in a term above term, the greatest that any task was told, and with names from first_name on, 1 to 2^62,
// above each that was given out. A smaller term and a smaller first_name lower nothing. Names that are passed over are garbage, unless the
// handle's records use them. Make this call before any other of such a job. docs/RULES.md, section 13, says what it is for.
func (c *Coordinator) Advance(now uint64, term uint64, firstName uint64) (Restored, error) {
	return replied(c, now, restored, func(handle *C.relkvanu) C.relkvanu_answer {
		return C.relkvanu_advance(handle, C.uint64_t(now), C.uint64_t(term), C.uint64_t(firstName))
	})
}

// AckIn: ack of a task of this term. An accepted acknowledgement spends the names of its fresh files. So a task does not delete a file for
// Spent.
func (c *Coordinator) AckIn(term uint64, now uint64, id uint64, subtask Subtask, fresh []uint64, reused []uint64) (Acked, error) {
	return replied(c, now, acked, func(handle *C.relkvanu) C.relkvanu_answer {
		freshAt, freshLength := list(fresh)
		reusedAt, reusedLength := list(reused)
		return C.relkvanu_ack_in(handle, C.uint64_t(term), C.uint64_t(now), C.uint64_t(id), C.uint16_t(subtask.Vertex), C.uint16_t(subtask.Index), freshAt, freshLength, reusedAt, reusedLength)
	})
}

// DeclineIn: decline of a task of this term.
func (c *Coordinator) DeclineIn(term uint64, now uint64, id uint64, subtask Subtask) (Declined, error) {
	return replied(c, now, declined, func(handle *C.relkvanu) C.relkvanu_answer {
		return C.relkvanu_decline_in(handle, C.uint64_t(term), C.uint64_t(now), C.uint64_t(id), C.uint16_t(subtask.Vertex), C.uint16_t(subtask.Index))
	})
}

// bindings/generate: end

// Garbage is what Coordinator.Garbage tells of some files, in their order.
type Garbage struct {
	Garbage  []uint64 // garbage for good, so it may be deleted at any time
	Unissued []uint64 // their names were not given out. They are another job's, or a log was lost: nobody deletes them
}

// Garbage sorts files of a storage, at any time, also while tasks run: those that may be deleted, and those that nobody deletes. It changes
// nothing. Ask a coordinator whose calls are durable: one that forgot a call also forgets which files are in use.
func (c *Coordinator) Garbage(files []uint64) (Garbage, error) {
	garbage, unissued := make([]uint64, len(files)), make([]uint64, len(files))
	answer, err := c.only(C.RELKVANU_GARBAGE, func(handle *C.relkvanu) C.relkvanu_answer {
		at, length := list(files)
		garbageAt, _ := list(garbage)
		unissuedAt, _ := list(unissued)
		return C.relkvanu_garbage(handle, at, length, garbageAt, length, unissuedAt, length)
	})
	if err != nil {
		return Garbage{}, err
	}
	return Garbage{Garbage: garbage[:answer.a], Unissued: unissued[:answer.b]}, nil
}
