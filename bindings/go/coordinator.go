package relkvanu

// #include <relkvanu.h>
import "C"

import (
	"runtime"
	"sync"
)

const (
	day        = 24 * 60 * 60 * 1000
	lastMoment = 1<<62 - 1
)

// Coordinator is the checkpoint coordinator of one job. The zero value is a closed one, and so is nil. Copies are the same coordinator.
//
// A moment that is far ahead would stop the job's checkpoints until then. So a call is refused with MomentTooLarge if its moment is
// more than a day beyond the greatest moment so far, and beyond what a timer waits for. SetMostAhead sets another time, which an
// engine does if a longer time may pass without a call. Lines of a log are not checked.
type Coordinator struct {
	owner  *owner
	isHeld bool // the caller has the lock
}

// owner has the handle, which one call at a time uses. A finalizer closes a coordinator that is lost. It is only a net: the collector does
// not see the library's memory, so a lost coordinator may stay for long.
type owner struct {
	lock      sync.Mutex
	handle    *C.relkvanu // by itself, because C may get no memory that points to Go's
	entered   uint64      // calls, so that the race detector sees one without the lock: it does not look into C
	calls     uint64      // that may have changed what a timer waits for
	isClosed  bool
	called    chan struct{} // of those who wait for the next of these; nil if nobody does
	mostAhead uint64
	seen      uint64 // a moment that an accepted call has named
	imageRoom int    // bytes that the next image probably fits: a buffer that is too short costs a second image
}

// Open opens a coordinator at the moment now. The shape is the number of subtasks of each vertex. The first record has the number first:
// 1 for a new job, otherwise one above all earlier numbers. A BadArgument is of the settings first, then of the shape, the moment and
// the first number.
func Open(settings Settings, shape []uint64, now, first uint64) (*Coordinator, error) {
	own := settings.inC()
	return opened(now, func(o *owner, one, two C.uint64_t) C.relkvanu_answer {
		at, length := list(shape)
		return C.relkvanu_open(o.handle, &own, at, length, C.uint64_t(now), C.uint64_t(first), one, two)
	})
}

// OpenSaved opens the coordinator that an image describes, which Save returned (docs/LOGS.md): with names if the image has some. It answers
// every list of calls as the saved one would. The error is BadImage if the bytes are not an image, or the state is not sound, or no
// coordinator could be opened so.
//
// All calls that were made after the save are made again, before any task makes a call. Otherwise names that were given out since then are
// given out again, and a term that has ended runs again.
func OpenSaved(image []byte) (*Coordinator, error) {
	return opened(0, func(o *owner, one, two C.uint64_t) C.relkvanu_answer {
		at, length := text(image)
		return C.relkvanu_open_saved(o.handle, at, length, one, two)
	})
}

func opened(seen uint64, open func(o *owner, one, two C.uint64_t) C.relkvanu_answer) (*Coordinator, error) {
	if wrongLibrary != nil {
		return nil, wrongLibrary
	}
	one, two, err := words()
	if err != nil {
		return nil, err
	}
	o := &owner{handle: &C.relkvanu{}, mostAhead: day, seen: seen, imageRoom: 256}
	if err := fault(open(o, one, two)); err != nil {
		return nil, err
	}
	runtime.SetFinalizer(o, (*owner).close)
	return &Coordinator{owner: o}, nil
}

// enter takes the lock, unless the caller has it. Leave follows if there is no error.
func (c *Coordinator) enter() (*owner, error) {
	if c == nil || c.owner == nil {
		return nil, ErrClosed
	}
	if !c.isHeld {
		c.owner.lock.Lock()
	}
	c.owner.entered++
	return c.owner, nil
}

func (c *Coordinator) leave() {
	if !c.isHeld {
		c.owner.lock.Unlock()
	}
}

// Locked calls f with the same coordinator, and keeps other goroutines' calls out meanwhile. In f call what it gets: the coordinator
// outside would wait for ever. Delete, send and wait outside of f. What f gets is closed once f has returned.
func (c *Coordinator) Locked(f func(held *Coordinator) error) error {
	o, err := c.enter()
	if err != nil {
		return err
	}
	defer c.leave()
	held := &Coordinator{owner: o, isHeld: true}
	defer func() { held.owner = nil }()
	return f(held)
}

// Close closes the coordinator and frees its memory. A closed one stays closed. The error is always nil.
func (c *Coordinator) Close() error {
	if o, err := c.enter(); err == nil {
		defer c.leave()
		o.close()
	}
	return nil
}

func (o *owner) close() {
	C.relkvanu_close(o.handle)
	o.isClosed = true
	o.wake()
	runtime.SetFinalizer(o, nil)
}

func (o *owner) wake() {
	if o.called != nil {
		close(o.called)
		o.called = nil
	}
}

// moved says that a call may change what a timer waits for.
func (o *owner) moved() {
	o.calls++
	o.wake()
}

// Calls is the number of calls that may have changed what a timer waits for.
func (c *Coordinator) Calls() uint64 {
	o, err := c.enter()
	if err != nil {
		return 0
	}
	defer c.leave()
	return o.calls
}

// Called returns a channel that is closed once Calls is above seen, or the coordinator is closed.
func (c *Coordinator) Called(seen uint64) <-chan struct{} {
	o, err := c.enter()
	if err == nil {
		defer c.leave()
	}
	if err != nil || o.isClosed || o.calls > seen {
		over := make(chan struct{})
		close(over)
		return over
	}
	if o.called == nil {
		o.called = make(chan struct{})
	}
	return o.called
}

// SetMostAhead sets how far ahead, in milliseconds, the moment of a call may be.
func (c *Coordinator) SetMostAhead(milliseconds uint64) {
	if o, err := c.enter(); err == nil {
		defer c.leave()
		o.mostAhead = milliseconds
	}
}

// isAhead says whether a moment is too far ahead. Only if it is beyond a moment that was surely seen, it reads.
func (o *owner) isAhead(now uint64) bool {
	if now > lastMoment || now < o.mostAhead || now-o.mostAhead <= o.seen {
		return false // the library refuses a moment that is too large, and a closed handle
	}
	past := C.uint64_t(now - o.mostAhead)
	moment, due, expiry := C.relkvanu_moment(o.handle), C.relkvanu_due(o.handle), C.relkvanu_oldest_expiry(o.handle)
	return moment.code == C.RELKVANU_DONE && past > moment.a && past > due.a && past > expiry.a
}

// timed makes a call at a moment, which may change what a timer waits for.
func (o *owner) timed(now uint64, call func(handle *C.relkvanu) C.relkvanu_answer) (C.relkvanu_answer, error) {
	if o.isAhead(now) {
		return C.relkvanu_answer{}, &Refused{Why: MomentTooLarge}
	}
	answer := call(o.handle)
	o.moved()
	err := fault(answer)
	if err == nil && now > o.seen {
		o.seen = now
	}
	return answer, err
}

// replied makes a call at a moment, and returns its reply.
func replied[Of any](c *Coordinator, now uint64, reply func(answer C.relkvanu_answer) (Of, error), call func(handle *C.relkvanu) C.relkvanu_answer) (made Of, err error) {
	o, err := c.enter()
	if err != nil {
		return made, err
	}
	defer c.leave()
	answer, err := o.timed(now, call)
	if err != nil {
		return made, err
	}
	return reply(answer)
}

// onlyAt makes a call at a moment, whose only answer is this one.
func (c *Coordinator) onlyAt(now uint64, what C.uint32_t, call func(handle *C.relkvanu) C.relkvanu_answer) (C.relkvanu_answer, error) {
	return replied(c, now, func(answer C.relkvanu_answer) (C.relkvanu_answer, error) { return answer, expected(answer, what) }, call)
}

// bindings/generate makes the calls of one number

// Tick: Time has passed: records that are too old expire, and a checkpoint is triggered if one is due.
func (c *Coordinator) Tick(now uint64) (Ticked, error) {
	return replied(c, now, ticked, func(handle *C.relkvanu) C.relkvanu_answer { return C.relkvanu_tick(handle, C.uint64_t(now)) })
}

// Savepoint: Triggers a savepoint. At most 1000 savepoints are pending or done.
func (c *Coordinator) Savepoint(now uint64) (SavepointTriggered, error) {
	answer, err := c.onlyAt(now, C.RELKVANU_SAVEPOINT_TRIGGERED, func(handle *C.relkvanu) C.relkvanu_answer { return C.relkvanu_savepoint(handle, C.uint64_t(now)) })
	return SavepointTriggered{ID: uint64(answer.a)}, err
}

// Dispose: A user disposes of the completed savepoint id.
func (c *Coordinator) Dispose(id uint64) (Disposed, error) {
	answer, err := c.only(C.RELKVANU_DISPOSED, func(handle *C.relkvanu) C.relkvanu_answer { return C.relkvanu_dispose(handle, C.uint64_t(id)) })
	return Disposed{Released: uint64(answer.a)}, err
}

// Cancel: The job ends for good.
func (c *Coordinator) Cancel(now uint64) (Cancelled, error) {
	answer, err := c.onlyAt(now, C.RELKVANU_CANCELLED, func(handle *C.relkvanu) C.relkvanu_answer { return C.relkvanu_cancel(handle, C.uint64_t(now)) })
	return Cancelled{Dropped: uint64(answer.a), Released: uint64(answer.b)}, err
}

// Trigger: Triggers a checkpoint now, whatever the interval and the pause. Nothing expires: make a tick first if records may be too old.
// The interval counts from it, as after a tick that triggers.
func (c *Coordinator) Trigger(now uint64) (Ticked, error) {
	return replied(c, now, ticked, func(handle *C.relkvanu) C.relkvanu_answer { return C.relkvanu_trigger(handle, C.uint64_t(now)) })
}

// bindings/generate: end

// Restore begins the job again from the latest record. A shape gives it another parallelism; nil keeps it. A bad shape, such as one that
// is empty, is a BadShape before any refusal.
//
// End the old tasks before, and then sweep, and start tasks: docs/EMBEDDING.md.
func (c *Coordinator) Restore(now uint64, shape []uint64) (Restored, error) {
	return c.restore(now, 0, shape)
}

// RestoreSavepoint begins the job again from a savepoint, as Restore does from the latest record.
func (c *Coordinator) RestoreSavepoint(now, id uint64, shape []uint64) (Restored, error) {
	if id == 0 {
		return Restored{}, BadSavepoint
	}
	return c.restore(now, id, shape)
}

func (c *Coordinator) restore(now, savepoint uint64, shape []uint64) (Restored, error) {
	if shape != nil && len(shape) == 0 {
		if _, err := c.Moment(); err != nil {
			return Restored{}, err // a closed one
		}
		return Restored{}, BadShape
	}
	return replied(c, now, restored, func(handle *C.relkvanu) C.relkvanu_answer {
		at, length := list(shape)
		return C.relkvanu_restore(handle, C.uint64_t(now), C.uint64_t(savepoint), at, length)
	})
}
