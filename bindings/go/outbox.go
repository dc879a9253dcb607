package relkvanu

// #include <relkvanu.h>
import "C"

// called makes a call. If a timer waits for it, it says so itself.
func (c *Coordinator) called(call func(handle *C.relkvanu) C.relkvanu_answer) (C.relkvanu_answer, error) {
	o, err := c.enter()
	if err != nil {
		return C.relkvanu_answer{}, err
	}
	defer c.leave()
	answer := call(o.handle)
	return answer, fault(answer)
}

// Take fetches files that wait for deletion, at most as many as the buffer has places, and returns the part of the buffer that has
// them. Report each by Deleted or Undeleted. A repeated acknowledgement that comes late may hand out a file that no longer exists:
// report it as deleted.
func (c *Coordinator) Take(buffer []uint64) ([]uint64, error) {
	answer, err := c.only(C.RELKVANU_TAKEN, func(handle *C.relkvanu) C.relkvanu_answer {
		at, length := list(buffer)
		return C.relkvanu_take(handle, at, length)
	})
	if err != nil {
		return nil, err
	}
	return buffer[:answer.a], nil
}

// Deleted reports that a fetched file is deleted: it is gone even after a loss of power.
func (c *Coordinator) Deleted(file uint64) error {
	_, err := c.only(C.RELKVANU_DELETED, func(handle *C.relkvanu) C.relkvanu_answer { return C.relkvanu_deleted(handle, C.uint64_t(file)) })
	return err
}

// Undeleted reports that a fetched file could not be deleted: it waits again, behind all others.
func (c *Coordinator) Undeleted(file uint64) error {
	_, err := c.only(C.RELKVANU_UNDELETED, func(handle *C.relkvanu) C.relkvanu_answer { return C.relkvanu_undeleted(handle, C.uint64_t(file)) })
	return err
}

// Count is the number of uses of a file.
func (c *Coordinator) Count(file uint64) (Counted, error) {
	answer, err := c.only(C.RELKVANU_COUNTED, func(handle *C.relkvanu) C.relkvanu_answer { return C.relkvanu_count(handle, C.uint64_t(file)) })
	return Counted{File: uint64(answer.a), Uses: uint64(answer.b)}, err
}

// Show is the metadata of a live record.
func (c *Coordinator) Show(id uint64) (Shown, error) {
	o, err := c.enter()
	if err != nil {
		return Shown{}, err
	}
	defer c.leave()
	return o.show(id)
}

func (o *owner) show(id uint64) (Shown, error) {
	json, err := written(256, func(at *C.uint8_t, length C.size_t) C.relkvanu_answer {
		return C.relkvanu_show(o.handle, C.uint64_t(id), at, length)
	})
	return Shown{JSON: json}, err
}

// Save is the image of the coordinator, as JSON (docs/LOGS.md): all of its state.
func (c *Coordinator) Save() ([]byte, error) {
	o, err := c.enter()
	if err != nil {
		return nil, err
	}
	defer c.leave()
	image, err := written(o.imageRoom, func(at *C.uint8_t, length C.size_t) C.relkvanu_answer {
		return C.relkvanu_save(o.handle, at, length)
	})
	if err == nil {
		o.imageRoom = len(image) + len(image)/4
	}
	return image, err
}

func ticked(answer C.relkvanu_answer) (Ticked, error) {
	end := TickEnd(answer.what)
	switch end {
	case Triggered:
		return Ticked{End: end, Expired: uint64(answer.a), ID: uint64(answer.b)}, nil
	case HeldInterval, HeldAtOnce, HeldPause, TickFailed:
		return Ticked{End: end, Expired: uint64(answer.a)}, nil
	}
	return Ticked{}, unknown(answer)
}

func acked(answer C.relkvanu_answer) (Acked, error) {
	switch end := AckEnd(answer.what); end {
	case AckPending:
		return Acked{End: end, Missing: uint64(answer.a)}, nil
	case AckCompleted:
		return Acked{End: end, Dropped: uint64(answer.a), Released: uint64(answer.b)}, nil
	case AckLate:
		return Acked{End: end, HandedOut: uint64(answer.a)}, nil
	}
	return Acked{}, unknown(answer)
}

func declined(answer C.relkvanu_answer) (Declined, error) {
	switch end := DeclineEnd(answer.what); end {
	case DeclineAborted, DeclineFailed:
		return Declined{End: end, Released: uint64(answer.a)}, nil
	case DeclineLate:
		return Declined{End: end}, nil
	}
	return Declined{}, unknown(answer)
}

func restored(answer C.relkvanu_answer) (Restored, error) {
	it := Restored{From: Choice{ID: uint64(answer.b)}, Released: uint64(answer.a)}
	switch answer.what {
	case C.RELKVANU_RESTORED_CHECKPOINT:
		it.From.Kind = Checkpoint
	case C.RELKVANU_RESTORED_SAVEPOINT:
		it.From.Kind = Savepoint
	case C.RELKVANU_RESTORED_FRESH:
	default:
		return Restored{}, unknown(answer)
	}
	return it, nil
}
