package relkvanu

// #include <relkvanu.h>
import "C"

// Lines of a script (docs/SCRIPT.md) and of a log with names (docs/LOGS.md): a log of calls, which the library writes and reads.

// Line is what the bytes before a newline say: a LineSkip, LineConfig, LineJob, LineStart, LineAll or LineCall.
type Line interface{ isLine() }

type (
	// LineSkip has no words, or is a comment.
	LineSkip struct{}
	// LineConfig has the settings of a job.
	LineConfig Settings
	// LineJob has the parallelism of each vertex.
	LineJob []uint64
	// LineStart has the moment of the opening.
	LineStart uint64
	// LineAll is for programs that run scripts.
	LineAll struct{ Now, ID, Threads, First uint64 }
	// LineCall makes a call.
	LineCall struct{}
)

func (LineSkip) isLine()   {}
func (LineConfig) isLine() {}
func (LineJob) isLine()    {}
func (LineStart) isLine()  {}
func (LineAll) isLine()    {}
func (LineCall) isLine()   {}

// LineSays says what a line is. The error is a LineFault if it can't be read. Checks no number against the limits of a job.
func LineSays(line []byte) (Line, error) {
	if wrongLibrary != nil {
		return nil, wrongLibrary
	}
	at, length := text(line)
	numbers, says, err := filled(8, func(numbers []uint64) C.relkvanu_answer {
		to, room := list(numbers)
		return C.relkvanu_line_says(at, length, to, room)
	})
	if err != nil {
		return nil, err
	}
	return lineOf(says, numbers)
}

func lineOf(says C.relkvanu_answer, numbers []uint64) (Line, error) {
	switch n := numbers; says.what {
	case C.RELKVANU_LINE_SKIP:
		return LineSkip{}, nil
	case C.RELKVANU_LINE_CONFIG:
		return LineConfig{n[0], n[1], n[2], n[3], n[4], n[5], n[6] != 0}, nil
	case C.RELKVANU_LINE_JOB:
		return LineJob(n[:says.a]), nil
	case C.RELKVANU_LINE_START:
		return LineStart(n[0]), nil
	case C.RELKVANU_LINE_ALL:
		return LineAll{n[0], n[1], n[2], n[3]}, nil
	case C.RELKVANU_LINE_CALL:
		return LineCall{}, nil
	}
	return nil, unknown(says)
}

// OpeningLines are the lines config, job and start of a coordinator whose first record has the number 1, each with its newline. The
// error is a BadArgument if Open returns it.
func OpeningLines(settings Settings, shape []uint64, now uint64) ([]byte, error) {
	if wrongLibrary != nil {
		return nil, wrongLibrary
	}
	own := settings.inC()
	return written(256, func(to *C.uint8_t, room C.size_t) C.relkvanu_answer {
		at, length := list(shape)
		return C.relkvanu_opening_lines(&own, at, length, C.uint64_t(now), to, room)
	})
}

func atMoment(kind CallKind, now uint64) ([]byte, error) { return Call{Kind: kind, Now: now}.Line() }

func ofNumber(kind CallKind, number uint64) ([]byte, error) {
	return Call{Kind: kind, Number: number}.Line()
}

// The line of each call, without a newline. It reads back as that call. The error is LineTooLong if it would be too long: none is cut.

// bindings/generate makes the lines of calls of one number

// TickLine is the line of a Tick.
func TickLine(now uint64) ([]byte, error) { return atMoment(CallTick, now) }

// SavepointLine is the line of a Savepoint.
func SavepointLine(now uint64) ([]byte, error) { return atMoment(CallSavepoint, now) }

// DisposeLine is the line of a Dispose.
func DisposeLine(id uint64) ([]byte, error) { return ofNumber(CallDispose, id) }

// CancelLine is the line of a Cancel.
func CancelLine(now uint64) ([]byte, error) { return atMoment(CallCancel, now) }

// DeletedLine is the line of a Deleted.
func DeletedLine(file uint64) ([]byte, error) { return ofNumber(CallDeleted, file) }

// UndeletedLine is the line of an Undeleted.
func UndeletedLine(file uint64) ([]byte, error) { return ofNumber(CallUndeleted, file) }

// CountLine is the line of a Count.
func CountLine(file uint64) ([]byte, error) { return ofNumber(CallCount, file) }

// FenceLine is the line of a Fence.
func FenceLine(firstName uint64) ([]byte, error) { return ofNumber(CallFence, firstName) }

// TriggerLine is the line of a Trigger.
func TriggerLine(now uint64) ([]byte, error) { return atMoment(CallTrigger, now) }

// bindings/generate: end

// With term 0 that of a task is the line of a call without a term.

// bindings/generate makes the lines of calls of tasks

// AckLine is the line of an Ack.
func AckLine(now uint64, id uint64, subtask Subtask, fresh []uint64, reused []uint64) ([]byte, error) {
	return Call{Kind: CallAck, Now: now, Number: id, Subtask: subtask, First: fresh, Second: reused}.Line()
}

// DeclineLine is the line of a Decline.
func DeclineLine(now uint64, id uint64, subtask Subtask) ([]byte, error) {
	return Call{Kind: CallDecline, Now: now, Number: id, Subtask: subtask}.Line()
}

// ReserveLine is the line of a Reserve.
func ReserveLine(term uint64, count uint64) ([]byte, error) {
	return Call{Kind: CallReserve, Term: term, Number: count}.Line()
}

// ForfeitLine is the line of a Forfeit.
func ForfeitLine(term uint64, names []uint64) ([]byte, error) {
	return Call{Kind: CallForfeit, Term: term, First: names}.Line()
}

// AckInLine is the line of an AckIn.
func AckInLine(term uint64, now uint64, id uint64, subtask Subtask, fresh []uint64, reused []uint64) ([]byte, error) {
	return Call{Kind: CallAck, Term: term, Now: now, Number: id, Subtask: subtask, First: fresh, Second: reused}.Line()
}

// DeclineInLine is the line of a DeclineIn.
func DeclineInLine(term uint64, now uint64, id uint64, subtask Subtask) ([]byte, error) {
	return Call{Kind: CallDecline, Term: term, Now: now, Number: id, Subtask: subtask}.Line()
}

// bindings/generate: end

// RestoreLine is the line of a Restore.
func RestoreLine(now uint64, shape []uint64) ([]byte, error) { return restoreLine(now, 0, shape) }

// RestoreSavepointLine is the line of a RestoreSavepoint.
func RestoreSavepointLine(now, id uint64, shape []uint64) ([]byte, error) {
	if id == 0 {
		return nil, BadSavepoint
	}
	return restoreLine(now, id, shape)
}

func restoreLine(now, savepoint uint64, shape []uint64) ([]byte, error) {
	if shape != nil && len(shape) == 0 {
		return nil, BadShape
	}
	return Call{Kind: CallRestore, Now: now, Number: savepoint, First: shape}.Line()
}

// TakeLine is the line of a Take that fetches at most so many files.
func TakeLine(most uint64) ([]byte, error) { return ofNumber(CallTake, most) }

// ShowLine is the line of a Show.
func ShowLine(id uint64) ([]byte, error) { return ofNumber(CallShow, id) }

// Line makes the call of a script's line: the bytes before its newline. The reply is nil if the line has no words or is a comment. The
// error is a LineFault if it can't be read or makes no call, or what the call returns. A take line fetches all files that it may.
func (c *Coordinator) Line(line []byte) (Reply, error) {
	o, err := c.enter()
	if err != nil {
		return nil, err
	}
	defer c.leave()
	o.moved()
	at, length := text(line)
	var taken []uint64
	for room := uint64(64); ; {
		taken = make([]uint64, room)
		to, places := list(taken)
		answer := C.relkvanu_line(o.handle, at, length, to, places)
		if answer.code != C.RELKVANU_TOO_SHORT {
			if err := fault(answer); err != nil {
				return nil, err
			}
			return replyOf(answer, taken)
		}
		if id, isShow := shown(line); isShow {
			return o.shownReply(id)
		}
		room = uint64(answer.a)
	}
}

func (o *owner) shownReply(id uint64) (Reply, error) {
	shown, err := o.show(id)
	if err != nil {
		return nil, err
	}
	return shown, nil
}

// shown is the record of a show line, and false for another one.
func shown(line []byte) (uint64, bool) {
	call, is, err := CallOf(line)
	return call.Number, err == nil && is && call.Kind == CallShow
}

// replyOf is the reply of a line, whose files are in taken if it fetched any.
func replyOf(answer C.relkvanu_answer, taken []uint64) (Reply, error) {
	a, b := uint64(answer.a), uint64(answer.b)
	switch answer.what {
	case C.RELKVANU_SKIPPED:
		return nil, nil
	// bindings/generate makes the replies to calls of one number
	case C.RELKVANU_SAVEPOINT_TRIGGERED:
		return SavepointTriggered{a}, nil
	case C.RELKVANU_DISPOSED:
		return Disposed{a}, nil
	case C.RELKVANU_CANCELLED:
		return Cancelled{a, b}, nil
	case C.RELKVANU_DELETED:
		return FileDeleted{a}, nil
	case C.RELKVANU_UNDELETED:
		return FileUndeleted{a}, nil
	case C.RELKVANU_COUNTED:
		return Counted{a, b}, nil
	case C.RELKVANU_CONFIGURED:
		return Configured{a, b}, nil
	// bindings/generate: end
	case C.RELKVANU_TAKEN:
		return Taken{taken[:a]}, nil
	case C.RELKVANU_RESERVED:
		return Reserved{a, b}, nil
	case C.RELKVANU_FORFEITED:
		return Forfeited{}, nil
	case C.RELKVANU_NAMED:
		return Named{}, nil
	case C.RELKVANU_ACK_PENDING, C.RELKVANU_ACK_COMPLETED, C.RELKVANU_ACK_LATE:
		return acked(answer)
	case C.RELKVANU_DECLINE_ABORTED, C.RELKVANU_DECLINE_FAILED, C.RELKVANU_DECLINE_LATE:
		return declined(answer)
	case C.RELKVANU_RESTORED_CHECKPOINT, C.RELKVANU_RESTORED_SAVEPOINT, C.RELKVANU_RESTORED_FRESH:
		return restored(answer)
	}
	if reply, err := ticked(answer); err == nil {
		return reply, nil
	}
	return nil, unknown(answer)
}
