package relkvanu

// #include <relkvanu.h>
import "C"

// bindings/generate makes the kinds

// CallKind is which call it is.
type CallKind uint32

// The numbers of CallKind.
const (
	CallTick      CallKind = C.RELKVANU_CALL_TICK
	CallSavepoint CallKind = C.RELKVANU_CALL_SAVEPOINT
	CallAck       CallKind = C.RELKVANU_CALL_ACK
	CallDecline   CallKind = C.RELKVANU_CALL_DECLINE
	CallDispose   CallKind = C.RELKVANU_CALL_DISPOSE
	CallRestore   CallKind = C.RELKVANU_CALL_RESTORE
	CallCancel    CallKind = C.RELKVANU_CALL_CANCEL
	CallTake      CallKind = C.RELKVANU_CALL_TAKE
	CallDeleted   CallKind = C.RELKVANU_CALL_DELETED
	CallUndeleted CallKind = C.RELKVANU_CALL_UNDELETED
	CallShow      CallKind = C.RELKVANU_CALL_SHOW
	CallCount     CallKind = C.RELKVANU_CALL_COUNT
	CallFence     CallKind = C.RELKVANU_CALL_FENCE   // The job gives out names from here on.
	CallReserve   CallKind = C.RELKVANU_CALL_RESERVE // A task reserves names.
	CallForfeit   CallKind = C.RELKVANU_CALL_FORFEIT // A task gives up names.
	CallTrigger   CallKind = C.RELKVANU_CALL_TRIGGER
	CallConfigure CallKind = C.RELKVANU_CALL_CONFIGURE
	CallAdvance   CallKind = C.RELKVANU_CALL_ADVANCE // The job goes on above the terms and names that were told.
)

// bindings/generate: end

// Call is a call as a line of a log says it. Fields that its kind does not use are zero.
type Call struct {
	Kind          CallKind
	Now           uint64
	Number        uint64 // of the record or the file; for a restore the savepoint, or 0 for the latest; the first name; the most files or names
	Subtask       Subtask
	First, Second []uint64 // of an ack the fresh and the reused files, ascending; First is the new shape of a restore, or empty; the names given up
	Term          uint64   // of the caller; 0: none
}

// CallOf is the call that a line says. The second value is false if the line has no words or is a comment. The error is a LineFault if
// it can't be read or makes no call, BadShape, or NoSuchSavepoint for the savepoint 0.
func CallOf(line []byte) (Call, bool, error) {
	if wrongLibrary != nil {
		return Call{}, false, wrongLibrary
	}
	at, length := text(line)
	var call C.relkvanu_call
	first, second := make([]uint64, 16), make([]uint64, 16)
	for {
		firstAt, firstLength := list(first)
		secondAt, secondLength := list(second)
		says := C.relkvanu_line_call(at, length, &call, firstAt, firstLength, secondAt, secondLength)
		if says.code == C.RELKVANU_TOO_SHORT {
			first, second = make([]uint64, says.a), make([]uint64, says.b)
			continue
		}
		if err := fault(says); err != nil || says.what == C.RELKVANU_SKIPPED {
			return Call{}, false, err
		}
		if says.what != C.RELKVANU_LINE_CALL {
			return Call{}, false, unknown(says)
		}
		return Call{
			Kind: CallKind(call.kind), Now: uint64(call.now), Number: uint64(call.number), First: first[:says.a], Second: second[:says.b],
			Subtask: Subtask{Vertex: uint16(call.vertex), Index: uint16(call.index)}, Term: uint64(call.term),
		}, true, nil
	}
}

// inC is the call without its lists.
func (c *Call) inC() C.relkvanu_call {
	return C.relkvanu_call{
		kind: C.uint32_t(c.Kind), now: C.uint64_t(c.Now), number: C.uint64_t(c.Number), vertex: C.uint16_t(c.Subtask.Vertex),
		index: C.uint16_t(c.Subtask.Index), term: C.uint64_t(c.Term),
	}
}

// Line is the line of the call, without a newline.
func (c Call) Line() ([]byte, error) {
	if wrongLibrary != nil {
		return nil, wrongLibrary
	}
	call := c.inC()
	return written(256, func(to *C.uint8_t, room C.size_t) C.relkvanu_answer {
		firstAt, firstLength := list(c.First)
		secondAt, secondLength := list(c.Second)
		return C.relkvanu_call_line(&call, firstAt, firstLength, secondAt, secondLength, to, room)
	})
}
