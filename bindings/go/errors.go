package relkvanu

// #include <relkvanu.h>
import "C"

import (
	"errors"
	"fmt"
)

var (
	// ErrNoMemory says that memory ran out. Make the same call again. If a log has its line already, make it before any other logged
	// call.
	ErrNoMemory = errors.New("relkvanu: out of memory")
	// ErrClosed says that the coordinator was closed, or never opened.
	ErrClosed = errors.New("relkvanu: the coordinator is closed")
)

// Refusal is why a call was refused: the first of these that applies.
type Refusal uint32

// The refusals, in the order in which they are checked.
const (
	// bindings/generate makes the refusals
	MomentTooLarge      Refusal = C.RELKVANU_MOMENT_TOO_LARGE     // The moment is above its limit.
	NotRunning          Refusal = C.RELKVANU_NOT_RUNNING          // The job has failed or was cancelled.
	TooManyFiles        Refusal = C.RELKVANU_TOO_MANY_FILES       // An acknowledgement has more than 4096 files.
	RepeatedFile        Refusal = C.RELKVANU_REPEATED_FILE        // An acknowledgement names a file twice.
	UnknownCheckpoint   Refusal = C.RELKVANU_UNKNOWN_CHECKPOINT   // No record has had the number.
	UnknownSubtask      Refusal = C.RELKVANU_UNKNOWN_SUBTASK      // The job has no such subtask.
	AlreadyAcknowledged Refusal = C.RELKVANU_ALREADY_ACKNOWLEDGED // The subtask has acknowledged in this record. Its files may belong to the coordinator: do not delete them.
	NameTaken           Refusal = C.RELKVANU_NAME_TAKEN           // The coordinator knows a file with the number of a fresh one. It may be in use: do not delete it.
	FileGone            Refusal = C.RELKVANU_FILE_GONE            // A reused file is no longer in use: the task writes its state again, under a new number.
	NoSuchSavepoint     Refusal = C.RELKVANU_NO_SUCH_SAVEPOINT    // No completed savepoint has the number.
	InUse               Refusal = C.RELKVANU_IN_USE               // The job would begin again from this savepoint.
	TooManySavepoints   Refusal = C.RELKVANU_TOO_MANY_SAVEPOINTS  // 1000 savepoints are pending or done.
	NotTaken            Refusal = C.RELKVANU_NOT_TAKEN            // The file was not fetched for deletion, or was reported before.
	NoSuchRecord        Refusal = C.RELKVANU_NO_SUCH_RECORD       // No live record has the number.
	IDsUsedUp           Refusal = C.RELKVANU_IDS_USED_UP          // No number is left for another record.
	AtOnce              Refusal = C.RELKVANU_AT_ONCE              // As many checkpoints are pending as may be, or more than the new settings allow.
	// bindings/generate: end
)

// String is the name of the refusal, such as "NotRunning".
func (r Refusal) String() string {
	var name [32]byte
	at, room := text(name[:])
	length := C.relkvanu_refusal_text(C.uint32_t(r), at, room)
	if length == 0 || length > room {
		return fmt.Sprintf("refusal %d", uint32(r))
	}
	return string(name[:length])
}

func (r Refusal) Error() string { return "relkvanu: the call is refused: " + r.String() }

// Refused says that the coordinator refused a call. It wraps its Refusal, so errors.Is(err, NameTaken) finds it, whatever the file.
type Refused struct {
	Why  Refusal
	File uint64 // the file that is to blame, after NameTaken and FileGone
}

var refusalsOfFiles = map[Refusal]bool{
	// bindings/generate makes which refusals name a file
	NameTaken: true,
	FileGone:  true,
	// bindings/generate: end
}

// String is as a script prints it, such as "NameTaken 7".
func (e *Refused) String() string { return withFile(e.Why, refusalsOfFiles[e.Why], e.File) }

func (e *Refused) Error() string { return "relkvanu: the call is refused: " + e.String() }

// Unwrap is the Refusal.
func (e *Refused) Unwrap() error { return e.Why }

// FencedError says that the term of a task or the names refuse a call, or that the coordinator has no names. It wraps its Fenced:
// errors.Is(err, FencedOldTerm). After FencedSpent a task deletes no file: an accepted acknowledgement may have named it, such as this one if
// it was sent before.
type FencedError struct {
	Why  Fenced
	File uint64 // the file that is to blame, after FencedSpent and FencedNeverReserved
}

var fencedOfFiles = map[Fenced]bool{
	// bindings/generate makes which reasons name a file
	FencedSpent:         true,
	FencedNeverReserved: true,
	// bindings/generate: end
}

// String is as a log prints it, such as "Spent 7".
func (e *FencedError) String() string { return withFile(e.Why, fencedOfFiles[e.Why], e.File) }

func (e *FencedError) Error() string { return "relkvanu: fenced: " + e.String() }

// Unwrap is the Fenced.
func (e *FencedError) Unwrap() error { return e.Why }

// withFile is a name, and the file if it has one.
func withFile(why fmt.Stringer, has bool, file uint64) string {
	if has {
		return fmt.Sprintf("%s %d", why.String(), file)
	}
	return why.String()
}

// BadSavepoint says that no savepoint has the number 0. Only this package checks it, before any refusal, as the library checks a shape.
const BadSavepoint BadArgument = 1 << 31

func init() {
	namesBadArgument[BadSavepoint] = "BadSavepoint"
}

// bindings/generate makes the other errors

// BadArgument: The argument that is outside its limits.
type BadArgument uint32

// The numbers of BadArgument.
const (
	AlreadyOpen BadArgument = C.RELKVANU_ALREADY_OPEN // The handle has a coordinator already.
	BadConfig   BadArgument = C.RELKVANU_BAD_CONFIG   // A value of the settings is outside its limits.
	BadShape    BadArgument = C.RELKVANU_BAD_SHAPE    // 1 to 256 vertices, at least 1 subtask each, at most 4096 in sum.
	BadMoment   BadArgument = C.RELKVANU_BAD_MOMENT   // The moment of an opening is above 2^62 - 1.
	BadFirst    BadArgument = C.RELKVANU_BAD_FIRST    // The number of the first record is not within 1 to 2^62 - 1.
	BadKind     BadArgument = C.RELKVANU_BAD_KIND     // The kind of a call that is to be written.
	BadImage    BadArgument = C.RELKVANU_BAD_IMAGE    // The bytes are not an image, or the state is not sound, or no coordinator could be opened so.
	BadName     BadArgument = C.RELKVANU_BAD_NAME     // The first name is 0 or above 2^62.
	BadGroup    BadArgument = C.RELKVANU_BAD_GROUP    // The group has failed: open the handle again, from the log.
	BadReceipt  BadArgument = C.RELKVANU_BAD_RECEIPT  // No answer may be told by the receipt, or there is no place or receipt for another answer.
)

var namesBadArgument = map[BadArgument]string{
	AlreadyOpen: "AlreadyOpen",
	BadConfig:   "BadConfig",
	BadShape:    "BadShape",
	BadMoment:   "BadMoment",
	BadFirst:    "BadFirst",
	BadKind:     "BadKind",
	BadImage:    "BadImage",
	BadName:     "BadName",
	BadGroup:    "BadGroup",
	BadReceipt:  "BadReceipt",
}

// String is the name, such as "AlreadyOpen".
func (it BadArgument) String() string { return named(namesBadArgument, it) }

func (it BadArgument) Error() string {
	return "relkvanu: an argument is outside its limits: " + it.String()
}

// LineFault: What is wrong with a line: the first fault from the left.
type LineFault uint32

// The numbers of LineFault.
const (
	LineTooLong LineFault = C.RELKVANU_FAULT_TOO_LONG // A line has at most 131072 bytes.
	LineWord    LineFault = C.RELKVANU_FAULT_WORD     // A word that does not belong there.
	LineMissing LineFault = C.RELKVANU_FAULT_MISSING  // The line ends before a word that it needs.
	LineNumber  LineFault = C.RELKVANU_FAULT_NUMBER   // Not a number, or not a subtask.
	LineExtra   LineFault = C.RELKVANU_FAULT_EXTRA    // A word follows the last one.
	LineNoCall  LineFault = C.RELKVANU_FAULT_NO_CALL  // A config, job, start or all line, or in and a term before what is no call: it was read, and makes no call.
)

var namesLineFault = map[LineFault]string{
	LineTooLong: "TooLong",
	LineWord:    "Word",
	LineMissing: "Missing",
	LineNumber:  "Number",
	LineExtra:   "Extra",
	LineNoCall:  "NoCall",
}

// String is the name, such as "TooLong".
func (it LineFault) String() string { return named(namesLineFault, it) }

func (it LineFault) Error() string { return "relkvanu: the line can't be read: " + it.String() }

// Fenced: Why a term or the names refuse a call.
type Fenced uint32

// The numbers of Fenced.
const (
	FencedOldTerm       Fenced = C.RELKVANU_OLD_TERM       // The term of the task has ended, or has not begun.
	FencedEnded         Fenced = C.RELKVANU_ENDED          // The job was cancelled, and no task runs.
	FencedBadCount      Fenced = C.RELKVANU_BAD_COUNT      // It would reserve no name, or more than 65536.
	FencedNamesUsedUp   Fenced = C.RELKVANU_NAMES_USED_UP  // All names up to 2^62 - 1 were given out.
	FencedTermsUsedUp   Fenced = C.RELKVANU_TERMS_USED_UP  // As many terms have ended as can be counted, 2^62.
	FencedSpent         Fenced = C.RELKVANU_SPENT          // Its name was given out, and the term does not hold it: nobody deletes it for this answer.
	FencedNeverReserved Fenced = C.RELKVANU_NEVER_RESERVED // Its name was not given out.
	FencedNoNames       Fenced = C.RELKVANU_NO_NAMES       // The handle has no names.
	FencedHasNames      Fenced = C.RELKVANU_HAS_NAMES      // The handle has names.
	FencedNameInUse     Fenced = C.RELKVANU_NAME_IN_USE    // A file with this number or a greater one is in use, waits for deletion or was fetched.
)

var namesFenced = map[Fenced]string{
	FencedOldTerm:       "OldTerm",
	FencedEnded:         "Ended",
	FencedBadCount:      "BadCount",
	FencedNamesUsedUp:   "NamesUsedUp",
	FencedTermsUsedUp:   "TermsUsedUp",
	FencedSpent:         "Spent",
	FencedNeverReserved: "NeverReserved",
	FencedNoNames:       "NoNames",
	FencedHasNames:      "HasNames",
	FencedNameInUse:     "NameInUse",
}

// String is the name, such as "OldTerm".
func (it Fenced) String() string { return named(namesFenced, it) }

func (it Fenced) Error() string { return "relkvanu: fenced: " + it.String() }

// bindings/generate: end

// named is the name of a number, or the number if it has none: the library is of another version.
func named[Number ~uint32](names map[Number]string, number Number) string {
	if name, is := names[number]; is {
		return name
	}
	return fmt.Sprintf("number %d", uint32(number))
}

// OtherLibrary says that the linked library has another interface than the header with which this package was compiled.
type OtherLibrary struct{ Package, Library string }

func (e *OtherLibrary) Error() string {
	return fmt.Sprintf("relkvanu: this program was compiled for version %s of the library, and it runs with version %s, which has another "+
		"interface: install librelkvanu %[1]s, or compile the program again", e.Package, e.Library)
}

// Unknown says that the library gave an answer which this package does not know, so a library of another version is linked. If Code
// is 0, the call was made.
type Unknown struct{ Code, What uint32 }

func (e *Unknown) Error() string {
	return fmt.Sprintf("relkvanu: version %s of the library gave an answer that this package does not know: code %d, what %d", Version(), e.Code, e.What)
}

func unknown(answer C.relkvanu_answer) error {
	return &Unknown{Code: uint32(answer.code), What: uint32(answer.what)}
}

// fault is nil if the call was made.
func fault(answer C.relkvanu_answer) error {
	switch answer.code {
	case C.RELKVANU_DONE:
		return nil
	case C.RELKVANU_REFUSED:
		return &Refused{Why: Refusal(answer.what), File: uint64(answer.a)}
	case C.RELKVANU_FENCED:
		return &FencedError{Why: Fenced(answer.what), File: uint64(answer.a)}
	case C.RELKVANU_NO_MEMORY:
		return ErrNoMemory
	case C.RELKVANU_CLOSED:
		return ErrClosed
	// bindings/generate makes the codes
	case C.RELKVANU_BAD_ARGUMENT:
		return BadArgument(answer.what)
	case C.RELKVANU_BAD_LINE:
		return LineFault(answer.what)
		// bindings/generate: end
	}
	return unknown(answer)
}
