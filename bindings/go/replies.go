package relkvanu

// #include <relkvanu.h>
import "C"

import (
	"encoding/json"
	"fmt"
	"strings"
)

// Reply is what a line's call returned: a Ticked, SavepointTriggered, Acked, Declined, Disposed, Restored, Cancelled, Taken,
// FileDeleted, FileUndeleted, Shown, Counted, Reserved, Forfeited, Configured or Named. Each prints as a script or a log does (docs/SCRIPT.md, docs/LOGS.md).
type Reply interface {
	fmt.Stringer
	isReply()
}

// bindings/generate makes the ends of ticks

// TickEnd is what a tick did after records had expired. The zero value is that of no tick.
type TickEnd uint32

// The numbers of TickEnd.
const (
	Triggered    TickEnd = C.RELKVANU_TICK_TRIGGERED     // A checkpoint was triggered.
	HeldInterval TickEnd = C.RELKVANU_TICK_HELD_INTERVAL // No checkpoint is due yet.
	HeldAtOnce   TickEnd = C.RELKVANU_TICK_HELD_AT_ONCE  // As many checkpoints are pending as may be.
	HeldPause    TickEnd = C.RELKVANU_TICK_HELD_PAUSE    // The pause after the last completion has not passed.
	TickFailed   TickEnd = C.RELKVANU_TICK_FAILED        // Too many checkpoints failed in a row: restore the job.
)

var namesTickEnd = map[TickEnd]string{
	Triggered:    "triggered",
	HeldInterval: "held interval",
	HeldAtOnce:   "held at-once",
	HeldPause:    "held pause",
	TickFailed:   "failed",
}

// String is as a script prints it, such as "failed".
func (it TickEnd) String() string { return named(namesTickEnd, it) }

// bindings/generate: end

// Ticked is the reply to a tick.
type Ticked struct {
	End     TickEnd
	Expired uint64 // records that expired
	ID      uint64 // the checkpoint, if one was triggered
}

// bindings/generate makes the replies to calls of one number

// SavepointTriggered: A savepoint was triggered. ID: number.
type SavepointTriggered struct{ ID uint64 }

func (SavepointTriggered) isReply() {}

func (r SavepointTriggered) String() string { return fmt.Sprintf("savepoint triggered %d", r.ID) }

// Disposed: The savepoint is gone. Released: files released.
type Disposed struct{ Released uint64 }

func (Disposed) isReply() {}

func (r Disposed) String() string { return fmt.Sprintf("disposed %d", r.Released) }

// Cancelled: The job has ended for good. Dropped: records dropped; Released: files released.
type Cancelled struct{ Dropped, Released uint64 }

func (Cancelled) isReply() {}

func (r Cancelled) String() string { return fmt.Sprintf("cancelled %d %d", r.Dropped, r.Released) }

// FileDeleted: The file is forgotten. File: file.
type FileDeleted struct{ File uint64 }

func (FileDeleted) isReply() {}

func (r FileDeleted) String() string { return fmt.Sprintf("deleted %d", r.File) }

// FileUndeleted: The file waits again. File: file.
type FileUndeleted struct{ File uint64 }

func (FileUndeleted) isReply() {}

func (r FileUndeleted) String() string { return fmt.Sprintf("undeleted %d", r.File) }

// Counted: The uses by live records. File: file; Uses: uses.
type Counted struct{ File, Uses uint64 }

func (Counted) isReply() {}

func (r Counted) String() string { return fmt.Sprintf("count %d %d", r.File, r.Uses) }

// Configured: The job has the new settings. Checkpoints: checkpoints dropped; Released: files released.
type Configured struct{ Checkpoints, Released uint64 }

func (Configured) isReply() {}

func (r Configured) String() string {
	return fmt.Sprintf("configured %d %d", r.Checkpoints, r.Released)
}

// bindings/generate: end

// bindings/generate makes the ends of acknowledgements

// AckEnd is what an accepted acknowledgement did.
type AckEnd uint32

// The numbers of AckEnd.
const (
	AckPending   AckEnd = C.RELKVANU_ACK_PENDING   // The record is not complete yet.
	AckCompleted AckEnd = C.RELKVANU_ACK_COMPLETED // The record is complete.
	AckLate      AckEnd = C.RELKVANU_ACK_LATE      // The record was done or had ended.
)

// bindings/generate: end

// Acked is the reply to an accepted acknowledgement: its fresh files belong to the coordinator.
type Acked struct {
	End       AckEnd
	Missing   uint64 // AckPending: subtasks
	Dropped   uint64 // AckCompleted: records
	Released  uint64 // AckCompleted: files
	HandedOut uint64 // AckLate: fresh files that this call handed out for deletion
}

// bindings/generate makes the ends of declines

// DeclineEnd is what a decline did.
type DeclineEnd uint32

// The numbers of DeclineEnd.
const (
	DeclineAborted DeclineEnd = C.RELKVANU_DECLINE_ABORTED // The record is dropped.
	DeclineFailed  DeclineEnd = C.RELKVANU_DECLINE_FAILED  // The record is dropped, and the job has failed: restore it.
	DeclineLate    DeclineEnd = C.RELKVANU_DECLINE_LATE    // The record was done or had ended.
)

// bindings/generate: end

// Declined is the reply to a decline.
type Declined struct {
	End      DeclineEnd
	Released uint64 // files
}

// Restored is the reply to a restore: the job begins again from this record, and so many files were released.
type Restored struct {
	From     Choice
	Released uint64
}

// Taken has the files that were fetched, in their order.
type Taken struct{ Files []uint64 }

// Reserved has names that are reserved for files: Count of them, from First on.
type Reserved struct{ First, Count uint64 }

// Names has them, ascending.
func (r Reserved) Names() []uint64 {
	names := make([]uint64, r.Count)
	for place := range names {
		names[place] = r.First + uint64(place)
	}
	return names
}

// Forfeited is the reply to a line that gives names up.
type Forfeited struct{}

// Named is the reply to the line of a fence: the coordinator has names now, and is in term 1.
type Named struct{}

// Shown is the metadata of a record.
type Shown struct{ JSON []byte }

// Metadata is what the JSON of a record says (docs/SCRIPT.md).
type Metadata struct {
	ID      uint64   `json:"id"`
	Kind    string   `json:"kind"`  // "checkpoint" or "savepoint"
	State   string   `json:"state"` // "pending" or "done"
	Started uint64   `json:"started"`
	Shape   []uint64 `json:"shape"`
	Missing uint64   `json:"missing"` // subtasks
	Acks    []struct {
		Subtask string   `json:"subtask"`
		Files   []uint64 `json:"files"`
	} `json:"acks"`
}

// Metadata reads the JSON.
func (s Shown) Metadata() (Metadata, error) {
	var told Metadata
	err := json.Unmarshal(s.JSON, &told)
	return told, err
}

// Files has the files of each subtask that has acknowledged.
func (s Shown) Files() (map[Subtask][]uint64, error) {
	told, err := s.Metadata()
	files := make(map[Subtask][]uint64, len(told.Acks))
	for _, ack := range told.Acks {
		var it Subtask
		if _, bad := fmt.Sscanf(ack.Subtask, "%d.%d", &it.Vertex, &it.Index); bad != nil {
			return nil, bad
		}
		files[it] = ack.Files
	}
	return files, err
}

func (Ticked) isReply()    {}
func (Acked) isReply()     {}
func (Declined) isReply()  {}
func (Restored) isReply()  {}
func (Taken) isReply()     {}
func (Shown) isReply()     {}
func (Reserved) isReply()  {}
func (Forfeited) isReply() {}
func (Named) isReply()     {}

func (r Ticked) String() string {
	if r.End == Triggered {
		return fmt.Sprintf("tick expired %d triggered %d", r.Expired, r.ID)
	}
	return fmt.Sprintf("tick expired %d %v", r.Expired, r.End)
}

func (r Acked) String() string {
	switch r.End {
	case AckPending:
		return fmt.Sprintf("ack pending %d", r.Missing)
	case AckCompleted:
		return fmt.Sprintf("ack completed %d %d", r.Dropped, r.Released)
	}
	return fmt.Sprintf("ack late %d", r.HandedOut)
}

func (r Declined) String() string {
	switch r.End {
	case DeclineAborted:
		return fmt.Sprintf("decline aborted %d", r.Released)
	case DeclineFailed:
		return fmt.Sprintf("decline failed %d", r.Released)
	}
	return "decline late"
}

func (r Restored) String() string { return fmt.Sprintf("restored %v %d", r.From, r.Released) }

func (r Taken) String() string {
	if len(r.Files) == 0 {
		return "take none"
	}
	return "take " + strings.Trim(fmt.Sprint(r.Files), "[]")
}

func (r Shown) String() string { return string(r.JSON) }

func (r Reserved) String() string { return fmt.Sprintf("reserved %d", r.First) }

func (r Forfeited) String() string { return "forfeited" }

func (r Named) String() string { return "term 1" }
