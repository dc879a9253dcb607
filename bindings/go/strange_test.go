//go:build other_version || unknown_answers

package relkvanu_test

import (
	"errors"
	"strings"
	"testing"

	"relkvanu"
)

// Over a library of version 0.99.0 everything says so, and names both versions.
func TestALibraryOfAnotherVersion(t *testing.T) {
	if relkvanu.Version() != "0.99.0" {
		t.Skip("the library has this version")
	}
	for _, err := range []error{
		errorOf(relkvanu.Open(settings, []uint64{1}, 0, 1)), errorOf(relkvanu.OpenFenced(settings, []uint64{1}, 0, 1, 1)), errorOf(relkvanu.OpenSaved([]byte("{}"))), errorOf(relkvanu.LineSays([]byte("tick 1"))),
		errorOf(relkvanu.OpeningLines(settings, []uint64{1}, 0)), errorOf(relkvanu.TickLine(1)), errorOf(relkvanu.AckLine(1, 1, relkvanu.Subtask{}, nil, nil)),
	} {
		var other *relkvanu.OtherLibrary
		if !errors.As(err, &other) || other.Library != "0.99.0" || !strings.Contains(err.Error(), "0.99.0") || !strings.Contains(err.Error(), other.Package) {
			t.Error(err)
		}
	}
}

// Over a library with answers that no header has each of them is an error, and nothing panics.
func TestAnswersThatNobodyKnows(t *testing.T) {
	if relkvanu.Version() == "0.99.0" {
		t.Skip("the library has another version")
	}
	job := must(relkvanu.Open(settings, []uint64{1}, 0, 1))
	defer job.Close()
	first := relkvanu.Subtask{}
	_, _, live := job.Live(0)
	for place, err := range []error{
		errorOf(job.Tick(0)), errorOf(job.Decline(0, 1, first)), errorOf(job.Mode()), errorOf(job.Choice()), errorOf(job.Standing(1)), live,
		errorOf(job.Line(nil)), errorOf(relkvanu.LineSays(nil)), errorOf(job.Reserve(1, 1)), errorOf(job.Savepoint(0)), errorOf(job.Dispose(1)),
		errorOf(job.Cancel(0)), errorOf(job.Take(nil)), job.Deleted(1), job.Undeleted(1), errorOf(job.Count(1)),
	} {
		var unknown *relkvanu.Unknown
		if !errors.As(err, &unknown) || unknown.What != 999 && unknown.Code != 999 {
			t.Errorf("call %d: %v", place, err)
		}
	}
	equal(t, errorOf(job.Save()), relkvanu.ErrNoMemory)
	equal(t, errorOf(job.Ack(0, 1, first, nil, nil)).Error(), "relkvanu: the call is refused: refusal 999")
	equal(t, errorOf(job.Restore(0, nil)).Error(), "relkvanu: an argument is outside its limits: number 999")
	equal(t, errorOf(job.Term()).Error(), "relkvanu: fenced: number 999")
	equal(t, errorOf(job.Line([]byte("x"))).Error(), "relkvanu: the line can't be read: number 999")
}
