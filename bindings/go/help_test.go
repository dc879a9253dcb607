package relkvanu_test

import (
	"testing"

	"relkvanu"
)

// must is the value of a call that has to be made.
func must[Value any](value Value, err error) Value {
	if err != nil {
		panic(err)
	}
	return value
}

func errorOf[Value any](_ Value, err error) error { return err }

func equal[Value any](t *testing.T, got, wanted Value) {
	t.Helper()
	if any(got) != any(wanted) {
		t.Errorf("%v, not %v", got, wanted)
	}
}

// settings are those of most tests: two checkpoints may be pending, for five seconds each.
var settings = relkvanu.Settings{Interval: 1000, AtOnce: 2, Timeout: 5000, Retained: 1}

func opened(subtasks uint64) *relkvanu.Coordinator {
	return must(relkvanu.Open(relkvanu.Every(1000), []uint64{subtasks}, 0, 1))
}

// cancelled is a job whose files 1 to 20 wait for deletion.
func cancelled() *relkvanu.Coordinator {
	job := opened(1)
	files := make([]uint64, 20)
	for place := range files {
		files[place] = uint64(place + 1)
	}
	must(job.Tick(1000))
	must(job.Ack(1000, 1, relkvanu.Subtask{}, files, nil))
	must(job.Cancel(1000))
	return job
}
