package relkvanu_test

import (
	"bytes"
	"errors"
	"math"
	"reflect"
	"sync"
	"testing"
	"time"

	"relkvanu"
)

const day = 24 * 60 * 60 * 1000

func TestWhatACoordinatorIsNotOpenedWith(t *testing.T) {
	one, good := []uint64{1}, relkvanu.Every(1000)
	for _, it := range []struct{ err, wanted error }{
		{errorOf(relkvanu.Open(relkvanu.Every(9), one, 0, 1)), relkvanu.BadConfig},
		{errorOf(relkvanu.Open(good, nil, 0, 1)), relkvanu.BadShape},
		{errorOf(relkvanu.Open(good, []uint64{4097}, 0, 1)), relkvanu.BadShape},
		{errorOf(relkvanu.Open(good, one, 1<<62, 1)), relkvanu.BadMoment},
		{errorOf(relkvanu.Open(good, one, 0, 0)), relkvanu.BadFirst},
		{errorOf(relkvanu.OpenSaved(nil)), relkvanu.BadImage},
	} {
		if !errors.Is(it.err, it.wanted) {
			t.Errorf("%v, not %v", it.err, it.wanted)
		}
	}
	must(relkvanu.Open(good, one, 1<<62-1, 1<<62-1)).Close()
}

func TestErrorsAreFoundAndNamed(t *testing.T) {
	job := opened(2)
	defer job.Close()
	must(job.Tick(1000))
	_, err := job.Ack(1000, 1, relkvanu.Subtask{}, nil, []uint64{8, 7})
	var refused *relkvanu.Refused
	if !errors.Is(err, relkvanu.FileGone) || errors.Is(err, relkvanu.NameTaken) || !errors.As(err, &refused) || refused.File != 7 {
		t.Error(err)
	}
	var why relkvanu.Refusal
	if !errors.As(err, &why) || why != relkvanu.FileGone {
		t.Error(why)
	}
	equal(t, err.Error(), "relkvanu: the call is refused: FileGone 7")
	equal(t, job.Deleted(7).Error(), "relkvanu: the call is refused: NotTaken")
	equal(t, relkvanu.Refusal(99).String(), "refusal 99")
	equal(t, relkvanu.LineFault(99).String(), "number 99")
	equal(t, relkvanu.BadShape.Error(), "relkvanu: an argument is outside its limits: BadShape")
	equal(t, errorOf(job.RestoreSavepoint(0, 0, nil)), error(relkvanu.BadSavepoint))
	equal(t, errorOf(job.Restore(0, []uint64{})), error(relkvanu.BadShape))
}

func TestAMomentThatIsFarAheadIsRefused(t *testing.T) {
	job := opened(1)
	defer job.Close()
	must(job.Tick(1000))
	late := uint64(1000 + 600_000 + day + 1) // a timer may wait until checkpoint 1 expires
	image := must(job.Save())
	first := relkvanu.Subtask{}
	for _, err := range []error{
		errorOf(job.Tick(late)), errorOf(job.Savepoint(late)), errorOf(job.Ack(late, 1, first, []uint64{1}, nil)), errorOf(job.Decline(late, 1, first)),
		errorOf(job.Restore(late, nil)), errorOf(job.Cancel(late)), errorOf(job.Tick(1<<62 - 1)), errorOf(job.Tick(1 << 62)), errorOf(job.Tick(math.MaxUint64)),
	} {
		if !errors.Is(err, relkvanu.MomentTooLarge) {
			t.Error(err)
		}
	}
	if !bytes.Equal(image, must(job.Save())) {
		t.Error("a refused call has changed something")
	}
	must(job.Ack(late-1, 1, first, []uint64{1}, nil))
	job.SetMostAhead(2 * day)
	must(job.Tick(late + day))
	equal(t, must(job.Moment()), late+day)
}

func TestATimerThatWaitsForLongIsNotAhead(t *testing.T) {
	job := must(relkvanu.Open(relkvanu.Settings{Interval: 100 * day, AtOnce: 1, Timeout: 200 * day, Retained: 1}, []uint64{1}, 0, 1))
	defer job.Close()
	equal(t, must(job.Tick(must(job.Due()))), relkvanu.Ticked{End: relkvanu.Triggered, ID: 1})
	equal(t, must(job.Tick(300*day)).Expired, 1)
}

func TestALineOfALogIsNotChecked(t *testing.T) {
	job := opened(1)
	defer job.Close()
	must(job.Line([]byte("tick 1000000000000")))
	equal(t, must(job.Moment()), 1000000000000)
	must(job.Tick(1000000000000 + day))
}

// everyCall makes each call and read of one coordinator that can fail, with ones. A function under the lock has a test of its own.
func everyCall(job *relkvanu.Coordinator) []error {
	var told []error
	all := reflect.ValueOf(job)
	for place := 0; place < all.NumMethod(); place++ {
		call, given := all.Method(place), []reflect.Value{}
		for number := 0; number < call.Type().NumIn(); number++ {
			given = append(given, argument(call.Type().In(number)))
		}
		results := call.Type().NumOut()
		name := all.Type().Method(place).Name
		if name == "Locked" || name == "Close" || results == 0 || call.Type().Out(results-1) != reflect.TypeOf((*error)(nil)).Elem() {
			continue
		}
		err, _ := call.Call(given)[results-1].Interface().(error)
		told = append(told, err)
	}
	return told
}

// argument is a one, or a slice of one, or what a type has in it at first.
func argument(of reflect.Type) reflect.Value {
	switch it := reflect.New(of).Elem(); of.Kind() {
	case reflect.Uint64:
		it.SetUint(1)
		return it
	case reflect.Slice:
		return reflect.MakeSlice(of, 1, 1)
	default:
		return it
	}
}

func TestAClosedOneStaysClosed(t *testing.T) {
	closed := opened(1)
	equal(t, closed.Close(), nil)
	equal(t, closed.Close(), nil)
	var zero relkvanu.Coordinator
	var escaped *relkvanu.Coordinator
	open := opened(1)
	defer open.Close()
	equal(t, open.Locked(func(held *relkvanu.Coordinator) error { escaped = held; return nil }), nil)
	for name, job := range map[string]*relkvanu.Coordinator{"closed": closed, "zero": &zero, "nil": nil, "escaped": escaped} {
		for place, err := range everyCall(job) {
			if err != relkvanu.ErrClosed {
				t.Errorf("%s: call %d: %v", name, place, err)
			}
		}
		equal(t, job.Close(), nil)
		job.SetMostAhead(1)
		<-job.Called(0)
	}
	must(open.Tick(0))
}

func TestACallWakesWhoWaitsAndAReportDoesNot(t *testing.T) {
	job := cancelled()
	seen := job.Calls()
	must(job.Take(make([]uint64, 1)))
	equal(t, job.Deleted(1), nil)
	equal(t, job.Calls(), seen)
	waits := []<-chan struct{}{job.Called(seen), job.Called(seen)}
	select {
	case <-waits[0]:
		t.Error("a report wakes")
	case <-time.After(20 * time.Millisecond):
	}
	equal(t, errors.Is(errorOf(job.Tick(2000)), relkvanu.NotRunning), true)
	<-waits[0]
	<-waits[1]
	<-job.Called(seen)
	again := job.Called(job.Calls())
	job.Close()
	<-again
}

func TestCallsUnderOneLockHaveNoneBetween(t *testing.T) {
	job := opened(1)
	defer job.Close()
	other := make(chan error)
	err := job.Locked(func(held *relkvanu.Coordinator) error {
		must(held.Tick(1000))
		go func() { other <- errorOf(job.Ack(1000, 1, relkvanu.Subtask{}, []uint64{1}, nil)) }()
		time.Sleep(10 * time.Millisecond)
		missing, _, err := held.Missing(1)
		equal(t, missing, 1)
		return err
	})
	equal(t, err, nil)
	equal(t, <-other, nil)
	_, isPending, _ := job.Missing(1)
	equal(t, isPending, false)
}

func TestGoroutinesShareIt(t *testing.T) {
	job := opened(8)
	defer job.Close()
	for round := uint64(1); round <= 500; round++ {
		equal(t, must(job.Tick(1000*round)), relkvanu.Ticked{End: relkvanu.Triggered, ID: round})
		var group sync.WaitGroup
		for index := uint16(0); index < 8; index++ {
			group.Add(1)
			go func(index uint16) {
				defer group.Done()
				must(job.Ack(1000*round, round, relkvanu.Subtask{Index: index}, []uint64{8*round + uint64(index)}, nil))
				for _, file := range must(job.Take(make([]uint64, 4))) {
					equal(t, job.Deleted(file), nil)
				}
			}(index)
		}
		group.Wait()
	}
	equal(t, must(job.FileCounts()).InUse, 8)
}

func TestClosedWhileOthersCall(t *testing.T) {
	for round := 0; round < 100; round++ {
		job := opened(1)
		var group sync.WaitGroup
		for index := 0; index < 7; index++ {
			group.Add(1)
			go func() {
				defer group.Done()
				for errorOf(job.Tick(0)) != relkvanu.ErrClosed {
				}
			}()
		}
		job.Close()
		group.Wait()
	}
}
