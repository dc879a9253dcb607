package relkvanu_test

import (
	"bytes"
	"errors"
	"fmt"
	"math"
	"os"
	"path/filepath"
	"reflect"
	"strconv"
	"strings"
	"testing"

	"relkvanu"
)

const rows = "../../examples/rows"

// printed is what a script prints of a reply or an error: a line, or nothing.
func printed(number int, reply fmt.Stringer, err error) string {
	var (
		refused *relkvanu.Refused
		fenced  *relkvanu.FencedError
		fault   relkvanu.LineFault
		bad     relkvanu.BadArgument
	)
	switch {
	case err == relkvanu.LineNoCall:
		return ""
	case errors.As(err, &fault):
		return fmt.Sprintf("line %d fault %v\n", number, fault.String())
	case errors.As(err, &refused):
		return "refused " + refused.String() + "\n"
	case errors.As(err, &fenced):
		return "fenced " + fenced.String() + "\n"
	case errors.As(err, &bad):
		return "refused " + bad.String() + "\n"
	case err != nil:
		return "error " + err.Error() + "\n"
	case reply == nil:
		return ""
	}
	return reply.String() + "\n"
}

// opening is what the config, job and start lines of a row say; false if it does not have one of each and then only calls.
func opening(lines [][]byte) (settings relkvanu.Settings, shape []uint64, now uint64, is bool) {
	var said []relkvanu.Line
	for _, line := range lines {
		it, err := relkvanu.LineSays(line)
		if _, skip := it.(relkvanu.LineSkip); err == nil && !skip {
			said = append(said, it)
		}
	}
	if len(said) < 3 {
		return
	}
	if _, isFirst := said[0].(relkvanu.LineJob); isFirst {
		said[0], said[1] = said[1], said[0]
	}
	config, isConfig := said[0].(relkvanu.LineConfig)
	job, isJob := said[1].(relkvanu.LineJob)
	start, isStart := said[2].(relkvanu.LineStart)
	for _, it := range said[3:] {
		if _, isCall := it.(relkvanu.LineCall); !isCall {
			return
		}
	}
	return relkvanu.Settings(config), job, uint64(start), isConfig && isJob && isStart
}

// byLines makes the call of each line by the library's reader.
func byLines(job *relkvanu.Coordinator, number int, line []byte) string {
	reply, err := job.Line(line)
	return printed(number, reply, err)
}

// byMethods makes the call that each line says by its method.
func byMethods(job *relkvanu.Coordinator, number int, line []byte) string {
	call, is, err := relkvanu.CallOf(line)
	if err != nil || !is {
		return printed(number, nil, err)
	}
	reply, err := called(job, call)
	return printed(number, reply, err)
}

// byCalls reads each line as a call, and makes the call of the line that the library writes of it.
func byCalls(job *relkvanu.Coordinator, number int, line []byte) string {
	call, is, err := relkvanu.CallOf(line)
	if err != nil || !is {
		return printed(number, nil, err)
	}
	again, err := call.Line()
	if err != nil {
		return printed(number, nil, err)
	}
	return byLines(job, number, again)
}

func numbers(words []string) []uint64 {
	var all []uint64
	for _, word := range words {
		all = append(all, must(strconv.ParseUint(word, 10, 64)))
	}
	return all
}

func restored(job *relkvanu.Coordinator, it relkvanu.Call) (fmt.Stringer, error) {
	shape := it.First
	if len(shape) == 0 {
		shape = nil
	}
	if it.Number == 0 {
		return job.Restore(it.Now, shape)
	}
	return job.RestoreSavepoint(it.Now, it.Number, shape)
}

// called makes a call, that of a task in its term.
func called(job *relkvanu.Coordinator, it relkvanu.Call) (fmt.Stringer, error) {
	switch it.Kind {
	case relkvanu.CallAck:
		if it.Term != 0 {
			return job.AckIn(it.Term, it.Now, it.Number, it.Subtask, it.First, it.Second)
		}
		return job.Ack(it.Now, it.Number, it.Subtask, it.First, it.Second)
	case relkvanu.CallDecline:
		if it.Term != 0 {
			return job.DeclineIn(it.Term, it.Now, it.Number, it.Subtask)
		}
		return job.Decline(it.Now, it.Number, it.Subtask)
	case relkvanu.CallRestore:
		return restored(job, it)
	case relkvanu.CallFence:
		return relkvanu.Named{}, job.Fence(it.Number)
	case relkvanu.CallReserve:
		return job.Reserve(it.Term, it.Number)
	case relkvanu.CallForfeit:
		return relkvanu.Forfeited{}, job.Forfeit(it.Term, it.First)
	case relkvanu.CallAdvance:
		return job.Advance(it.Now, it.Term, it.Number)
	}
	return ofFiles(job, it)
}

func ofFiles(job *relkvanu.Coordinator, it relkvanu.Call) (fmt.Stringer, error) {
	switch it.Kind {
	case relkvanu.CallTake:
		counts, err := job.FileCounts()
		if err != nil {
			return nil, err
		}
		if it.Number > counts.Waiting {
			it.Number = counts.Waiting
		}
		files, err := job.Take(make([]uint64, it.Number))
		return relkvanu.Taken{Files: files}, err
	case relkvanu.CallDeleted:
		return relkvanu.FileDeleted{File: it.Number}, job.Deleted(it.Number)
	case relkvanu.CallUndeleted:
		return relkvanu.FileUndeleted{File: it.Number}, job.Undeleted(it.Number)
	}
	return byName(job, it)
}

// byName makes a call of one number, a moment or another one, by the first word of its line. It returns a reply and an error.
func byName(job *relkvanu.Coordinator, it relkvanu.Call) (fmt.Stringer, error) {
	it.Term = 0
	word, _, _ := strings.Cut(string(must(it.Line())), " ")
	told := reflect.ValueOf(job).MethodByName(strings.ToUpper(word[:1]) + word[1:]).Call([]reflect.Value{reflect.ValueOf(it.Now + it.Number)})
	err, _ := told[1].Interface().(error)
	return told[0].Interface().(fmt.Stringer), err
}

// run prints what a row prints; false if it is no list of calls.
func run(t *testing.T, path string, call func(job *relkvanu.Coordinator, number int, line []byte) string) (string, bool) {
	text, err := os.ReadFile(path)
	if err != nil {
		t.Fatal(err)
	}
	lines := bytes.Split(bytes.TrimSuffix(text, []byte("\n")), []byte("\n"))
	settings, shape, now, is := opening(lines)
	if !is {
		return "", false
	}
	job, err := relkvanu.Open(settings, shape, now, 1)
	if err != nil {
		t.Fatal(err)
	}
	defer job.Close()
	job.SetMostAhead(math.MaxUint64)
	output := ""
	for place, line := range lines {
		output += call(job, place+1, line)
	}
	return output, true
}

func TestRows(t *testing.T) {
	others, err := os.ReadFile(filepath.Join(rows, "OTHERS"))
	if err != nil {
		t.Fatal(err)
	}
	paths, _ := filepath.Glob(filepath.Join(rows, "*.in"))
	ran := 0
	for _, path := range paths {
		name := strings.TrimSuffix(filepath.Base(path), ".in")
		wanted, err := os.ReadFile(strings.TrimSuffix(path, ".in") + ".out")
		if err != nil {
			t.Fatal(err)
		}
		isOther := strings.Contains("\n"+string(others), "\n"+name+"\n")
		for how, call := range ways {
			output, is := run(t, path, call)
			if is == isOther {
				t.Errorf("%s: a list of calls: %v", name, is)
			} else if is && output != string(wanted) {
				t.Errorf("%s by %s:\n%s", name, how, output)
			}
		}
		if !isOther {
			ran++
		}
	}
	t.Logf("%d of %d rows are lists of calls", ran, len(paths))
	if ran == 0 {
		t.Error("no row is a list of calls")
	}
}

// Lines of a log with names, with the values of docs/LOGS.md.

const logsPage = "../../docs/LOGS.md"

// loggedLine is a line of a log, and the answers beside it and below it.
type loggedLine struct {
	line    string
	answers string
}

// ofPackage has the words of the package: a log has others for a call that needs names, or that there are none.
var ofPackage = strings.NewReplacer("refused NoNames", "fenced NoNames", "refused HasNames", "fenced HasNames", "refused NameInUse", "fenced NameInUse")

func loggedLines(log string) (lines []loggedLine) {
	for _, it := range strings.Split(strings.TrimSpace(log), "\n") {
		line, answer, is := strings.Cut(it, "-> ")
		if line = strings.TrimSpace(line); line != "" {
			lines = append(lines, loggedLine{line: line})
		}
		if is {
			lines[len(lines)-1].answers += ofPackage.Replace(answer) + "\n"
		}
	}
	return lines
}

// logs are those of examples/logs and examples/reads, and the example of the page.
func logs(t *testing.T) map[string]string {
	t.Helper()
	page := string(must(os.ReadFile(logsPage)))
	_, section, _ := strings.Cut(page, "\n## 5. An example\n")
	all := map[string]string{"the page": strings.Split(section+"\n```\n\n```\n", "\n```\n")[1]}
	for _, path := range append(must(filepath.Glob("../../examples/logs/*.log")), must(filepath.Glob("../../examples/reads/*.log"))...) {
		all[filepath.Base(path)] = string(must(os.ReadFile(path)))
	}
	if len(all) < 15 || len(loggedLines(all["the page"])) != 19 {
		t.Fatal(all)
	}
	return all
}

// makeLog makes the calls of a log in this way, and compares what each prints. A line with two answers began a term.
func makeLog(t *testing.T, name string, log []loggedLine, call func(*relkvanu.Coordinator, int, []byte) string) {
	t.Helper()
	var lines [][]byte
	for _, it := range log {
		lines = append(lines, []byte(it.line))
	}
	settings, shape, now, is := opening(lines)
	if !is {
		t.Fatal(name)
	}
	job := must(relkvanu.Open(settings, shape, now, 1))
	defer job.Close()
	for place, it := range log {
		if strings.HasPrefix(it.line, "? ") {
			equal(t, name+": "+it.line+" "+read(job, strings.Fields(it.line)[1:]), name+": "+it.line+" "+strings.TrimSpace(it.answers))
			continue
		}
		printed := call(job, place+1, lines[place])
		if strings.Count(it.answers, "\n") == 2 {
			printed += fmt.Sprintf("term %d\n", must(job.Term()).Term)
		}
		if printed != it.answers {
			t.Errorf("%s: %s: %q, not %q", name, it.line, printed, it.answers)
		}
	}
}

var ways = map[string]func(*relkvanu.Coordinator, int, []byte) string{"lines": byLines, "methods": byMethods, "calls": byCalls}

// TestNamesInLogs makes the calls of each log by lines, by methods, and by lines that are written again.
func TestNamesInLogs(t *testing.T) {
	for name, log := range logs(t) {
		for how, call := range ways {
			makeLog(t, name+" by "+how, loggedLines(log), call)
		}
	}
}
