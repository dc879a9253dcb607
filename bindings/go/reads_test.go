package relkvanu_test

import (
	"errors"
	"fmt"
	"strings"
	"testing"

	"relkvanu"
)

// filesText has numbers in a line, and none are "none".
func filesText(numbers []uint64) string {
	if len(numbers) == 0 {
		return "none"
	}
	return strings.Trim(fmt.Sprint(numbers), "[]")
}

// orNone is the number or the list that a read returns, if there is one.
func orNone[Value any](text func(Value) string) func(Value, bool, error) string {
	return func(value Value, is bool, err error) string {
		if must(is, err) {
			return text(value)
		}
		return "none"
	}
}

func orFenced(text string, err error) string {
	if err != nil {
		return strings.TrimSpace(printed(0, nil, err))
	}
	return text
}

func liveText(it relkvanu.Live) string {
	return fmt.Sprintf("%v %d %s", it.Kind, it.ID, map[bool]string{true: "done", false: "pending"}[it.Done])
}

// read is what a line of examples/reads that begins with ? tells: a read with its numbers.
func read(job *relkvanu.Coordinator, words []string) string {
	given := append(numbers(words[1:]), 0, 0)
	number := orNone(func(it uint64) string { return fmt.Sprint(it) })
	switch words[0] {
	case "mode":
		return must(job.Mode()).String()
	case "moment":
		return fmt.Sprint(must(job.Moment()))
	case "due":
		return fmt.Sprint(must(job.Due()))
	case "oldest_expiry":
		return number(job.OldestExpiry())
	case "choice":
		return must(job.Choice()).String()
	case "live":
		return strings.Join(records(job), " ")
	case "live_from":
		return orNone(liveText)(job.LiveFrom(given[0]))
	case "missing":
		return number(job.Missing(given[0]))
	case "standing":
		return must(job.Standing(given[0])).String()
	case "waiting_file":
		return number(job.WaitingFile(given[0]))
	case "file_counts":
		return strings.Trim(fmt.Sprint(must(job.FileCounts())), "{}")
	}
	return readFiles(job, words[0], given)
}

func readFiles(job *relkvanu.Coordinator, word string, given []uint64) string {
	switch word {
	case "files_of":
		return orNone(filesText)(job.FilesOf(given[0], relkvanu.Subtask{Vertex: uint16(given[1]), Index: uint16(given[2])}))
	case "pins_of":
		return filesText(must(job.PinsOf(given[0])))
	case "taken_files":
		return filesText(must(job.TakenFiles()))
	case "term":
		it, err := job.Term()
		return orFenced(strings.Trim(fmt.Sprint(it), "{}"), err)
	case "garbage":
		it, err := job.Garbage(given[:len(given)-2])
		return orFenced(fmt.Sprintf("garbage %s unissued %s", filesText(it.Garbage), filesText(it.Unissued)), err)
	}
	panic(word)
}

// records are the live ones, or that there is none.
func records(job *relkvanu.Coordinator) (all []string) {
	for place := uint64(0); ; place++ {
		it, is, err := job.Live(place)
		if !must(is, err) {
			if place == 0 {
				return []string{"none"}
			}
			return all
		}
		all = append(all, liveText(it))
	}
}

func TestASavedCoordinatorGoesOn(t *testing.T) {
	job := cancelled()
	defer job.Close()
	image := must(job.Save())
	again := must(relkvanu.OpenSaved(image))
	defer again.Close()
	equal(t, string(must(again.Save())), string(image))
	equal(t, fmt.Sprint(must(again.Take(make([]uint64, 9)))), fmt.Sprint(must(job.Take(make([]uint64, 9)))))
	equal(t, string(must(again.Save())), string(must(job.Save())))
	for _, it := range [][]byte{nil, []byte("{}"), []byte("\xff"), image[:len(image)-1], append(image, 'x')} {
		if _, err := relkvanu.OpenSaved(it); !errors.Is(err, relkvanu.BadImage) {
			t.Errorf("%s: %v", it, err)
		}
	}
}
