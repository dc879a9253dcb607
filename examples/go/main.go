// small LOG [new]: a coordinator that goes on from its log, a file of lines. Each run makes a checkpoint of one subtask, which has no files. The word new
// makes the job. A crash cuts at most the line of a call that nobody had acted on.
package main

import (
	"bytes"
	"fmt"
	"io"
	"log"
	"os"
	"path/filepath"
	"syscall"

	"relkvanu"
)

// check ends the process after an error. The next one goes on with what is on the disk.
func check(err error) {
	if err != nil {
		log.Fatal(err)
	}
}

type job struct {
	*relkvanu.Coordinator
	log *os.File
}

// call makes the call of a line, and writes the line. Only after that anybody acts on the reply.
func (j job) call(line []byte, err error) relkvanu.Reply {
	check(err)
	reply, err := j.Line(line) // a call that is refused needs no line
	check(err)
	_, err = j.log.Write(append(line, '\n'))
	check(err)
	check(j.log.Sync())
	return reply
}

// openLog opens the file, which another process can't open meanwhile, and reads its lines.
func openLog(path string, isNew bool) (file *os.File, text []byte) {
	flags := os.O_RDWR | os.O_APPEND
	if isNew {
		flags |= os.O_CREATE
	}
	file, err := os.OpenFile(path, flags, 0o666)
	check(err)
	check(syscall.Flock(int(file.Fd()), syscall.LOCK_EX|syscall.LOCK_NB))
	text, err = io.ReadAll(file)
	check(err)
	return file, text
}

// begin writes what a new log lacks of its first lines: a crash may have cut them.
func begin(file *os.File, text []byte) []byte {
	opening, err := relkvanu.OpeningLines(relkvanu.Every(1000), []uint64{1}, 0)
	check(err)
	if !bytes.HasPrefix(opening, text) {
		return text
	}
	_, err = file.Write(opening[len(text):])
	check(err)
	check(file.Sync())
	folder, err := os.Open(filepath.Dir(file.Name()))
	check(err)
	check(folder.Sync())
	return opening
}

// replay makes the calls of the log again: the state is that of the last process. Then it cuts off what follows the last whole line.
func replay(file *os.File, text []byte) (job, int) {
	whole := text[:bytes.LastIndexByte(text, '\n')+1]
	lines := bytes.Split(whole, []byte("\n"))
	if len(lines) < 4 {
		log.Fatal(file.Name(), " is no log")
	}
	var said [3]relkvanu.Line
	for place := range said {
		var err error
		said[place], err = relkvanu.LineSays(lines[place])
		check(err)
	}
	config, isConfig := said[0].(relkvanu.LineConfig)
	shape, isJob := said[1].(relkvanu.LineJob)
	start, isStart := said[2].(relkvanu.LineStart)
	if !isConfig || !isJob || !isStart {
		log.Fatal(file.Name(), " is no log")
	}
	core, err := relkvanu.Open(relkvanu.Settings(config), shape, uint64(start), 1)
	check(err)
	calls := lines[3 : len(lines)-1]
	for _, line := range calls {
		_, err := core.Line(line)
		check(err)
	}
	check(file.Truncate(int64(len(whole))))
	return job{core, file}, len(calls)
}

func main() {
	isNew := len(os.Args) > 2 && os.Args[2] == "new"
	file, text := openLog(os.Args[1], isNew)
	if isNew {
		text = begin(file, text)
	}
	j, calls := replay(file, text)
	now, err := j.Due() // the moment of the next tick, in ms: an engine has a clock
	check(err)
	j.call(relkvanu.RestoreLine(now, nil)) // a record that was pending when the last process ended would never complete
	now, err = j.Due()
	check(err)
	record := j.call(relkvanu.TickLine(now)).(relkvanu.Ticked).ID
	j.call(relkvanu.AckLine(now+100, record, relkvanu.Subtask{}, nil, nil))
	fmt.Printf("%d calls were made again, and record %d is complete\n", calls, record)
}
