// log FLAW COMMAND..: log.c in Go, by the system's own calls.
package main

import (
	"bytes"
	"errors"
	"fmt"
	"os"
	"strings"
	. "syscall"
)

var (
	flaw         string
	records      []string
	acknowledged int
)

func fail(err error) {
	fmt.Fprintln(os.Stderr, err)
	os.Exit(1)
}

func must(err error) {
	if err != nil {
		fail(err)
	}
}

// ---- lines

func sumOf(text string) string {
	sum := uint32(5381)
	for _, letter := range []byte(text) {
		sum = sum*33 + uint32(letter)
	}
	return fmt.Sprintf("%08x", sum)
}

// Whether a line is a record; `torn_taken` doesn't look at its sum.
func textOf(line string) (string, bool) {
	sum, text, found := strings.Cut(line, " ")
	return text, found && text != "" && (flaw == "torn_taken" || sum == sumOf(text))
}

// Reads the records of a file up to the first line that is none; answers how many bytes are read.
func readFile(file int) (int64, error) {
	var data []byte
	part := make([]byte, 10000)
	for {
		got, err := Read(file, part)
		if err != nil {
			return 0, err
		}
		if got == 0 {
			break
		}
		data = append(data, part[:got]...)
	}
	at := int64(0)
	for len(data) > 0 {
		line, rest, ends := bytes.Cut(data, []byte("\n"))
		text, is := textOf(string(line))
		if !is || !(ends || flaw == "torn_taken") {
			break
		}
		records = append(records, text)
		at += int64(len(data) - len(rest))
		data = rest
	}
	return at, nil
}

func appendTo(file int, text string) error {
	line := []byte(sumOf(text) + " " + text + "\n")
	written, err := Write(file, line)
	if err == nil && written < len(line) {
		err = errors.New("a short write")
	}
	return err
}

// ---- the files

func syncFolder() {
	folder, err := Open(".", O_RDONLY|O_DIRECTORY, 0)
	must(err)
	must(Fsync(folder))
	must(Close(folder))
}

func readSnapshot() {
	snap, err := Open("snap", O_RDONLY, 0)
	if err == ENOENT {
		return
	}
	must(err)
	_, err = readFile(snap)
	must(err)
	must(Close(snap))
}

// What can't be read is not to be written over; `recovery_deletes` begins anew. What a torn record has left is cut off; `torn_appended` leaves
// it there.
func openLog() int {
	log, err := Open("log", O_RDWR|O_CREAT, 0o644)
	must(err)
	end, err := readFile(log)
	if flaw != "recovery_deletes" {
		must(err)
	}
	if flaw != "torn_appended" {
		must(Ftruncate(log, end))
		must(Fsync(log))
	}
	_, err = Seek(log, 0, 2)
	must(err)
	syncFolder()
	return log
}

// ---- commands

func syncLog(log int) {
	must(Fsync(log))
	for ; acknowledged < len(records); acknowledged++ {
		fmt.Println("added", records[acknowledged])
	}
}

// `full_disk` doesn't look whether the snapshot could be written.
func writeSnapshot(new int) {
	for _, text := range records {
		if err := appendTo(new, text); err != nil {
			if flaw != "full_disk" {
				fail(err)
			}
			return
		}
	}
}

func snapshot(log int) {
	new, err := Open("new", O_WRONLY|O_CREAT|O_TRUNC, 0o644)
	must(err)
	writeSnapshot(new)
	must(Fsync(new))
	must(Close(new))
	must(Rename("new", "snap"))
	syncFolder()
	must(Ftruncate(log, 0))
	_, err = Seek(log, 0, 0)
	must(err)
	must(Fsync(log))
}

func main() {
	flaw = os.Args[1]
	readSnapshot()
	log := openLog()
	acknowledged = len(records)
	for words := os.Args[2:]; len(words) > 0; words = words[1:] {
		switch words[0] {
		case "add":
			words = words[1:]
			records = append(records, words[0])
			must(appendTo(log, words[0]))
		case "sync":
			syncLog(log)
		case "snapshot":
			snapshot(log)
		case "list":
			fmt.Println(strings.Join(records, "\n"))
		}
	}
}
