// note FLAW WORD..: note.c in Go. By the system's own calls, since os.File goes on by itself where a write does less.
package main

import (
	"errors"
	"fmt"
	"os"
	. "syscall"
)

var flaw string

// Where a write does less, it goes on; `short_write` takes that for all.
func writeAll(file int, data []byte) error {
	for len(data) > 0 {
		written, err := Write(file, data)
		if err != nil {
			return err
		}
		if written == 0 {
			return errors.New("nothing was written")
		}
		if flaw == "short_write" {
			return nil
		}
		data = data[written:]
	}
	return nil
}

// After a sync that failed a file's bytes are gone: a later one says nothing of them. `retry_sync` believes it, `unchecked_sync` doesn't look.
func syncFile(file int) error {
	err := Fsync(file)
	if err != nil && flaw == "retry_sync" {
		return Fsync(file)
	}
	if flaw == "unchecked_sync" {
		return nil
	}
	return err
}

func syncFolder(folder int) error {
	if flaw == "no_folder_sync" {
		return nil
	}
	return Fsync(folder)
}

// first is the first error of these steps, of which none is done behind it.
func first(steps ...func() error) error {
	for _, step := range steps {
		if err := step(); err != nil {
			return err
		}
	}
	return nil
}

func replace(file, folder int) error {
	sync := func() error { return syncFile(file) }
	rename := func() error { return Rename("new", "note") }
	last := func() error { return syncFolder(folder) }
	if flaw == "rename_first" {
		return first(rename, sync, last)
	}
	return first(sync, rename, last)
}

// `clean_up` keeps the old file by a second name, and puts it back where something fails: but it doesn't look whether that could be done.
func putBack(folder int) {
	_ = Unlink("note")
	_ = Link("old", "note")
	_ = Unlink("old")
	_ = Fsync(folder)
}

func write(word string, folder int) error {
	file, err := Open("new", O_WRONLY|O_CREAT|O_TRUNC, 0o644)
	if err != nil {
		return err
	}
	defer Close(file)
	err = writeAll(file, []byte(word))
	if err == nil {
		err = replace(file, folder)
	}
	if err != nil && flaw == "clean_up" {
		putBack(folder)
	}
	return err
}

func save(word string, folder int) error {
	if flaw != "clean_up" {
		return write(word, folder)
	}
	if err := Link("note", "old"); err != nil {
		return err
	}
	if err := write(word, folder); err != nil {
		return err
	}
	return Unlink("old")
}

func fail(err error) {
	fmt.Fprintln(os.Stderr, err)
	os.Exit(1)
}

func main() {
	folder, err := Open(".", O_RDONLY|O_DIRECTORY, 0)
	if err != nil {
		fail(err)
	}
	flaw = os.Args[1]
	for _, word := range os.Args[2:] {
		if err := save(word, folder); err != nil {
			fail(err)
		}
		fmt.Println("saved", word)
	}
}
