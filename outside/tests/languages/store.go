// The store of store.c.
package main

import (
	"os"
	"syscall"
)

func must(err error) {
	if err != nil {
		panic(err)
	}
}

func main() {
	file, err := os.Create("new")
	must(err)
	_, err = file.Write([]byte("value"))
	must(err)
	must(file.Truncate(4))
	must(file.Sync())
	must(file.Close())
	must(os.Rename("new", "value"))
	folder, err := os.Open(".")
	must(err)
	must(folder.Sync())
	must(folder.Close())
	bytes := make([]byte, 4)
	file, err = os.Open("value")
	must(err)
	length, err := file.Read(bytes)
	must(err)
	if length != 4 || string(bytes) != "valu" {
		os.Exit(1)
	}
	must(file.Close())
	must(os.Link("value", "other"))
	must(os.Symlink("value", "way"))
	must(os.Remove("old"))
	must(os.Mkdir("made", 0o755))
	must(syscall.Rmdir("made")) // os.Remove would try to unlink it first
}
