// driver POINT..: hits these points one after the other, and prints what each hit came to: `go`, or `return(TEXT)`. `held` runs it.
package main

import (
	"fmt"
	"os"

	"go.etcd.io/gofail/runtime"
)

func main() {
	for _, name := range os.Args[1:] {
		value, err := runtime.NewFailpoint(name).Acquire()
		switch {
		case err != nil:
			fmt.Println("go")
		case value == struct{}{}:
			fmt.Println("return()")
		default:
			fmt.Printf("return(%v)\n", value)
		}
	}
}
