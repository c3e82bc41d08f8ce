// Package runtime stands in the place of gofail's, for a program whose points Paklour drives. One line of the program's go.mod takes it:
//
//	replace go.etcd.io/gofail => PAKLOUR/outside/points/go
//
// Then `gofail enable` and `go build` are called as always. What happens at a point is what the scenario of the run says, which Paklour's supervisor reads, and
// not the program. So nothing can be set here. Outside of Paklour no point is active.
package runtime

import (
	"errors"
	"fmt"
	"os"
	"strconv"
	"strings"
	"syscall"
)

var (
	ErrNoExist  = errors.New("failpoint: failpoint does not exist")
	ErrDisabled = errors.New("failpoint: failpoint is disabled")
	errSet      = errors.New("failpoint: the scenario of Paklour says what happens at a point, so the program can set nothing")

	names []string
)

// Failpoint is a point, which the files that gofail makes have as a variable.
type Failpoint struct{ name string }

// NewFailpoint makes a point. Its name is the package's path and the name in the comment, as one text or as two; older files have one word more behind these.
func NewFailpoint(name string, more ...interface{}) *Failpoint {
	for _, part := range more {
		if text, isText := part.(string); isText {
			name += "/" + text
		}
	}
	names = append(names, name)
	return &Failpoint{name}
}

// Acquire hits the point. If it is active it returns a value, and otherwise an error.
func (fp *Failpoint) Acquire() (interface{}, error) {
	text, err := os.Readlink("/.paklour/" + fp.name)
	if err == nil {
		return valueOf(text), nil
	}
	if errors.Is(err, syscall.EIO) {
		return struct{}{}, nil
	}
	return nil, ErrDisabled
}

// valueOf is the value that gofail has of such a text: a number, a truth, a text in quotation marks, or else the text as it is.
func valueOf(text string) interface{} {
	if number, err := strconv.Atoi(text); err == nil {
		return number
	}
	if text == "true" || text == "false" {
		return text == "true"
	}
	if strings.HasPrefix(text, `"`) {
		if plain, err := strconv.Unquote(text); err == nil {
			return plain
		}
	}
	if text == "" {
		return struct{}{}
	}
	return text
}

// Release is called where an active point was left.
func (fp *Failpoint) Release() {}

// BadType is called if the value of the scenario isn't of the point's type.
func (fp *Failpoint) BadType(v interface{}, t string) {
	fmt.Printf("failpoint: %q got value %v of type \"%T\" but expected type %q\n", fp.name, v, v, t)
}

func Enable(name, terms string) error { return errSet }

func Disable(name string) error {
	if !isPoint(name) {
		return ErrNoExist
	}
	return ErrDisabled
}

func Status(name string) (string, error) { return "", Disable(name) }

// List returns the names of all points.
func List() []string { return append([]string(nil), names...) }

func isPoint(name string) bool {
	for _, each := range names {
		if each == name {
			return true
		}
	}
	return false
}
