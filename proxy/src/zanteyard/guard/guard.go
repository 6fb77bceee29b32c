// Package guard keeps a panic in one goroutine from ending the program, and with it all connections of the application.
// Whatever belongs to an audit runs under Run, Do or Go: a panic then ends the audit, with its reason, and nothing else.
package guard

import (
	"errors"
	"fmt"
	"runtime/debug"
)

// Error is a panic.
type Error struct {
	Place string // what was running
	Value any
	Stack string
}

func (e *Error) Error() string {
	return fmt.Sprintf("a fault of the proxy's, in %s: %v", e.Place, e.Value)
}

// IsFault reports whether an error is a panic.
func IsFault(err error) bool {
	var its *Error
	return errors.As(err, &its)
}

// Stack returns where a panic happened, or nothing if the error is none.
func Stack(err error) string {
	var its *Error
	if errors.As(err, &its) {
		return its.Stack
	}
	return ""
}

// Run runs f, and returns its error, or its panic as an error.
func Run(place string, f func() error) (err error) {
	defer func() {
		if value := recover(); value != nil {
			err = &Error{Place: place, Value: value, Stack: string(debug.Stack())}
		}
	}()
	At(place)
	return f()
}

// Go runs f in a goroutine. If it panics, failed gets the panic as an error.
func Go(place string, failed func(error), f func()) {
	go Do(place, failed, f)
}

// Do is Go, in this goroutine.
func Do(place string, failed func(error), f func()) {
	if err := Run(place, func() error { f(); return nil }); err != nil {
		failed(err)
	}
}
