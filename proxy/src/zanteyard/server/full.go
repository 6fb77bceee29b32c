package server

import (
	"errors"
	"syscall"
)

// isFull reports whether an error means that too many files are open, which passes.
func isFull(err error) bool {
	return errors.Is(err, syscall.EMFILE) || errors.Is(err, syscall.ENFILE) || errors.Is(err, syscall.ECONNABORTED)
}
