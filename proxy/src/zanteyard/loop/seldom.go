package loop

import (
	"net"
	"sync"
	"syscall"
	"time"
)

// Seldom is a plain socket that is looked at from time to time, for readers that aren't in a hurry: data that arrives
// in between wakes nobody, neither here nor at the sender, and is read together. After many looks that found nothing,
// the pauses between them are longer. Its methods are safe for use by several goroutines, except that only one may call
// Read at a time.
type Seldom struct {
	socket
	pause time.Duration
	close sync.Once
	vain  int // the looks since anything was there to read, for Read alone
}

// After so many looks in vain, a pause is so many times as long.
const (
	vainLooks  = 40
	longPauses = 5
)

// NewSeldom takes a plain socket out of Go's hands, and closes the original. If it isn't a plain socket, it is left as
// it is.
func NewSeldom(from net.Conn, pause time.Duration) (*Seldom, bool) {
	s := &Seldom{pause: pause}
	if !s.duplicate(from) {
		return nil, false
	}
	from.Close()
	return s, true
}

// Read waits until there is something to read.
func (s *Seldom) Read(p []byte) (int, error) {
	for {
		n, err := s.TryRead(p)
		if err != ErrWait {
			s.vain = 0
			return n, err
		}
		if s.vain++; s.vain > vainLooks {
			time.Sleep(longPauses * s.pause)
		} else {
			time.Sleep(s.pause)
		}
	}
}

// Write waits until everything is written.
func (s *Seldom) Write(p []byte) (int, error) {
	for done := 0; ; {
		n, err := s.TryWrite(p[done:])
		if done += n; err != ErrWait {
			return done, err
		}
		time.Sleep(s.pause)
	}
}

// Close ends the connection: anything tried later fails.
func (s *Seldom) Close() error {
	s.close.Do(func() {
		s.ended.Store(true)
		syscall.Shutdown(s.fd, syscall.SHUT_RDWR)
		s.unuse()
	})
	return nil
}
