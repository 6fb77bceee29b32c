// Package feed talks with the program that started the proxy: lines for the auditor and events out, commands in, in the
// format of docs/PROXY_FEED.md.
package feed

import (
	"bufio"
	"errors"
	"io"
	"sync"

	"zanteyard/guard"
	"zanteyard/join"
)

// Writer implements join.Output on a stream. Its calls don't wait: a goroutine writes (Run). What it holds is limited
// by what the joiner produces: no more lines than the auditor's limit allows before a cut comes back, and coverage is
// left out while much is waiting.
type Writer struct {
	to   io.Writer
	wake chan struct{}

	lock   sync.Mutex
	held   []byte
	closed bool
}

// enough is how much may wait before coverage is left out.
const enough = 1 << 20

// NewWriter makes one.
func NewWriter(to io.Writer) *Writer {
	return &Writer{to: to, wake: make(chan struct{}, 1)}
}

// Line writes a line for the auditor.
func (w *Writer) Line(line []byte) { w.put(line) }

// Event writes an event.
func (w *Writer) Event(it join.Event) {
	if its, is := it.(join.Coverage); is && !its.Last && w.waiting() > enough {
		return
	}
	text, err := encode(it)
	if err != nil { // no value of an event is one that JSON lacks
		text = []byte(`{"event":"warning","text":"an event could not be written"}`)
	}
	w.put(text)
}

// Write writes an event by itself, where no Writer runs.
func Write(to io.Writer, it join.Event) {
	if text, err := encode(it); err == nil {
		to.Write(append(text, '\n'))
	}
}

func (w *Writer) waiting() int {
	w.lock.Lock()
	defer w.lock.Unlock()
	return len(w.held)
}

func (w *Writer) put(line []byte) {
	w.lock.Lock()
	if !w.closed {
		w.held = append(append(w.held, line...), '\n')
	}
	w.lock.Unlock()
	w.signal()
}

func (w *Writer) signal() {
	select {
	case w.wake <- struct{}{}:
	default:
	}
}

// Run writes until Close was called and everything is written, or the stream fails.
func (w *Writer) Run() error {
	var spare []byte
	for range w.wake {
		guard.At("a piece of the feed")
		w.lock.Lock()
		text, closed := w.held, w.closed
		w.held = spare[:0]
		w.lock.Unlock()
		if _, err := w.to.Write(text); err != nil {
			w.Close()
			return err
		}
		spare = text
		if cap(spare) > enough {
			spare = nil
		}
		if closed {
			return nil
		}
	}
	return nil
}

// Abandon writes a last event, after Run has panicked, and drops everything else.
func (w *Writer) Abandon(last join.Event) {
	w.lock.Lock()
	w.closed, w.held = true, nil
	w.lock.Unlock()
	guard.Run("the feed's end", func() error {
		text, err := encode(last)
		if err == nil {
			_, err = w.to.Write(append(append([]byte{'\n'}, text...), '\n')) // Run may have written half a line
		}
		return err
	})
}

// Close makes Run end when everything is written. Anything later is dropped.
func (w *Writer) Close() {
	w.lock.Lock()
	w.closed = true
	w.lock.Unlock()
	w.signal()
}

// Commands handles the parent's commands.
type Commands interface {
	Cut(marks []uint64)
	Describe(id int64, transactions [][2]uint64)
	Round()
	Restart()
	Stop()
	Warn(text string)
}

// mostOfCommand is the longest permitted command, in bytes.
const mostOfCommand = 1 << 20

// Read executes commands until the stream ends, which counts as stop. It returns the error that ended the stream, or
// nil at its end.
func Read(from io.Reader, to Commands) error {
	lines := bufio.NewReaderSize(from, mostOfCommand)
	for {
		line, err := lines.ReadSlice('\n')
		if errors.Is(err, bufio.ErrBufferFull) {
			to.Warn("a command is too long")
			for errors.Is(err, bufio.ErrBufferFull) {
				_, err = lines.ReadSlice('\n')
			}
			line = nil
		}
		if len(line) > 1 {
			if wrong := obey(line, to); wrong != nil {
				to.Warn(wrong.Error())
			}
		}
		if err != nil {
			to.Stop()
			if errors.Is(err, io.EOF) {
				return nil
			}
			return err
		}
	}
}
