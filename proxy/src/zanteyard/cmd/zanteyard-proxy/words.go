package main

import (
	"fmt"
	"io"
	"strings"
	"sync"
	"time"
)

// words are the program's log. Writing to it never waits for a reader: a terminal that was stopped, or a parent that
// hangs, would otherwise stop the sessions that log something.
type words struct {
	to io.Writer

	lock    sync.Mutex
	change  sync.Cond
	waiting []string
	dropped int
	closed  bool
	written chan struct{} // closed when nothing more will be written
	last    []string      // the latest lines, for a parent that comes later
	parent  func(line string)
}

const (
	mostWords = 1000 // lines that wait to be written
	lastWords = 100  // lines that are remembered
)

func newWords(to io.Writer) *words {
	w := &words{to: to, written: make(chan struct{})}
	w.change.L = &w.lock
	go w.run()
	return w
}

// Write takes one record of a log. It never fails.
func (w *words) Write(record []byte) (int, error) {
	line := shown(strings.TrimSuffix(string(record), "\n"))
	w.lock.Lock()
	defer w.lock.Unlock()
	if len(w.waiting) >= mostWords {
		w.dropped++
		return len(record), nil
	}
	w.waiting = append(w.waiting, line)
	if w.last = append(w.last, line); len(w.last) > lastWords {
		w.last = w.last[len(w.last)-lastWords:]
	}
	if w.parent != nil {
		w.parent(line)
	}
	w.change.Signal()
	return len(record), nil
}

func (w *words) run() {
	defer close(w.written)
	w.lock.Lock()
	defer w.lock.Unlock()
	for {
		for len(w.waiting) == 0 && !w.closed {
			w.change.Wait()
		}
		if len(w.waiting) == 0 {
			return
		}
		those, dropped := w.waiting, w.dropped
		w.waiting, w.dropped = nil, 0
		if dropped > 0 {
			those = append(those, fmt.Sprintf("%d lines of this log were left out: nobody read it", dropped))
		}
		w.lock.Unlock()
		io.WriteString(w.to, strings.Join(those, "\n")+"\n") // if it fails, its reader has gone
		w.lock.Lock()
	}
}

// tell makes f get each line from now on, and returns the latest ones before. f must not wait, nor log. nil ends it.
func (w *words) tell(f func(line string)) []string {
	w.lock.Lock()
	defer w.lock.Unlock()
	w.parent = f
	return append([]string(nil), w.last...)
}

// close waits until everything is written, but not for long.
func (w *words) close() {
	w.lock.Lock()
	w.closed = true
	w.change.Signal()
	w.lock.Unlock()
	select {
	case <-w.written:
	case <-time.After(time.Second):
	}
}
