package main

import (
	"bufio"
	"encoding/json"
	"os"
	"sync"
	"time"

	"zanteyard/record"
)

// records writes what sessions report to a file, for people who look for a bug. It isn't meant to be fast.
type records struct {
	lock sync.Mutex
	file *os.File
	to   *bufio.Writer
	stop chan struct{}
}

// newRecords makes a sink that writes to a file, or one that discards everything if path is "".
func newRecords(path string) (sink record.Sink, end func(), err error) {
	if path == "" {
		return nowhere{}, func() {}, nil
	}
	file, err := os.Create(path)
	if err != nil {
		return nil, nil, err
	}
	r := &records{file: file, to: bufio.NewWriterSize(file, 1<<18), stop: make(chan struct{})}
	go r.flush()
	return r, r.end, nil
}

func (r *records) flush() {
	tick := time.NewTicker(100 * time.Millisecond)
	defer tick.Stop()
	for {
		select {
		case <-tick.C:
			r.lock.Lock()
			r.to.Flush()
			r.lock.Unlock()
		case <-r.stop:
			return
		}
	}
}

func (r *records) end() {
	close(r.stop)
	r.lock.Lock()
	defer r.lock.Unlock()
	r.to.Flush()
	r.file.Close()
}

func (r *records) write(kind string, it any) {
	b, err := json.Marshal(map[string]any{kind: it})
	if err != nil {
		return
	}
	r.lock.Lock()
	defer r.lock.Unlock()
	r.to.Write(append(b, '\n')) // an error shows by what is missing
}

func (r *records) Connection(it record.Connection) { r.write("connection", it) }
func (r *records) Transaction(it record.Transaction) {
	if !it.Unaudited {
		r.write("transaction", it)
	}
}
func (r *records) Unseen(shape, reason string, reads bool) {
	r.write("unseen", record.Unseen{Shape: shape, Reason: reason})
}

// nowhere discards everything.
type nowhere struct{}

func (nowhere) Connection(record.Connection)   {}
func (nowhere) Transaction(record.Transaction) {}
func (nowhere) Unseen(string, string, bool)    {}
