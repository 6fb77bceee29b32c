// Package wire frames PostgreSQL's protocol, version 3, for a program that passes nearly all of it on unchanged.
// Messages are slices of the buffer that they were read into: nothing is copied or allocated for a message. The library
// pgproto3 makes a value of each message and another text of each value, which is what a client wants; it is used for
// the messages that the proxy itself makes, for startup, and in the tests (BenchmarkFrames compares the two).
package wire

import (
	"errors"
	"io"
)

// Header is the size of a message's header: its type and its length, which doesn't include the type.
const Header = 5

const (
	firstBuffer = 8 << 10
	keptBuffer  = 64 << 10
	// Limit is the largest size of messages that are returned whole. Longer ones are streamed.
	Limit = 1 << 20
	// mostMessages is how many messages are returned together.
	mostMessages = 4096
)

// ErrFrame means that what was read can't be a message.
var ErrFrame = errors.New("wire: a message's length is out of range")

// Reader returns the messages of one direction of a connection. Not safe for use by several goroutines.
type Reader struct {
	from       io.Reader
	buf        []byte
	start, end int // what was read and not returned yet
	rest       int // bytes of a long message that weren't returned yet
}

// NewReader reads from a connection after its startup.
func NewReader(from io.Reader) *Reader {
	return &Reader{from: from, buf: make([]byte, firstBuffer)}
}

// Whole returns at least one message, all that were read whole. If more isn't 0, it is a single message of which only
// the beginning was read, and `more` bytes of it remain: Chunk or Rest returns them. The slice is valid until the next
// call.
func (r *Reader) Whole() (messages []byte, more int, err error) {
	if r.rest > 0 {
		return nil, 0, errors.New("wire: a long message wasn't read completely")
	}
	r.shrink()
	for {
		n, need, err := whole(r.buf[r.start:r.end])
		if err != nil {
			return nil, 0, err
		}
		if n > 0 {
			messages = r.buf[r.start : r.start+n]
			r.start += n
			return messages, 0, nil
		}
		if need > Limit && r.end-r.start >= Limit {
			messages = r.buf[r.start:r.end]
			r.rest = need - len(messages)
			r.start, r.end = 0, 0
			return messages, r.rest, nil
		}
		if need > Limit {
			need = Limit
		}
		if err := r.fill(need); err != nil {
			return nil, 0, err
		}
	}
}

// whole returns the length of all whole messages at the beginning of b. If there is none, need is the length of the
// first one, as far as known.
func whole(b []byte) (n, need int, err error) {
	for count := 0; len(b)-n >= Header && count < mostMessages; count++ {
		l := Length(b[n:])
		if l < Header {
			return 0, 0, ErrFrame
		}
		if len(b)-n < l {
			return n, l, nil
		}
		n += l
	}
	return n, Header, nil
}

// Length returns the length of the message that begins here, including its type.
func Length(b []byte) int {
	return 1 + int(int32(uint32(b[1])<<24|uint32(b[2])<<16|uint32(b[3])<<8|uint32(b[4])))
}

// shrink releases a large buffer that is empty.
func (r *Reader) shrink() {
	if r.start != r.end {
		return
	}
	r.start, r.end = 0, 0
	if len(r.buf) > 2*keptBuffer {
		r.buf = make([]byte, keptBuffer)
	}
}

// fill reads more, with room for `need` bytes in all.
func (r *Reader) fill(need int) error {
	if r.start > 0 {
		copy(r.buf, r.buf[r.start:r.end])
		r.start, r.end = 0, r.end-r.start
	}
	size := len(r.buf)
	if r.end == size && size < keptBuffer {
		size = keptBuffer // a buffer that was filled is enlarged once
	}
	if need > size {
		size = need + keptBuffer
	}
	if size > len(r.buf) {
		bigger := make([]byte, size)
		copy(bigger, r.buf[:r.end])
		r.buf = bigger
	}
	n, err := r.from.Read(r.buf[r.end:])
	r.end += n
	if n > 0 {
		return nil
	}
	if err == nil {
		err = io.ErrNoProgress
	}
	return err
}

// Chunk returns more bytes of a long message, and how many remain after these.
func (r *Reader) Chunk() ([]byte, int, error) {
	size := len(r.buf)
	if size > r.rest {
		size = r.rest
	}
	n, err := r.from.Read(r.buf[:size])
	if n == 0 {
		if err == nil {
			err = io.ErrNoProgress
		}
		return nil, r.rest, err
	}
	r.rest -= n
	return r.buf[:n], r.rest, nil
}

// Rest returns a long message whole, in separate memory, including the part of it that was returned before.
func (r *Reader) Rest(begin []byte) ([]byte, error) {
	all := make([]byte, len(begin)+r.rest)
	n := copy(all, begin)
	if _, err := io.ReadFull(r.from, all[n:]); err != nil {
		return nil, err
	}
	r.rest = 0
	return all, nil
}

// Waiting reports whether a message that was read whole waits to be returned.
func (r *Reader) Waiting() bool {
	b := r.buf[r.start:r.end]
	return r.rest == 0 && len(b) >= Header && Length(b) <= len(b)
}

// Buffered returns the bytes that were read and not returned, for a connection that is passed on without looking from
// here on.
func (r *Reader) Buffered() []byte {
	b := r.buf[r.start:r.end]
	r.start, r.end = 0, 0
	return b
}
