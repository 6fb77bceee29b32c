package remote

import (
	"errors"
	"net"
)

// Redis isn't trusted, and neither is whoever is on the way to it. The library that reads its replies makes room for as
// much as a reply says that it will have, and calls itself for each list within a list. To be out of memory ends the
// process, and with it all of the application's connections. So a reply is looked at before the library gets it.

const (
	mostOfReply = 64 << 20 // bytes of a reply, or that it says it will have
	mostOfLine  = 64 << 10 // bytes of a line of it
	mostNested  = 8        // lists within each other
	perElement  = 16       // bytes that the library takes for each element of a list
)

var errReplyTooLong = errors.New("remote: an answer from Redis is too long")

// guarded is a connection to Redis that refuses to hand on what begins a reply that is too long.
type guarded struct {
	net.Conn
	reply reply
}

func (g *guarded) Read(to []byte) (int, error) {
	n, err := g.Conn.Read(to)
	if !g.reply.take(to[:n]) {
		return 0, errReplyTooLong
	}
	return n, err
}

// reply is how far a reply has come.
type reply struct {
	line    []byte // the beginning of a line whose end hasn't arrived
	skip    int    // bytes of a text, with its line's end, that are still to come
	open    []int  // lists within each other: how many elements of each are still to come
	bytes   int    // of the reply, or that it says it will have
	refused bool
}

// take looks at what has arrived, and reports whether the reply is as it may be.
func (r *reply) take(its []byte) bool {
	for len(its) > 0 && !r.refused {
		if r.skip > 0 {
			n := r.skip
			if n > len(its) {
				n = len(its)
			}
			if r.skip, its = r.skip-n, its[n:]; r.skip == 0 {
				r.ended()
			}
			continue
		}
		at := 0
		for at < len(its) && its[at] != '\n' {
			at++
		}
		r.line = append(r.line, its[:at]...)
		if r.refused = len(r.line) > mostOfLine; at == len(its) {
			break
		}
		its = its[at+1:]
		r.begins(r.line)
		r.line = r.line[:0]
	}
	return !r.refused
}

// begins takes a whole line.
func (r *reply) begins(line []byte) {
	r.bytes += len(line)
	n, isLong := -1, false
	if len(line) > 0 && (line[0] == '$' || line[0] == '*') {
		n, isLong = lengthOf(line[1:])
	}
	switch {
	case isLong:
		r.refused = true
	case n < 0 || line[0] == '*' && n == 0:
		r.ended()
	case line[0] == '$':
		r.bytes += n
		r.skip = n + 2
	default:
		r.bytes += n * perElement
		r.open = append(r.open, n)
	}
	r.refused = r.refused || r.bytes > mostOfReply || len(r.open) > mostNested
}

// ended is called when an element has ended.
func (r *reply) ended() {
	for len(r.open) > 0 {
		last := len(r.open) - 1
		if r.open[last]--; r.open[last] > 0 {
			return
		}
		r.open = r.open[:last]
	}
	r.bytes = 0
}

// lengthOf reads how long a text or a list says that it is: -1 for none, or for what isn't a number.
func lengthOf(text []byte) (n int, isLong bool) {
	for _, c := range text {
		switch {
		case c == '\r':
		case c < '0' || c > '9':
			return -1, false
		case n > mostOfReply:
			return n, true
		default:
			n = 10*n + int(c-'0')
		}
	}
	return n, n > mostOfReply
}
