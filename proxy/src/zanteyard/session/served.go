package session

import (
	"io"

	"zanteyard/loop"
	"zanteyard/wire"
)

// A loop looks itself at so many of a client's bytes, and at statements of so many, since to parse and plan a long one takes
// time, for which all clients of the loop would wait.
const (
	mostNow     = 16 << 10
	mostPlanned = 2 << 10
)

// hasLong reports whether a text in whole messages is longer than those that a loop plans itself.
func hasLong(batch []byte) bool {
	for len(batch) > mostPlanned {
		n := wire.Length(batch)
		if n > mostPlanned && (batch[0] == 'Q' || batch[0] == 'P') {
			return true
		}
		batch = batch[n:]
	}
	return false
}

// direction is one of a session's two directions while a loop serves it. Whatever has to wait is done by a goroutine,
// which then takes everything that arrives until there is nothing left to read.
type direction struct {
	session  *Session
	from, to *loop.Conn
	waits    bool // reading waits
	in       *wire.Reader
	// now handles messages as far as it can without waiting, and returns a function for the rest.
	now func(d *direction, batch []byte, more int) (left func() error, err error)
	// later handles messages, waiting where it has to.
	later func(in *wire.Reader, batch []byte, more int) error
	// blind passes everything on without looking.
	blind func(in *wire.Reader) error
	turn  func()
	ended chan error
}

// Read implements io.Reader for the direction's wire.Reader.
func (d *direction) Read(p []byte) (int, error) {
	if d.waits {
		return d.from.Read(p)
	}
	return d.from.TryRead(p)
}

func (s *Session) direction(from, to *loop.Conn) *direction {
	d := &direction{session: s, from: from, to: to, ended: make(chan error, 1)}
	d.in = wire.NewReader(d)
	d.turn = func() {
		if err := s.guarded(d.take); err != nil {
			d.end(err)
		}
	}
	return d
}

// served lets a loop pass messages on.
func (s *Session) served(client, server *loop.Conn) error {
	forth, back := s.direction(client, server), s.direction(server, client)
	forth.now, forth.later = (*direction).forth, s.send
	forth.blind = func(in *wire.Reader) error { return s.unseen(server, client, in) }
	back.now, back.later = (*direction).back, s.passLong
	back.blind = func(in *wire.Reader) error { return s.unseen(client, server, in) }
	server.Serve(back.turn)
	client.Serve(forth.turn)
	var err, backErr error
	for left := 2; left > 0; left-- {
		select {
		case err = <-forth.ended:
			s.sendEnds(err)
		case backErr = <-back.ended:
			s.deserted()
			s.sayGoodbye()
			client.Close()
			server.Close()
		}
	}
	client.Free()
	server.Free()
	return ending(err, backErr)
}

// take is called by the loop when there is something to read.
func (d *direction) take() error {
	for {
		batch, more, err := d.in.Whole()
		if err == loop.ErrWait {
			return nil
		}
		if err != nil {
			return err
		}
		left, err := d.now(d, batch, more)
		if err == nil && left == nil && d.session.blind.Load() {
			left = func() error { return nil }
		}
		if left != nil {
			d.from.Leave()
			go d.away(left)
			return nil
		}
		if err != nil || !d.in.Waiting() {
			return err
		}
	}
}

// away does what has to wait. It gives the direction back to the loop when there is nothing left to read.
func (d *direction) away(left func() error) {
	var given bool
	err := d.session.guarded(func() (err error) {
		d.waits = true
		err = left()
		for err == nil {
			if d.session.blind.Load() {
				return d.blind(d.in)
			}
			var batch []byte
			var more int
			d.waits = false
			if batch, more, err = d.in.Whole(); err == loop.ErrWait {
				given = true
				return nil
			}
			d.waits = true
			if err == nil {
				err = d.later(d.in, batch, more)
			}
		}
		return err
	})
	if given {
		d.from.Serve(d.turn)
	} else {
		d.end(err)
	}
}

func (d *direction) end(err error) {
	d.from.Leave()
	d.ended <- err
}

// sendLater returns a function for work that waits for somebody else, or takes long.
func (d *direction) sendLater(batch []byte, more int) func() error {
	return func() error { return d.session.send(d.in, batch, more) }
}

// forth handles messages from the client.
func (d *direction) forth(batch []byte, more int) (left func() error, err error) {
	s := d.session
	if more > 0 || len(batch) > mostNow || hasLong(batch) || s.greeting.Load() != nil || !s.writes.TryLock() {
		return d.sendLater(batch, more), nil
	}
	if s.left.Load() {
		s.writes.Unlock()
		return nil, io.EOF
	}
	out, ok := s.lookedNow(batch)
	if !ok {
		s.writes.Unlock()
		return d.sendLater(batch, more), nil
	}
	n, err := d.to.TryWrite(out)
	if err == loop.ErrWait {
		return func() error {
			_, err := d.to.Write(out[n:])
			s.written()
			return err
		}, nil
	}
	s.written()
	return nil, err
}

// back handles messages from the server.
func (d *direction) back(batch []byte, more int) (left func() error, err error) {
	s := d.session
	if more > 0 {
		return func() error { return s.passLong(d.in, batch, more) }, nil
	}
	out, again, rest, ok := s.answeredNow(batch)
	if !ok {
		return func() error { return s.pass(batch) }, nil
	}
	if again {
		return func() error { return s.passOn(out, again, rest) }, nil
	}
	if rest {
		s.rest()
	}
	n, err := d.to.TryWrite(out)
	if err == loop.ErrWait {
		return func() error { return s.passOn(out[n:], false, false) }, nil
	}
	s.toClient.release()
	return nil, err
}
