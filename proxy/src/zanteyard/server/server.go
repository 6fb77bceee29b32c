// Package server listens for clients, and has a session for each connection.
package server

import (
	"context"
	"crypto/tls"
	"errors"
	"io"
	"net"
	"sync"
	"sync/atomic"
	"time"

	"github.com/jackc/pgconn"
	"github.com/jackc/pgproto3/v2"

	"zanteyard/guard"
	"zanteyard/loop"
	"zanteyard/meeting"
	"zanteyard/record"
	"zanteyard/session"
)

// Options are the options of a server.
type Options struct {
	Server    *pgconn.Config // where the server is, and how to reach it
	ClientTLS *tls.Config    // for clients' connections; nil: none
	// RequireTLS refuses clients without TLS, except those by a Unix socket.
	RequireTLS bool
	// TrustClients lets clients in whom the server asks for no credential.
	TrustClients bool
	Database     string // the database to audit; connections to others are passed on without looking
	Session      *session.Options
	Room         *meeting.Room
	Loops        *loop.Loops // they serve connections without TLS; nil: none
	Log          func(string)
	// Patience is how long a client may take for its startup message, and for how long one that has left counts as there.
	// From that message on only the server's own limits hold.
	Patience time.Duration
	// Draining is how long transactions may go on after Drain.
	Draining time.Duration
	// Most is how many clients are served at a time; 0: as many as there are.
	Most int
}

// Server accepts clients' connections.
type Server struct {
	options Options
	targets []target
	numbers atomic.Uint64

	lock     sync.Mutex
	conns    map[net.Conn]io.Closer
	sessions map[*session.Session]bool
	served   int // clients whose startup message was accepted
	listener net.Listener
	draining bool
	ended    bool
	all      sync.WaitGroup
}

// New makes a server.
func New(options Options) *Server {
	if options.Patience == 0 {
		options.Patience = time.Minute
	}
	return &Server{options: options, targets: targets(options.Server), conns: map[net.Conn]io.Closer{},
		sessions: map[*session.Session]bool{}}
}

// Serve accepts connections until the listener is closed, Drain is called or ctx ends, then ends the existing ones.
func (s *Server) Serve(ctx context.Context, listener net.Listener) error {
	if !s.listens(listener) {
		return nil
	}
	stop := make(chan struct{})
	defer close(stop)
	go func() {
		select {
		case <-ctx.Done():
		case <-stop:
		}
		listener.Close()
	}()
	err := s.accept(ctx, listener)
	drains := s.drains()
	if drains {
		s.await(ctx)
	}
	s.end()
	s.all.Wait()
	if drains || ctx.Err() != nil {
		return nil
	}
	return err
}

func (s *Server) accept(ctx context.Context, listener net.Listener) error {
	for delay := time.Duration(0); ; {
		c, err := listener.Accept()
		var temporary net.Error
		switch {
		case err == nil:
			delay = 0
			if s.enter(c) {
				go s.guarded(ctx, c)
			}
		case errors.As(err, &temporary) && temporary.Timeout() || isFull(err):
			delay = 2*delay + 5*time.Millisecond // too many open files: the next one may have room
			if delay > time.Second {
				delay = time.Second
			}
			s.options.Log("can't accept a connection: " + err.Error())
			select {
			case <-time.After(delay):
			case <-ctx.Done():
				return nil
			}
		default:
			return err
		}
	}
}

// enter adds a connection to the existing ones. It closes the connection if the server has ended, or if so many are
// beginning that nobody could be meant by all of them.
func (s *Server) enter(c net.Conn) bool {
	s.lock.Lock()
	defer s.lock.Unlock()
	if s.ended || s.options.Most > 0 && len(s.conns) >= 2*s.options.Most+mostBeginning {
		c.Close()
		return false
	}
	s.conns[c] = c
	s.all.Add(1)
	return true
}

func (s *Server) leave(c net.Conn) {
	c.Close()
	s.lock.Lock()
	delete(s.conns, c)
	s.lock.Unlock()
	s.all.Done()
}

func (s *Server) end() {
	s.lock.Lock()
	defer s.lock.Unlock()
	s.ended = true
	for _, c := range s.conns {
		c.Close()
	}
	for one := range s.sessions {
		go one.End() // what waits for the server doesn't see that its client's connection was closed
	}
}

// guarded serves a connection. A panic ends that connection alone.
func (s *Server) guarded(ctx context.Context, raw net.Conn) {
	defer s.leave(raw)
	guard.Do("a connection's beginning", func(err error) { s.options.Log(err.Error() + ": " + guard.Stack(err)) },
		func() { s.serve(ctx, raw) })
}

// serve handles one connection, from its first byte to its last.
func (s *Server) serve(ctx context.Context, raw net.Conn) {
	raw.SetDeadline(time.Now().Add(s.options.Patience))
	client, first, err := s.greet(raw)
	if err != nil {
		s.complain(raw, err)
		return
	}
	raw.SetDeadline(time.Time{})
	beginning, begun := s.whileThere(ctx, raw)
	defer begun()
	if first.code() == cancelCode {
		s.cancel(beginning, first)
		return
	}
	if s.lacksTLS(raw, client) {
		s.complain(raw, errNeedTLS)
		s.refused(first, "TLS is required (--require-tls)")
		return
	}
	if !s.admit() {
		client.Write(s.tooMany())
		s.refused(first, "there were too many (--most-connections)")
		return
	}
	defer s.dismiss()
	server, err := s.dial(beginning)
	if err != nil {
		s.options.Log("no connection to the server: " + err.Error())
		client.Write((&pgproto3.ErrorResponse{Severity: "FATAL", SeverityUnlocalized: "FATAL", Code: "08001",
			Message: "zanteyard-proxy: no connection to the server"}).Encode(nil))
		s.refused(first, "the server couldn't be reached")
		return
	}
	defer server.Close()
	if err := s.lets(beginning, client, server, first); err != nil {
		s.complain(raw, err)
		switch {
		case errors.Is(err, errTrusted):
			s.refused(first, "the server asks for no credential")
		case errors.Is(err, errForeign):
			s.refused(first, "the server asks for a credential that can't pass through a proxy")
		}
		return
	}
	begun()
	s.session(raw, client, server, first.startup())
}

// refused counts a client that would have been audited.
func (s *Server) refused(first packet, why string) {
	if start := first.startup(); !start.replication && start.database == s.options.Database {
		s.options.Session.Sink.Connection(record.Connection{Refused: why})
	}
}

// complain logs why a client isn't served. That it went away, or that the server refused it, is no concern of ours.
func (s *Server) complain(raw net.Conn, err error) {
	if !errors.Is(err, io.EOF) && !errors.Is(err, net.ErrClosed) && !errors.Is(err, errRefused) {
		s.options.Log("a client at " + raw.RemoteAddr().String() + ": " + err.Error())
	}
}

// session passes messages on until a connection ends.
func (s *Server) session(raw, client, server net.Conn, start startup) {
	blind := start.replication || start.database != s.options.Database
	where := address(raw)
	var from, to session.Conn = client, server
	if !blind && client == raw {
		from, to = s.loops(raw, server)
	}
	n := session.New(s.numbers.Add(1), from, to, s.options.Session)
	s.beginsSession(n)
	defer s.endsSession(n)
	if blind {
		n.Blind()
	} else {
		it := record.Connection{Number: n.Number(), ApplicationName: start.application, Address: where,
			User: start.user, Database: start.database}
		s.options.Session.Sink.Connection(it)
		s.options.Room.Enter(n)
		defer func() {
			s.options.Room.Leave(n)
			it.Ended = true
			s.options.Session.Sink.Connection(it)
		}()
	}
	if err := n.Run(); err != nil {
		s.options.Log("connection " + where + ": " + err.Error())
	}
}

// loops hands a connection's two sockets over to a loop, if both are plain.
func (s *Server) loops(raw, server net.Conn) (session.Conn, session.Conn) {
	if s.options.Loops == nil {
		return raw, server
	}
	from, to, taken := s.options.Loops.Take(raw, server)
	if !taken {
		return raw, server
	}
	s.lock.Lock()
	defer s.lock.Unlock()
	s.conns[raw] = from
	if s.ended {
		from.Close()
	}
	return from, to
}

// address returns where a client is, for people. A client on this machine that connects by a Unix socket has no
// address.
func address(c net.Conn) string {
	switch a := c.RemoteAddr(); {
	case a == nil:
		return ""
	case a.Network() == "unix":
		return "a local socket"
	default:
		return a.String()
	}
}

// sessionOf returns the session that a cancel request is for, or nil.
func (s *Server) sessionOf(request packet) *session.Session {
	s.lock.Lock()
	all := make([]*session.Session, 0, len(s.sessions))
	for one := range s.sessions {
		all = append(all, one)
	}
	s.lock.Unlock()
	for _, one := range all {
		if one.IsFor(request[8:]) {
			return one
		}
	}
	return nil
}

// cancel passes a cancel request on, once the server runs what it is meant for. Clients have the server's own key, so it
// means the same there. The server closes the connection when it has handled the request, and then so does the proxy: a
// client may wait for that.
func (s *Server) cancel(ctx context.Context, request packet) {
	pass := func() { s.pass(ctx, request) }
	if one := s.sessionOf(request); one != nil {
		one.Cancel(ctx, pass)
		return
	}
	pass()
}

// pass sends the server one request, on a connection of its own, and waits until the server has handled it.
func (s *Server) pass(ctx context.Context, request packet) {
	server, err := s.dial(ctx)
	if err != nil {
		return
	}
	defer server.Close()
	defer closeAfter(ctx, server)()
	if _, err := server.Write(request); err == nil {
		io.Copy(io.Discard, server)
	}
}
