package server

import (
	"context"
	"errors"
	"fmt"
	"io"
	"net"
	"testing"
	"time"

	"github.com/jackc/pgconn"
	"github.com/jackc/pgproto3/v2"

	"zanteyard/loop"
	"zanteyard/meeting"
	"zanteyard/session"
	"zanteyard/wire"
)

// drained is a server of its own, which can be drained.
type drained struct {
	*Server
	port  int
	ended chan error
}

func startDrained(t *testing.T, change func(*Options)) *drained {
	t.Helper()
	config, err := pgconn.ParseConfig(url("postgres", theCluster.Port, "sslmode=disable"))
	if err != nil {
		t.Fatal(err)
	}
	loops, err := loop.New()
	if err != nil {
		t.Fatal(err)
	}
	log := func(text string) { t.Log(text) }
	options := Options{TrustClients: true, Server: config, Database: "postgres", Room: meeting.NewRoom(time.Second), Loops: loops, Log: log,
		Draining: time.Hour, Session: &session.Options{Sink: &counted{}, ReadLimit: 100, Auditing: func() bool { return false },
			Generation: func() uint64 { return 0 }, Defined: func() {}, Log: log, Bound: time.Second}}
	change(&options)
	listener, err := net.Listen("tcp", "127.0.0.1:0")
	if err != nil {
		t.Fatal(err)
	}
	ctx, cancel := context.WithCancel(context.Background())
	d := &drained{Server: New(options), port: listener.Addr().(*net.TCPAddr).Port, ended: make(chan error, 1)}
	go func() {
		d.ended <- d.Serve(ctx, listener)
		close(d.ended)
	}()
	t.Cleanup(func() {
		cancel()
		<-d.ended
	})
	return d
}

// said returns the code of the error that a connection ends with.
func (r *raw) said() (code string, err error) {
	for {
		for len(r.left) > 0 {
			n := wire.Length(r.left)
			if r.left[0] == 'E' {
				var m pgproto3.ErrorResponse
				if err := m.Decode(r.left[wire.Header:n]); err != nil {
					return "", err
				}
				code = m.Severity + " " + m.Code
			}
			r.left = r.left[n:]
		}
		all, more, err := r.in.Whole()
		if errors.Is(err, io.EOF) {
			return code, nil
		}
		if err != nil || more > 0 {
			return "", fmt.Errorf("%d bytes are missing, %w", more, err)
		}
		r.left = all
	}
}

// answered sends a query and waits for its answer.
func (r *raw) answered(t *testing.T, text string) {
	t.Helper()
	if err := r.query(text); err != nil {
		t.Fatal(text, err)
	}
	if err := r.ready(nil); err != nil {
		t.Fatal(text, err)
	}
}

// TestDrain: whoever is idle is told that the server shuts down, a statement that is running is answered first, a
// transaction goes on up to its COMMIT, and nobody new is accepted.
func TestDrain(t *testing.T) {
	needServer(t)
	for name, change := range map[string]func(*Options){"loops": func(*Options) {}, "goroutines": func(o *Options) { o.Loops = nil }} {
		t.Run(name, func(t *testing.T) {
			d := startDrained(t, change)
			lock, err := connectRaw(theCluster.Port)
			if err != nil {
				t.Fatal(err)
			}
			defer lock.Close()
			lock.answered(t, "SELECT pg_advisory_lock(7)")
			var idle, running, inside, failed *raw
			for _, one := range []**raw{&idle, &running, &inside, &failed} {
				if *one, err = connectRaw(d.port); err != nil {
					t.Fatal(err)
				}
				defer (*one).Close()
			}
			inside.answered(t, "BEGIN")
			failed.answered(t, "BEGIN")
			failed.answered(t, "SELEC")
			if err := running.query("SELECT pg_advisory_xact_lock(7)"); err != nil {
				t.Fatal(err)
			}
			until(t, "the statement waits", func() bool {
				n, err := ask(url("postgres", theCluster.Port, "sslmode=disable"),
					"SELECT count(*) FROM pg_locks WHERE locktype = 'advisory' AND NOT granted")
				return err == nil && n == "1"
			})
			d.Drain()
			d.Drain()
			if code, err := idle.said(); err != nil || code != "FATAL 57P01" {
				t.Errorf("an idle client was told %q, %v", code, err)
			}
			if c, err := net.Dial("tcp", fmt.Sprintf("127.0.0.1:%d", d.port)); err == nil {
				c.Close()
				t.Error("another client was accepted")
			}
			inside.answered(t, "SELECT 1")
			inside.answered(t, "COMMIT")
			if code, err := inside.said(); err != nil || code != "FATAL 57P01" {
				t.Errorf("after its COMMIT a client was told %q, %v", code, err)
			}
			failed.answered(t, "ROLLBACK")
			if code, err := failed.said(); err != nil || code != "FATAL 57P01" {
				t.Errorf("after its ROLLBACK a client was told %q, %v", code, err)
			}
			select {
			case err := <-d.ended:
				t.Fatalf("it ended before a statement was answered: %v", err)
			default:
			}
			lock.answered(t, "SELECT pg_advisory_unlock(7)")
			rows := 0
			if err := running.ready(&rows); err != nil || rows == 0 {
				t.Errorf("the statement that was running: %d bytes, %v", rows, err)
			}
			if code, err := running.said(); err != nil || code != "FATAL 57P01" {
				t.Errorf("after its statement a client was told %q, %v", code, err)
			}
			if err := <-d.ended; err != nil {
				t.Error(err)
			}
		})
	}
}

// TestDrainEnds: who doesn't end a transaction is closed when the time is over.
func TestDrainEnds(t *testing.T) {
	needServer(t)
	d := startDrained(t, func(o *Options) { o.Draining = time.Millisecond })
	c, err := connectRaw(d.port)
	if err != nil {
		t.Fatal(err)
	}
	defer c.Close()
	c.answered(t, "BEGIN")
	d.Drain()
	if code, err := c.said(); code != "" {
		t.Errorf("%q, %v", code, err)
	}
	if err := <-d.ended; err != nil {
		t.Error(err)
	}
}

// TestMostConnections: a client beyond the limit gets PostgreSQL's own error, and its place is free again when another one
// has gone. Requests to cancel aren't counted.
func TestMostConnections(t *testing.T) {
	needServer(t)
	d := startDrained(t, func(o *Options) { o.Most = 2 })
	var those []*raw
	for i := 0; i < 2; i++ {
		c, err := connectRaw(d.port)
		if err != nil {
			t.Fatal(err)
		}
		defer c.Close()
		those = append(those, c)
	}
	var refused *pgconn.PgError
	if _, err := ask(url("postgres", d.port, "sslmode=disable"), "SELECT 1"); !errors.As(err, &refused) || refused.Code != "53300" ||
		refused.Severity != "FATAL" {
		t.Errorf("the third one: %v", err)
	}
	if c, err := net.Dial("tcp", fmt.Sprintf("127.0.0.1:%d", d.port)); err != nil {
		t.Error(err)
	} else {
		c.SetDeadline(time.Now().Add(time.Minute))
		c.Write((&pgproto3.CancelRequest{ProcessID: 1, SecretKey: 1}).Encode(nil))
		if all, err := io.ReadAll(c); err != nil || len(all) > 0 {
			t.Errorf("a cancel request got %q, %v", all, err)
		}
		c.Close()
	}
	those[0].Close()
	until(t, "a place is free", func() bool {
		_, err := ask(url("postgres", d.port, "sslmode=disable"), "SELECT 1")
		return err == nil
	})
	those[1].answered(t, "SELECT 1")
}
