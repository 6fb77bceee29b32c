package main

import (
	"context"
	"encoding/json"
	"flag"
	"fmt"
	"io"
	"net"
	"sync"
	"testing"
	"time"

	"github.com/jackc/pgconn"
	"github.com/jackc/pgproto3/v2"

	"zanteyard/cluster"
)

var short = flag.Int("connections", 100, "connections of one transaction each")

// raw is a client that speaks the protocol itself.
type raw struct {
	net.Conn
	*pgproto3.Frontend
}

func dialRaw(port int) (raw, error) {
	conn, err := net.Dial("tcp", fmt.Sprintf("127.0.0.1:%d", port))
	if err != nil {
		return raw{}, err
	}
	conn.SetDeadline(time.Now().Add(5 * time.Minute))
	r := raw{conn, pgproto3.NewFrontend(pgproto3.NewChunkReader(conn), conn)}
	return r, r.say(1, &pgproto3.StartupMessage{ProtocolVersion: pgproto3.ProtocolVersionNumber,
		Parameters: map[string]string{"user": "postgres", "database": "postgres"}})
}

// say sends messages in one piece, and waits until the server was ready this many times.
func (r raw) say(ready int, messages ...pgproto3.FrontendMessage) error {
	var b []byte
	for _, m := range messages {
		b = m.Encode(b)
	}
	if _, err := r.Write(b); err != nil {
		return err
	}
	for ready > 0 {
		m, err := r.Receive()
		if err != nil {
			return err
		}
		switch m := m.(type) {
		case *pgproto3.ReadyForQuery:
			ready--
		case *pgproto3.ErrorResponse:
			return fmt.Errorf("%s", m.Message)
		}
	}
	return nil
}

// life is one connection with a transaction, which ends in one of many ways.
func life(port, n int) error {
	r, err := dialRaw(port)
	if err != nil {
		return err
	}
	defer r.Close()
	q := func(text string) pgproto3.FrontendMessage { return &pgproto3.Query{String: text} }
	id := n % 10
	work := []pgproto3.FrontendMessage{q("BEGIN"), q(fmt.Sprintf("SELECT balance FROM account WHERE id = %d", id)),
		q(fmt.Sprintf("UPDATE account SET balance = balance + 1 WHERE id = %d", id)), q("COMMIT")}
	switch n % 5 {
	case 0: // properly
		for _, m := range work {
			if err := r.say(1, m); err != nil {
				return err
			}
		}
		return r.say(0, &pgproto3.Terminate{})
	case 1: // all at once, with the end
		if err := r.say(0, append(work, &pgproto3.Terminate{})...); err != nil {
			return err
		}
		_, err := io.Copy(io.Discard, r)
		return err
	case 2: // the socket is closed
		return r.say(4, work...)
	case 3: // in the middle of the next transaction
		if err := r.say(5, append(work, q("BEGIN"))...); err != nil {
			return err
		}
		return r.say(0, &pgproto3.Terminate{})
	}
	if err := r.say(4, work...); err != nil { // it is killed
		return err
	}
	if err := r.say(1, q("SELECT pg_terminate_backend(pg_backend_pid())")); err == nil {
		return fmt.Errorf("it wasn't killed")
	}
	return nil
}

// TestShortConnections: connections of one transaction each, which end in all ways, are handed the auditor's sessions,
// and some of their first statements are seen. What isn't offered is counted. How much that is depends on how fast the
// machine is: what runs across a meeting isn't offered, and a connection's first message isn't held for long. So more of
// them come, one at a time, until something is seen.
func TestShortConnections(t *testing.T) {
	c := start(t)
	p := begin(t, c)
	p.until(`["open"`)
	first := p.connect()
	sql(t, first, "INSERT INTO account SELECT i, 0 FROM generate_series(0, 9) i ON CONFLICT (id) DO UPDATE SET balance = 0")
	for i := 0; i < 3; i++ {
		for _, text := range []string{"BEGIN", "SELECT balance FROM account WHERE id = 1",
			"UPDATE account SET balance = balance + 0 WHERE id = 1", "COMMIT"} {
			sql(t, first, text)
		}
	}
	work := make(chan int, *short)
	for n := 0; n < *short; n++ {
		work <- n
	}
	close(work)
	var all sync.WaitGroup
	began := time.Now()
	for i := 0; i < 4; i++ {
		all.Add(1)
		go func() {
			defer all.Done()
			for n := range work {
				if err := life(p.port, n); err != nil {
					t.Errorf("connection %d: %v", n, err)
				}
			}
		}()
	}
	all.Wait()
	took, done := time.Since(began), *short
	for end := time.Now().Add(5 * time.Minute); time.Now().Before(end); done++ {
		if it := p.counts(); it.Offered > it.Fences && it.Reads.Seen > 0 {
			break
		}
		if err := life(p.port, done); err != nil {
			t.Errorf("connection %d: %v", done, err)
		}
	}
	if got := sql(t, first, "SELECT sum(balance) FROM account"); got != fmt.Sprint(done) {
		t.Errorf("the connections have counted up to %s", got)
	}
	fmt.Fprintln(p.say, `{"command":"stop"}`)
	at := p.stopped()
	left := uint64(0)
	for _, n := range at.Folded {
		left += n
	}
	t.Logf("%d connections in %v: offered %d, fences %d, folded %v, reads %+v, unseen %v", *short, took, at.Offered, at.Fences,
		at.Folded, at.Reads, at.Unseen)
	if offered := at.Offered - at.Fences; offered+left < uint64(done) || offered == 0 {
		t.Errorf("%d transactions were offered, and %d folded", offered, left)
	}
	if at.Reads.Seen == 0 {
		t.Error("no row read was seen")
	}
}

// counts returns the next coverage, which comes within a second.
func (p *program) counts() (it coverage) {
	p.t.Helper()
	if err := json.Unmarshal([]byte(p.until("coverage")), &it); err != nil {
		p.t.Fatal(err)
	}
	return it
}

// stopped returns the last coverage before the audit stopped.
func (p *program) stopped() (last coverage) {
	p.t.Helper()
	for end := time.After(5 * time.Minute); ; {
		var it coverage
		select {
		case line := <-p.lines:
			if json.Unmarshal([]byte(line), &it) != nil {
				continue // a line for the auditor
			}
		case <-end:
			p.t.Fatal("the audit doesn't stop")
		}
		switch it.Event {
		case "coverage":
			last = it
		case "stopped":
			return last
		}
	}
}

type coverage struct {
	Event                               string
	Committed, Offered, Fences, Pending uint64
	Folded                              map[string]uint64
	Reads                               struct{ Seen, Offered uint64 }
	Unseen                              []struct {
		Reason string
		Count  uint64
	}
}

// BenchmarkShortConnections: a connection, one update, and its end.
func BenchmarkShortConnections(b *testing.B) {
	c, err := cluster.Start(nil, nil)
	if err != nil {
		b.Skip(err)
	}
	defer c.Stop()
	url := func(port int) string {
		return fmt.Sprintf("host=127.0.0.1 port=%d user=postgres dbname=postgres sslmode=disable", port)
	}
	one := func(port int) error {
		conn, err := pgconn.Connect(context.Background(), url(port))
		if err != nil {
			return err
		}
		_, err = conn.Exec(context.Background(), "UPDATE account SET balance = balance + 1 WHERE id = 1").ReadAll()
		conn.Close(context.Background())
		return err
	}
	conn, err := pgconn.Connect(context.Background(), url(c.Port))
	if err != nil {
		b.Fatal(err)
	}
	if _, err := conn.Exec(context.Background(), schema).ReadAll(); err != nil {
		b.Fatal(err)
	}
	conn.Close(context.Background())
	ports := map[string]int{"direct": c.Port, "passing": 0, "auditing": 0}
	for name, more := range map[string][]string{"passing": {"--pass"}, "auditing": nil} {
		listener, err := net.Listen("tcp", "127.0.0.1:0")
		if err != nil {
			b.Fatal(err)
		}
		ports[name] = listener.Addr().(*net.TCPAddr).Port
		listener.Close()
		f, err := parse(append([]string{"--trust-clients", "--listen", fmt.Sprintf("127.0.0.1:%d", ports[name]), "--server", url(c.Port)}, more...),
			io.Discard)
		if err != nil {
			b.Fatal(err)
		}
		ctx, cancel := context.WithCancel(context.Background())
		in, to := io.Pipe()
		ended := make(chan error)
		go func() { ended <- serve(ctx, f, outside{in: in, out: io.Discard}) }()
		defer func() {
			cancel()
			to.Close()
			<-ended
		}()
	}
	time.Sleep(3 * time.Second) // the audit has begun
	for _, name := range []string{"direct", "passing", "auditing"} {
		for i := 0; i < 5; i++ {
			if err := one(ports[name]); err != nil {
				b.Fatal(err)
			}
		}
	}
	for turn := 0; turn < 3; turn++ {
		for _, name := range []string{"direct", "passing", "auditing"} {
			b.Run(name, func(b *testing.B) {
				for i := 0; i < b.N; i++ {
					if err := one(ports[name]); err != nil {
						b.Fatal(err)
					}
				}
			})
		}
	}
}
