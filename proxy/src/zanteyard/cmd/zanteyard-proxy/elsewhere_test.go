package main

import (
	"context"
	"encoding/json"
	"fmt"
	"io"
	"net"
	"strings"
	"sync/atomic"
	"testing"
	"time"

	"github.com/jackc/pgconn"

	"zanteyard/cluster"
	"zanteyard/session"
)

// balancer is a name that leads to one server or another: each connection to the one that is set when it begins.
type balancer struct {
	port int
	to   atomic.Int64
}

func newBalancer(t *testing.T, to int) *balancer {
	t.Helper()
	listener, err := net.Listen("tcp", "127.0.0.1:0")
	if err != nil {
		t.Fatal(err)
	}
	t.Cleanup(func() { listener.Close() })
	b := &balancer{port: listener.Addr().(*net.TCPAddr).Port}
	b.to.Store(int64(to))
	go func() {
		for {
			from, err := listener.Accept()
			if err != nil {
				return
			}
			to, err := net.Dial("tcp", fmt.Sprintf("127.0.0.1:%d", b.to.Load()))
			if err != nil {
				from.Close()
				continue
			}
			for _, way := range [][2]net.Conn{{from, to}, {to, from}} {
				way := way
				go func() {
					io.Copy(way[0], way[1])
					way[0].Close()
				}()
			}
		}
	}()
	return b
}

// otherServer is the reason by which package join counts transactions.
const otherServer = "on a connection to another server than the audited one, or to a standby"

// seen runs transactions on a connection until enough of their reads are seen by the audit.
func (p *program) seen(conn *pgconn.PgConn, enough uint64) coverage {
	p.t.Helper()
	return p.runs(conn, func(it coverage) bool { return it.Reads.Seen >= enough })
}

func (p *program) runs(conn *pgconn.PgConn, enough func(coverage) bool) coverage {
	p.t.Helper()
	for end := time.Now().Add(5 * time.Minute); time.Now().Before(end); {
		for i := 0; i < 3; i++ {
			for _, text := range []string{"BEGIN", "SELECT balance FROM account WHERE id = 1",
				"UPDATE account SET balance = balance + 1 WHERE id = 1", "COMMIT"} {
				if _, err := conn.Exec(context.Background(), text).ReadAll(); err != nil {
					p.t.Fatalf("%s: %v", text, err)
				}
			}
		}
		it := p.counts()
		p.t.Logf("offered %d, seen %d, folded %v", it.Offered, it.Reads.Seen, it.Folded)
		if enough(it) {
			return it
		}
	}
	p.t.Fatal("waited in vain")
	return coverage{}
}

// TestTwoServers: one name leads to two servers. What a client does at the one whose log isn't read is passed on
// unchecked, and counted. After a failover the audit is of the other one, and so are the connections.
func TestTwoServers(t *testing.T) {
	one, other := start(t), start(t)
	b := newBalancer(t, one.Port)
	front := *one
	front.Port = b.port
	p := begin(t, &front)
	p.until(`["open"`)
	here := p.connect()
	p.seen(here, 3)

	b.to.Store(int64(other.Port))
	there := p.connect()
	if got := sql(t, there, "SELECT inet_server_port()"); got != fmt.Sprint(other.Port) {
		t.Fatalf("the connection leads to %s", got)
	}
	at := p.runs(there, func(it coverage) bool { return it.Folded[otherServer] >= 5 })
	unseen := false
	for _, one := range at.Unseen {
		unseen = unseen || one.Reason == session.Elsewhere
	}
	if !unseen {
		t.Errorf("its statements aren't counted: %+v", at.Unseen)
	}
	if after := p.runs(there, func(it coverage) bool { return it.Folded[otherServer] >= at.Folded[otherServer]+5 }); after.Reads.Seen != at.Reads.Seen ||
		after.Offered-after.Fences != at.Offered-at.Fences {
		t.Errorf("%d transactions with %d reads, then %d with %d", at.Offered-at.Fences, at.Reads.Seen, after.Offered-after.Fences, after.Reads.Seen)
	}
	p.seen(here, at.Reads.Seen+3)

	// The old server loses the audit's connections, but not the client's: nobody has stopped it.
	ends := connectTo(t, one)
	sql(t, ends, "SELECT pg_terminate_backend(pid) FROM pg_stat_activity WHERE application_name = 'zanteyard'")
	p.until("ended")
	p.restarts()
	p.seen(there, 3)
	at = p.runs(here, func(it coverage) bool { return it.Folded[otherServer] >= 3 })
	if after := p.runs(here, func(it coverage) bool { return it.Folded[otherServer] >= at.Folded[otherServer]+3 }); after.Reads.Seen != at.Reads.Seen {
		t.Errorf("%d reads were seen, then %d", at.Reads.Seen, after.Reads.Seen)
	}
	p.seen(there, at.Reads.Seen+3)
}

// TestStandby: one name leads to the audited server or to its standby, which shows what was committed long ago. Nothing
// that a client reads there is taken for a read of the audited server, and it is counted.
func TestStandby(t *testing.T) {
	one := start(t)
	other, err := one.Standby()
	if err != nil {
		t.Fatal(err)
	}
	t.Cleanup(other.Stop)
	b := newBalancer(t, one.Port)
	front := *one
	front.Port = b.port
	p := begin(t, &front)
	p.until(`["open"`)
	w := &watched{program: p}
	here := p.connect()
	warm(t, here, "SELECT balance FROM account WHERE id = 1", "UPDATE account SET balance = balance WHERE id = 2")
	behind := directly(t, other)
	sql(t, behind, "SELECT pg_wal_replay_pause()")
	state := "SELECT 'paused'" // before PostgreSQL 14 nobody can ask
	if sql(t, behind, "SELECT current_setting('server_version_num')::int >= 140000") == "t" {
		state = "SELECT pg_get_wal_replay_pause_state()"
	}
	for end := time.Now().Add(5 * time.Minute); sql(t, behind, "SELECT pg_is_wal_replay_paused()") != "t" || sql(t, behind, state) != "paused"; {
		if time.Now().After(end) {
			t.Fatal("the standby doesn't pause")
		}
		time.Sleep(10 * time.Millisecond)
	}
	sql(t, here, "UPDATE account SET balance = -7 WHERE id = 1")

	b.to.Store(int64(other.Port))
	there := p.connect()
	if got := sql(t, there, "SELECT pg_is_in_recovery()"); got != "t" {
		t.Fatal("the connection isn't to the standby")
	}
	if got := sql(t, there, "SELECT balance FROM account WHERE id = 1"); got == "-7" {
		t.Fatal("the standby isn't behind")
	}
	read := func(i int) {
		for _, text := range []string{fmt.Sprintf("BEGIN ISOLATION LEVEL REPEATABLE READ /*tag='there %d'*/", i),
			"SELECT balance FROM account WHERE id = 1", "SELECT balance FROM account WHERE id = 2", "COMMIT"} {
			sql(t, there, text)
		}
	}
	for i := 0; i < 8; i++ {
		read(i)
		w.tagged(here) // the connection is idle meanwhile, and the statements could be tried
	}
	for tag := range w.tagged(here) {
		if strings.HasPrefix(tag, "there") {
			t.Errorf("it is offered: %s", tag)
		}
	}
	it := p.counts()
	for end := time.Now().Add(5 * time.Minute); it.Folded[otherServer] < 3; it = p.counts() {
		if time.Now().After(end) {
			t.Fatalf("it isn't counted: %+v", it)
		}
		read(0)
	}
}

// restarts makes another audit begin. The command may come before the old one has gone, and be lost with it.
func (p *program) restarts() {
	p.t.Helper()
	again := time.NewTicker(200 * time.Millisecond)
	defer again.Stop()
	for end := time.After(5 * time.Minute); ; {
		select {
		case line := <-p.lines:
			var it struct{ Event string }
			if json.Unmarshal([]byte(line), &it) == nil && it.Event == "started" {
				return
			}
		case <-again.C:
			fmt.Fprintln(p.say, `{"command":"restart"}`)
		case <-end:
			p.t.Fatal("no other audit begins")
		}
	}
}

func connectTo(t *testing.T, c *cluster.Cluster) *pgconn.PgConn {
	t.Helper()
	conn, err := c.Connect(context.Background())
	if err != nil {
		t.Fatal(err)
	}
	t.Cleanup(func() { conn.Close(context.Background()) })
	return conn
}
