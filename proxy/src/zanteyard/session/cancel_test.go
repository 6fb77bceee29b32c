package session

import (
	"context"
	"encoding/binary"
	"fmt"
	"io"
	"net"
	"testing"
	"time"

	"github.com/jackc/pgproto3/v2"

	"zanteyard/own"
	"zanteyard/wire"
)

// passCancel sends the server a request to cancel what the connection runs, and waits until the server has handled it.
func (p *proxied) passCancel() {
	p.session.state.Lock()
	key := p.session.key
	p.session.state.Unlock()
	if !p.session.IsFor(key) || p.session.IsFor(nil) || p.session.IsFor(key[:4]) {
		p.t.Error("a connection doesn't know its key")
	}
	conn, err := net.Dial("tcp", fmt.Sprintf("127.0.0.1:%d", theCluster.Port))
	if err != nil {
		p.t.Error(err)
		return
	}
	defer conn.Close()
	head := binary.BigEndian.AppendUint32(binary.BigEndian.AppendUint32(nil, uint32(8+len(key))), 80877102)
	if _, err := conn.Write(append(head, key...)); err != nil {
		p.t.Error(err)
	}
	io.Copy(io.Discard, conn)
}

// slowsTrials makes each trial take half a second.
func (p *proxied) slowsTrials() {
	p.session.state.Lock()
	defer p.session.state.Unlock()
	p.session.impatient = once(impatientName, own.Guest("SELECT pg_catalog.pg_sleep(0.5)"))
}

// TestCancelledInEachPhase: a request to cancel ends the client's statement, whatever of the proxy's own is under way when
// it arrives, and whether the statement is at the server or waits in the proxy.
func TestCancelledInEachPhase(t *testing.T) {
	needServer(t)
	sql(t, fill)
	trying := func(p *proxied) bool {
		p.session.state.Lock()
		defer p.session.state.Unlock()
		return p.session.trial != nil
	}
	for n, x := range []struct {
		name   string
		bound  time.Duration
		before func(p *proxied, text string)
		when   func(p *proxied, text string) bool
		then   func(p *proxied)
	}{
		{"it waits for its trial", time.Minute, nil, func(p *proxied, _ string) bool { return trying(p) }, nil},
		{"its trial is late", 10 * time.Millisecond, nil, func(p *proxied, _ string) bool { return trying(p) && !p.session.keeps.Load() }, nil},
		{"its trial in a block", time.Minute, func(p *proxied, _ string) {
			p.query("BEGIN")
			p.query("SELECT 1")
			p.query("SET LOCAL search_path = public, pg_catalog")
		}, func(p *proxied, _ string) bool { return trying(p) }, nil},
		{"it waits for a meeting", time.Minute, func(p *proxied, text string) {
			p.settle()
			p.session.Hold(nil)
		}, func(p *proxied, _ string) bool { return p.session.keeps.Load() }, func(p *proxied) { p.session.Release() }},
		{"it runs", time.Minute, nil, func(p *proxied, text string) bool {
			return len(sql(t, "SELECT FROM pg_stat_activity WHERE state = 'active' AND query LIKE '%"+text[:35]+"%' AND pid <> pg_backend_pid()")) == 1
		}, nil},
	} {
		t.Log(x.name)
		p := through(t, "postgres", func(o *Options) { o.Bound, o.Shared = x.bound, nil })
		p.slowsTrials()
		p.query("SELECT 1")
		p.settle()
		text := fmt.Sprintf("SELECT v, pg_sleep(15), %d AS in_phase FROM t WHERE id = 1", 1000+n)
		if x.before != nil {
			x.before(p, text)
		}
		p.send(query(text).send)
		until(t, x.name, func() bool { return x.when(p, text) })
		cancelled := make(chan bool)
		go func() {
			p.session.Cancel(context.Background(), p.passCancel)
			close(cancelled)
		}()
		if x.then != nil {
			x.then(p)
		}
		got := p.until('Z')
		if len(got) < 2 || got[len(got)-2][0] != 'E' || string(wire.Field(got[len(got)-2], 'C')) != "57014" {
			t.Errorf("%s: %s", x.name, show(got))
		}
		<-cancelled
		p.query("ROLLBACK")
		if got := p.query("SELECT v FROM t WHERE id = 2"); len(got) != 4 {
			t.Errorf("%s: then %s", x.name, show(got))
		}
	}
}

// TestCancelledAtRest: a request that arrives when nothing is under way but the proxy's own ends nothing.
func TestCancelledAtRest(t *testing.T) {
	needServer(t)
	sql(t, fill)
	p := through(t, "postgres", func(o *Options) { o.Bound, o.Shared = 0, nil })
	p.slowsTrials()
	p.query("SELECT v, 1 AS at_rest FROM t WHERE id = 1")
	until(t, "a trial is under way", func() bool {
		p.session.state.Lock()
		defer p.session.state.Unlock()
		return p.session.trial != nil && len(p.session.trial.uses) > 0
	})
	p.session.Cancel(context.Background(), p.passCancel)
	p.settle()
	if its := p.useOf("at_rest"); its.state != tried {
		t.Errorf("the trial has failed: state %d, %s", its.state, its.reason)
	}
	if got := p.query("SELECT v FROM t WHERE id = 2"); len(got) != 4 {
		t.Errorf("then %s", show(got))
	}
}

// TestCancelledBehindOwnMessages: a request to cancel ends the client's statement, too, if messages of the proxy's own are in
// the same series. The server says nothing of these until the series is over, or its buffer full.
func TestCancelledBehindOwnMessages(t *testing.T) {
	needServer(t)
	sql(t, fill)
	const text = "SELECT v, pg_sleep(%d) AS behind_own FROM t WHERE id = 1"
	sync := &pgproto3.Sync{}
	for name, x := range map[string]struct {
		before func(p *proxied)
		runs   []pgproto3.FrontendMessage
	}{
		"the twin of a named statement": {func(p *proxied) {
			p.do(messages('Z', &pgproto3.Parse{Name: "s", Query: fmt.Sprintf(text, 15)}, sync))
			p.settle()
		}, []pgproto3.FrontendMessage{&pgproto3.Bind{PreparedStatement: "s"}, &pgproto3.Execute{}, sync}},
		"the description of a cursor": {func(p *proxied) {
			declare := "DECLARE c CURSOR FOR " + fmt.Sprintf(text, 0) + " OR id = 2 AND pg_sleep(15) IS NOT NULL"
			p.warm("BEGIN", declare, "COMMIT")
			p.query("BEGIN")
			p.query(declare)
		}, []pgproto3.FrontendMessage{&pgproto3.Execute{Portal: "c"}, sync}},
	} {
		t.Run(name, func(t *testing.T) {
			p := through(t, "postgres", func(o *Options) { o.Bound, o.Shared = time.Minute, nil })
			x.before(p)
			p.session.state.Lock()
			backend := p.session.backend
			p.session.state.Unlock()
			p.send(messages('Z', x.runs...).send)
			until(t, "it runs", func() bool {
				return len(sql(t, fmt.Sprintf("SELECT FROM pg_stat_activity WHERE pid = %d AND wait_event = 'PgSleep'", backend))) == 1
			})
			if p.session.state.Lock(); p.session.queue.first().kind == clients {
				t.Error("no message of the proxy's own is the first one")
			}
			p.session.state.Unlock()
			began := time.Now()
			p.session.Cancel(context.Background(), p.passCancel)
			got := p.until('Z')
			if len(got) < 2 || got[len(got)-2][0] != 'E' || string(wire.Field(got[len(got)-2], 'C')) != "57014" {
				t.Errorf("after %v: %s", time.Since(began), show(got))
			}
			p.query("ROLLBACK")
			if got := p.query("SELECT v FROM t WHERE id = 2"); len(got) != 4 {
				t.Errorf("then %s", show(got))
			}
		})
	}
}
