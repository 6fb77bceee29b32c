package session

import (
	"fmt"
	"testing"
	"time"

	"github.com/jackc/pgproto3/v2"

	"zanteyard/plan"
)

// TestShared: what was tried on one connection is used for another's first statement, if its user, its search path and
// its temporary objects are the same.
func TestShared(t *testing.T) {
	needServer(t)
	sql(t, fill)
	sql(t, "GRANT SELECT ON t TO limited; DROP SCHEMA IF EXISTS elsewhere CASCADE; CREATE SCHEMA elsewhere; "+
		"CREATE TABLE elsewhere.t (id int PRIMARY KEY, v int)")
	defer sql(t, "DROP SCHEMA elsewhere CASCADE; REVOKE SELECT ON t FROM limited")
	shared := NewShared()
	connect := func(user string) *proxied { return through(t, user, func(o *Options) { o.Shared = shared }) }
	select1 := "SELECT v FROM t WHERE id = 1"
	connect("postgres").warm(select1)
	for _, x := range []struct {
		name, user string
		before     []string
		step       step
		seen       bool
	}{
		{"a query", "postgres", nil, query(select1), true},
		{"an unnamed statement", "postgres", nil, extended(select1, nil), true},
		{"a named one", "postgres", nil, messages('Z', &pgproto3.Parse{Name: "s", Query: select1},
			&pgproto3.Bind{PreparedStatement: "s"}, &pgproto3.Execute{}, &pgproto3.Sync{}), true},
		{"in a block", "postgres", []string{"BEGIN"}, query(select1), true},
		{"another user", "limited", nil, query(select1), false},
		{"another search path", "postgres", []string{"SET search_path TO elsewhere"}, query(select1), false},
		{"a temporary table", "postgres", []string{"CREATE TEMPORARY TABLE t (id int, v int)"}, query(select1), false},
		{"a temporary object that is no table", "postgres", []string{"CREATE TYPE pg_temp.t AS ENUM ('a')"}, query(select1), false},
	} {
		p, one := connect(x.user), direct(t, x.user)
		p.session.state.Lock()
		p.session.slow = time.Now().Add(time.Hour) // nothing is tried for its first statement
		p.session.state.Unlock()
		for _, text := range x.before {
			p.query(text)
			one.query(text)
		}
		got, wanted := p.do(x.step), one.do(x.step)
		mask(got)
		mask(wanted)
		if !same(got, wanted) {
			t.Errorf("%s: got\n%swanted\n%s", x.name, show(got), show(wanted))
		}
		if x.before != nil {
			p.query("COMMIT")
		}
		n := 0
		for _, it := range p.sink.take() {
			n += len(it.Reads)
		}
		if n > 0 != x.seen {
			t.Errorf("%s: %d reads were seen: %v", x.name, n, p.sink.unseen)
		}
	}
}

// TestSharedBetweenParseAndBind: a plan that becomes usable after an unnamed statement was prepared unchanged isn't
// used for that statement.
func TestSharedBetweenParseAndBind(t *testing.T) {
	needServer(t)
	sql(t, fill)
	shared := NewShared()
	connect := func() *proxied { return through(t, "postgres", func(o *Options) { o.Shared = shared }) }
	const text = "SELECT v, id FROM t WHERE id = 1"
	p, one := connect(), direct(t, "postgres")
	p.warm("SELECT id FROM t WHERE id = 2")
	for _, x := range []step{
		messages('Z', &pgproto3.Parse{Query: text}, &pgproto3.Describe{ObjectType: 'S'}, &pgproto3.Sync{}),
		messages('Z', &pgproto3.Bind{ResultFormatCodes: []int16{1, 0}}, &pgproto3.Execute{}, &pgproto3.Sync{}),
		messages('Z', &pgproto3.Bind{}, &pgproto3.Execute{}, &pgproto3.Sync{}),
	} {
		got, wanted := p.do(x), one.do(x)
		mask(got)
		mask(wanted)
		if !same(got, wanted) {
			t.Errorf("got\n%swanted\n%s", show(got), show(wanted))
		}
		connect().warm(text)
	}
}

// TestSharedIsDropped: a plan that failed on one connection isn't taken from there any more.
func TestSharedIsDropped(t *testing.T) {
	needServer(t)
	sql(t, fill)
	shared := NewShared()
	connect := func() *proxied { return through(t, "limited", func(o *Options) { o.Shared = shared }) }
	sql(t, "GRANT SELECT ON t TO limited")
	connect().warm("SELECT v FROM t WHERE id = 1")
	sql(t, "REVOKE SELECT ON t FROM limited; GRANT SELECT (v, id) ON t TO limited") // xmin can't be read any more
	defer sql(t, "REVOKE SELECT (v, id) ON t FROM limited")
	for i := 0; i < 3; i++ {
		if got := connect().query("SELECT v FROM t WHERE id = 1"); got[0][0] != 'T' || got[1][0] != 'D' {
			t.Errorf("got %s", show(got))
		}
	}
	if len(shared.young)+len(shared.old) > 0 {
		t.Errorf("a plan that has failed is still shared: %v, %v", shared.young, shared.old)
	}
}

// TestSharedKeepsWhatIsInUse: what connections use again and again stays, however many other statements are tried, and on
// connections of however many signatures. What hasn't been used for long is forgotten.
func TestSharedKeepsWhatIsInUse(t *testing.T) {
	shared, mine := NewShared(), []byte(`["mine", ""]`)
	try := func(signature []byte, own int) *plan.Plan {
		its := &plan.Plan{}
		shared.add(signature, 1, &use{plan: its, own: own})
		return its
	}
	unused := try(mine, 1)
	var used []*plan.Plan
	for i := 0; i < 5000; i++ { // an application may have as many statements
		used = append(used, try(mine, i))
	}
	for i := 0; i < 80000; i++ {
		if i%8 == 0 {
			try([]byte(fmt.Sprintf(`["%d", ""]`, i%300)), 1)
		} else if i%8 == 4 {
			try(mine, 1)
		}
		if own, is := shared.has(mine, 1, used[i%len(used)]); !is || own != i%len(used) {
			t.Fatalf("after %d others statement %d has %d columns, %v", i/4, i%len(used), own, is)
		}
	}
	if _, is := shared.has(mine, 1, unused); is {
		t.Error("what nobody uses isn't forgotten")
	}
	if _, is := shared.has([]byte(`["others", ""]`), 1, used[0]); is {
		t.Error("it was tried on connections of another signature")
	}
	if _, is := shared.has(mine, 2, used[0]); is || !shared.knows(1) || shared.knows(2) {
		t.Error("it was tried by other definitions")
	}
	shared.add(mine, 2, &use{plan: used[0], own: 7})
	shared.add(mine, 1, &use{plan: used[1], own: 8}) // of a connection that hasn't heard of the newer ones
	if own, is := shared.has(mine, 2, used[0]); !is || own != 7 || len(shared.young)+len(shared.old) != 1 {
		t.Errorf("by newer definitions it has %d columns, %v; %d and %d plans are known", own, is, len(shared.young), len(shared.old))
	}
}

// TestEarly: a client that sends something before the server is ready isn't asked about its signature first.
func TestEarly(t *testing.T) {
	needServer(t)
	sql(t, fill)
	shared := NewShared()
	connect := func(early []byte) *proxied {
		return through(t, "postgres", func(o *Options) { o.Shared = shared; early_ = early })
	}
	connect(nil).warm("SELECT v FROM t WHERE id = 1")
	p := connect(query("SELECT 5").send)
	if got := p.until('Z'); len(got) != 4 || got[0][0] != 'T' || got[1][0] != 'D' {
		t.Errorf("got %s", show(got))
	}
	if got := p.query("SELECT v FROM t WHERE id = 1"); len(got) != 4 {
		t.Errorf("got %s", show(got))
	}
}
