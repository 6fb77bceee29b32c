package session

import (
	"context"
	"testing"
	"time"

	"github.com/jackc/pgproto3/v2"

	"zanteyard/definitions"
	"zanteyard/meeting"
)

// TestChanges: something that a plan needs is changed by others between its trial and its use, and the proxy isn't
// told. Outside a block the client notices nothing.
func TestChanges(t *testing.T) {
	needServer(t)
	for _, x := range []struct {
		name, change, back string
		steps              []step
	}{
		{"a right is revoked", "REVOKE SELECT ON r FROM limited; GRANT SELECT (v) ON r TO limited",
			"GRANT SELECT, UPDATE ON r TO limited",
			[]step{query("SELECT v FROM r WHERE true"), extended("SELECT v FROM r WHERE $1", nil, "t"), bound("n", []int16{1},
				"t"),
				messages('Z', &pgproto3.Parse{Query: "SELECT v FROM r WHERE $1"}, &pgproto3.Describe{ObjectType: 'S'},
					&pgproto3.Bind{Parameters: [][]byte{[]byte("t")}}, &pgproto3.Execute{}, &pgproto3.Sync{})}},
		{"the key is dropped", "ALTER TABLE r DROP COLUMN id",
			"ALTER TABLE r ADD COLUMN id int; UPDATE r SET id = v; ALTER TABLE r ADD PRIMARY KEY (id)",
			[]step{query("SELECT v FROM r WHERE true"), extended("SELECT v FROM r WHERE $1", nil, "t"), bound("n", nil, "t"),
				query("SELECT id, v FROM r WHERE true")}},
		{"the table becomes a view",
			"ALTER TABLE r RENAME TO r_; CREATE VIEW r AS SELECT id, v FROM r_; GRANT SELECT, UPDATE ON r TO limited",
			"DROP VIEW r; ALTER TABLE r_ RENAME TO r",
			[]step{query("SELECT v FROM r WHERE true"), extended("SELECT v FROM r WHERE $1", nil, "t"), bound("n", nil, "t"),
				query("UPDATE r SET v = 1 WHERE id = 1")}},
	} {
		x := x
		t.Run(x.name, func(t *testing.T) {
			prepare := named("n", "SELECT v FROM r WHERE $1")
			for i, s := range x.steps {
				sql(t, "DROP TABLE IF EXISTS r; CREATE TABLE r (id int PRIMARY KEY, v int); INSERT INTO r VALUES (1, 1); "+
					"GRANT SELECT, UPDATE ON r TO limited")
				d, err := definitions.Open(context.Background(), config(), time.Hour, func(string) {})
				if err != nil {
					t.Fatal(err)
				}
				one := direct(t, "limited")
				one.do(prepare)
				p := through(t, "limited", func(o *Options) { o.Plans, o.Generation = d, d.Generation })
				p.do(prepare)
				p.settle()
				for again := 0; again < 2; again++ {
					p.do(s)
					p.settle()
				}
				seen := len(p.sink.take())
				sql(t, x.change)
				wanted, got := one.do(s), p.do(s)
				mask(wanted)
				mask(got)
				if !same(got, wanted) {
					t.Errorf("step %d\ngot\n%swanted\n%s", i, show(got), show(wanted))
				}
				if again := p.do(s); len(again) != len(got) {
					t.Errorf("step %d, once more\n%s", i, show(again))
				}
				sql(t, x.back)
				if seen == 0 {
					t.Errorf("step %d: nothing was rewritten", i)
				}
			}
		})
	}
}

// TestChangesBeforeSync: an error that could be undone, but is followed by a Query, and the client's Sync hasn't been
// sent yet. The client must not wait for what only its Sync brings.
func TestChangesBeforeSync(t *testing.T) {
	needServer(t)
	sql(t, "DROP TABLE IF EXISTS r; CREATE TABLE r (id int PRIMARY KEY, v int); INSERT INTO r VALUES (1, 1)")
	d, err := definitions.Open(context.Background(), config(), time.Hour, func(string) {})
	if err != nil {
		t.Fatal(err)
	}
	p := through(t, "postgres", func(o *Options) { o.Plans, o.Generation = d, d.Generation })
	p.warm("SELECT v FROM r WHERE true")
	sql(t, "ALTER TABLE r DROP COLUMN id")
	p.conn.SetDeadline(time.Now().Add(5 * time.Minute))
	p.do(messages('E', &pgproto3.Parse{Query: "SELECT v FROM r WHERE true"}, &pgproto3.Query{String: "SELECT 1"}))
	if p.session.State() == meeting.Quiet {
		t.Error("the server waits for a Sync, and the session takes it for idle")
	}
	p.do(messages('Z', &pgproto3.Sync{}))
	if got := p.query("SELECT 2"); len(got) != 4 {
		t.Errorf("got %s", show(got))
	}
}

// TestTrialDoesNotWait: a trial that would wait for a lock gives up, and the client's next statement isn't delayed.
func TestTrialDoesNotWait(t *testing.T) {
	needServer(t)
	sql(t, fill)
	locker := direct(t, "postgres")
	p := through(t, "postgres", nil)
	p.query("SELECT 1")
	p.query("SELECT v FROM t WHERE id = 1") // is to be tried, once a statement has ended
	p.settle()
	p.session.state.Lock()
	p.session.trust.forget()
	p.session.state.Unlock()
	locker.query("BEGIN")
	locker.query("LOCK TABLE t IN ACCESS EXCLUSIVE MODE")
	p.do(messages('Z', &pgproto3.Parse{Name: "w", Query: "SELECT 1"}, &pgproto3.Sync{}))
	p.session.state.Lock()
	st := p.session.look("", []byte("SELECT v FROM t WHERE id = 1"))
	p.session.usable(st)
	p.session.state.Unlock()
	if got := p.query("SELECT 2"); len(got) != 4 {
		t.Errorf("got %s", show(got))
	}
	if got := p.query("SELECT 3"); len(got) != 4 { // answered after the trial
		t.Errorf("got %s", show(got))
	}
	locker.query("ROLLBACK")
	p.query("SELECT v FROM t WHERE id = 1")
	p.settle()
	p.query("SELECT v FROM t WHERE id = 1")
	if got := p.sink.take(); len(got) == 0 {
		t.Error("the plan wasn't tried again")
	}
}

// TestCancelOfTheQuestion: the client's cancel request hits the proxy's question before its COMMIT. The client gets an
// error, not an answer that drivers take for success.
func TestCancelOfTheQuestion(t *testing.T) {
	needServer(t)
	sql(t, "DROP ROLE IF EXISTS unasking; CREATE ROLE unasking LOGIN; GRANT ALL ON t TO unasking")
	defer sql(t, "DROP OWNED BY unasking; DROP ROLE unasking")
	for _, commit := range []step{query("COMMIT"), extended("COMMIT", nil)} {
		sql(t, fill)
		p := through(t, "unasking", nil)
		p.warm("BEGIN", "UPDATE t SET v = v + 1 WHERE id > 3", "COMMIT")
		// The question is made to fail by a right that it needs.
		sql(t, "REVOKE EXECUTE ON FUNCTION pg_current_snapshot() FROM PUBLIC")
		p.query("BEGIN")
		p.query("UPDATE t SET v = v + 1 WHERE id > 3")
		got := p.do(commit)
		sql(t, "GRANT EXECUTE ON FUNCTION pg_current_snapshot() TO PUBLIC")
		if len(got) != 2 || got[0][0] != 'E' || string(got[1]) != "Z\x00\x00\x00\x05I" {
			t.Errorf("got %s", show(got))
		}
		if got := p.query("SELECT 1"); len(got) != 4 {
			t.Errorf("got %s", show(got))
		}
	}
}

// TestNoRewriting: texts in encodings that the lexer can't read, or with other rules for literals, are left unchanged.
func TestNoRewriting(t *testing.T) {
	needServer(t)
	for _, setting := range []string{"SET client_encoding TO 'SJIS'", "SET standard_conforming_strings TO off"} {
		sql(t, fill)
		p := through(t, "postgres", nil)
		p.query(setting)
		for i := 0; i < 3; i++ {
			p.query("SELECT v FROM t WHERE id = 1")
			p.settle()
		}
		for _, tx := range p.sink.take() {
			if len(tx.Reads) != 0 {
				t.Errorf("%s: told %+v", setting, tx)
			}
		}
	}
}

// TestSearchPath: names are resolved by the connection's search path.
func TestSearchPath(t *testing.T) {
	needServer(t)
	sql(t, fill)
	sql(t, "DROP SCHEMA IF EXISTS tenant CASCADE; CREATE SCHEMA tenant; "+
		"CREATE TABLE tenant.t (key text PRIMARY KEY, v int); INSERT INTO tenant.t VALUES ('x', 5)")
	d, err := definitions.Open(context.Background(), config(), time.Hour, func(string) {})
	if err != nil {
		t.Fatal(err)
	}
	p := through(t, "postgres", func(o *Options) { o.Plans, o.Generation = d, d.Generation })
	prepare := named("n", "SELECT v FROM t WHERE v > 0")
	p.do(prepare)
	for _, x := range []struct {
		path string
		keys int
		key  string
	}{{"public", 20, "1"}, {"tenant", 1, "x"}, {"tenant, public", 1, "x"}, {"public, tenant", 20, "1"}} {
		p.query("SET search_path TO " + x.path)
		for _, s := range []step{query("SELECT v FROM t WHERE v > 0"), bound("n", nil)} {
			until(t, "the statement is seen", func() bool {
				p.settle()
				p.do(s)
				for _, tx := range p.sink.take() {
					for _, read := range tx.Reads { // in any order: that of the rows in the table's pages
						if len(tx.Reads) == x.keys && string(read.Key) == x.key {
							return true
						}
					}
				}
				return false
			})
		}
	}
}
