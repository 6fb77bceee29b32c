package session

import (
	"context"
	"strings"
	"testing"
	"time"

	"zanteyard/definitions"
	"zanteyard/record"
)

// resets are what pools send before a connection gets another user, or after.
var resets = []struct{ name, text string }{
	{"DISCARD ALL", "DISCARD ALL"},
	{"RESET ALL", "RESET ALL"},
	{"asyncpg's", "SELECT pg_advisory_unlock_all();\nCLOSE ALL;\nUNLISTEN *;\nRESET ALL;"},
	{"Npgsql's with prepared statements", "CLOSE ALL;SET SESSION AUTHORIZATION DEFAULT;RESET ALL;UNLISTEN *;" +
		"SELECT pg_advisory_unlock_all();DISCARD SEQUENCES;DISCARD TEMP"},
	{"that of statements alone", "DEALLOCATE ALL"},
	{"none", ""},
}

// checkOut sends a reset and the beginning of a transaction in one write.
func (p *proxied) checkOut(reset string, next step) {
	p.t.Helper()
	all, times := query("BEGIN").send, 1
	if reset != "" {
		all, times = append(query(reset).send, all...), 2
	}
	p.do(step{append(all, next.send...), 'Z', times + 1})
	p.query("COMMIT")
}

// TestResets: a pool that resets its connection in front of each transaction, in one write with its first statement,
// leaves 95 of 100 transactions seen.
func TestResets(t *testing.T) {
	needServer(t)
	sql(t, fill)
	sql(t, "DROP ROLE IF EXISTS roled; CREATE ROLE roled LOGIN SUPERUSER; ALTER ROLE roled SET role = 'limited'; "+
		"ALTER ROLE roled SET default_transaction_isolation = 'repeatable read'")
	defer sql(t, "DROP ROLE roled")
	for _, x := range resets {
		for _, user := range []string{"postgres", "roled"} {
			x, user := x, user
			t.Run(x.name+" as "+user, func(t *testing.T) {
				p := through(t, user, func(o *Options) { o.Shared = nil })
				p.settle()
				seen, last := 0, record.UnknownLevel
				for i := 0; i < 100; i++ {
					next := query("SELECT v FROM u WHERE a = 1")
					switch i % 3 {
					case 1:
						next = extended("SELECT v FROM u WHERE a = 1", nil)
					case 2:
						next = query("UPDATE u SET v = 0 WHERE a = 1 AND b = 'b1'")
					}
					p.checkOut(x.text, next)
					p.settle()
					for _, it := range p.sink.take() {
						if len(it.Reads) > 0 || it.Number != 0 {
							seen++
						}
						last = it.Level
					}
				}
				if seen < 95 {
					t.Errorf("%d of 100 transactions were seen: %v", seen, p.sink.unseen[len(p.sink.unseen)/2:])
				}
				wanted := record.ReadCommitted
				if user == "roled" {
					wanted = record.RepeatableRead
				}
				if last != wanted {
					t.Errorf("the level is %v", last)
				}
			})
		}
	}
}

// TestResetsOfWhatWasSet: what was changed before a reset, or makes the reset fail. The client gets what it would get
// without the proxy, and what is reported is of the table that the server read.
func TestResetsOfWhatWasSet(t *testing.T) {
	needServer(t)
	sql(t, fill)
	sql(t, "DROP SCHEMA IF EXISTS elsewhere CASCADE; CREATE SCHEMA elsewhere; DROP ROLE IF EXISTS roled; "+
		"CREATE TABLE elsewhere.t (w text, v int PRIMARY KEY, id int); INSERT INTO elsewhere.t VALUES ('x', 7, 1); "+
		"GRANT USAGE ON SCHEMA elsewhere TO limited; GRANT SELECT ON elsewhere.t, t TO limited; "+
		"CREATE ROLE roled LOGIN SUPERUSER; ALTER ROLE roled SET role = 'limited'; CREATE OR REPLACE FUNCTION hides() RETURNS int "+
		"LANGUAGE plpgsql AS $$BEGIN PERFORM set_config('search_path', 'elsewhere', false); RETURN 1; END$$")
	defer sql(t, "DROP SCHEMA elsewhere CASCADE; DROP ROLE roled; REVOKE SELECT ON t FROM limited; DROP FUNCTION hides")
	d, err := definitions.Open(context.Background(), config(), time.Hour, func(string) {})
	if err != nil {
		t.Fatal(err)
	}
	shared, identities := NewShared(), map[record.Relation]record.Identity{}
	for _, name := range []string{"public.t", "elsewhere.t"} {
		p, _ := d.PlanIn("", "SELECT w FROM "+name)
		identities[p.Sources[0].Relation] = p.Sources[0].Identity
	}
	const read = "SELECT v, w FROM t WHERE id = 1"
	for _, user := range []string{"postgres", "roled"} {
		for _, before := range [][]string{
			{"SET search_path = elsewhere"}, {"BEGIN", "SET search_path = elsewhere", "COMMIT"},
			{"BEGIN", "SET search_path = elsewhere", "ROLLBACK"}, {"BEGIN", "SET LOCAL search_path = elsewhere"},
			{"SELECT hides()"}, {"SELECT set_config('search_path', 'elsewhere', false)"},
			{"SET ROLE limited"}, {"RESET ROLE"}, {"SET ROLE none"}, {"SET SESSION AUTHORIZATION limited"},
			{"CREATE TEMP TABLE t (v int, w text, id int)", "INSERT INTO t VALUES (9, 'temporary', 1)"},
			{"BEGIN", "CREATE TEMP TABLE t (id int, v int, w text) ON COMMIT DROP", "COMMIT"},
			{"BEGIN"}, {"BEGIN", "SELECT 1/0"}, {"SET default_transaction_isolation = 'serializable'"}, {},
		} {
			for _, x := range resets[:4] {
				// settles: there is an idle moment between, at which the proxy learns what has been changed.
				for _, settles := range []bool{false, true} {
					p := through(t, user, func(o *Options) { o.Plans, o.Generation, o.Shared = d, d.Generation, shared })
					one := direct(t, user)
					name := strings.Join(before, "; ") + "; then " + x.name + " as " + user
					for i := 0; i < 2; i++ {
						p.checkOut(x.text, query(read))
						p.settle()
					}
					for _, text := range before {
						p.query(text)
						one.query(text)
					}
					for i := 0; i < 3 && settles; i++ { // so that it is tried there, too
						p.settle()
						p.query(read)
						one.query(read)
					}
					p.sink.take()
					for again := 0; again < 2; again++ {
						for _, s := range []step{{append(query(x.text).send, query(read).send...), 'Z', 2},
							extended(read, nil), query("COMMIT"), query("SHOW search_path"), query("SHOW transaction_isolation"),
							{append(append(query(x.text).send, query("BEGIN").send...), query(read).send...), 'Z', 3},
							query("SELECT w FROM t WHERE id = 2 FOR SHARE"), query("COMMIT")} {
							got, wanted := p.do(s), one.do(s)
							mask(got)
							mask(wanted)
							if !same(got, wanted) {
								t.Fatalf("%s: got\n%swanted\n%s", name, show(got), show(wanted))
							}
						}
						p.settle()
					}
					for _, it := range p.sink.take() {
						for _, r := range it.Reads {
							if identities[r.Relation] != r.Identity {
								t.Errorf("%s: a read of %d by the key of another table", name, r.Relation)
							}
						}
					}
					p.conn.Close()
					one.conn.Close()
					<-p.ended
				}
			}
		}
	}
}

// TestResetThatFails: a reset that fails leaves everything as it was, and prepared statements may be gone or not.
func TestResetThatFails(t *testing.T) {
	needServer(t)
	sql(t, fill)
	steps := []step{named("n", "SELECT v FROM t WHERE id = $1"), query("SELECT v FROM t WHERE id = 2"),
		bound("n", nil, "3"), query("DISCARD ALL"), query("SELECT v FROM t WHERE id = 2"), named("n", "SELECT v FROM t WHERE id = $1"),
		bound("n", nil, "3"), {append(query("BEGIN").send, query("DISCARD ALL").send...), 'Z', 2}, query("SELECT v FROM t WHERE id = 2"),
		query("ROLLBACK"), bound("n", nil, "3"), query("BEGIN"), query("UPDATE t SET v = 20 WHERE id = 2"), query("COMMIT"),
		query("SET statement_timeout = 1; DISCARD ALL; SELECT pg_sleep(1)"), query("DISCARD ALL; SELECT 1"), query("SHOW statement_timeout"),
		bound("n", nil, "3"), query("RESET ALL"), query("BEGIN"), query("UPDATE t SET v = 20 WHERE id = 2"), query("COMMIT")}
	p, one := through(t, "postgres", nil), direct(t, "postgres")
	var all [][][]byte
	for _, s := range steps {
		all = append(all, one.do(s))
	}
	for i, s := range steps {
		got, wanted := p.do(s), all[i]
		mask(got)
		mask(wanted)
		if !same(got, wanted) {
			t.Fatalf("after %q: got\n%swanted\n%s", s.send, show(got), show(wanted))
		}
		p.settle()
	}
}
