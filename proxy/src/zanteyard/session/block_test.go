package session

import (
	"context"
	"fmt"
	"math/rand"
	"strings"
	"testing"
	"time"

	"github.com/jackc/pgproto3/v2"

	"zanteyard/definitions"
	"zanteyard/own"
	"zanteyard/record"
	"zanteyard/wire"
)

// tenants have a table of the same name, and roles that may read it by a policy.
const tenants = `
DROP SCHEMA IF EXISTS tenant7 CASCADE; DROP SCHEMA IF EXISTS tenant8 CASCADE; DROP TABLE IF EXISTS owned;
DO $$BEGIN IF NOT EXISTS (SELECT FROM pg_roles WHERE rolname = 'visitor') THEN CREATE ROLE visitor; END IF; END$$;
CREATE SCHEMA tenant7; CREATE TABLE tenant7.t (key text PRIMARY KEY, v int); INSERT INTO tenant7.t VALUES ('x', 5);
CREATE SCHEMA tenant8; CREATE TABLE tenant8.t (v int, id bigint PRIMARY KEY); INSERT INTO tenant8.t VALUES (6, 80);
GRANT USAGE ON SCHEMA tenant7, tenant8 TO visitor; GRANT SELECT, UPDATE ON tenant7.t, tenant8.t, t, u TO visitor;
CREATE TABLE owned (id int PRIMARY KEY, owner text, v int); INSERT INTO owned SELECT i, 'me', i FROM generate_series(1, 5) i;
ALTER TABLE owned ENABLE ROW LEVEL SECURITY; GRANT SELECT, UPDATE ON owned TO visitor;
CREATE POLICY mine ON owned USING (owner = current_setting('request.jwt.claims', true));
`

// seenIn runs transactions, and returns how many of their statements on tables were seen of how many.
func (p *proxied) seenIn(times int, steps ...step) (seen, all int) {
	p.t.Helper()
	for i := 0; i < times; i++ {
		for _, s := range steps {
			if m := p.do(s); m[0][0] == 'E' {
				p.t.Fatalf("%q: %s", s.send, show(m))
			}
		}
	}
	p.settle()
	for _, it := range p.sink.take() {
		n := len(it.Did.Selects) + int(it.Did.Again)
		if it.Number != 0 {
			n += int(it.Did.Writes)
		}
		seen, all = seen+n, all+n
		for _, left := range it.Did.Left {
			all += int(left.Selects + left.Writes)
		}
		if it.Number == 0 {
			all += int(it.Did.Writes)
		}
	}
	return seen, all
}

// TestAskedInBlocks: what names refer to is asked again inside a block: of 100 statements that follow something after
// which it is in doubt, 95 are seen.
func TestAskedInBlocks(t *testing.T) {
	needServer(t)
	sql(t, fill)
	sql(t, tenants)
	d, err := definitions.Open(context.Background(), config(), time.Hour, func(string) {})
	if err != nil {
		t.Fatal(err)
	}
	const claims = "SELECT set_config('request.jwt.claims', 'me', true), set_config('search_path', 'public', true)"
	select1 := "SELECT v FROM t WHERE v > 0"
	for _, x := range []struct {
		name  string
		steps []step
		all   int
		left  int // of the statements that put the others in doubt
	}{
		{"row-level security as PostgREST does it", join(queries("BEGIN", "SET LOCAL ROLE visitor", claims),
			[]step{extended("SELECT v FROM owned", nil)}, queries("COMMIT")), 100, 0},
		{"the same, with writes", queries("BEGIN", claims+", set_config('role', 'visitor', true)", "SELECT v FROM owned WHERE id = 1",
			"UPDATE owned SET v = 1 WHERE id = 1", "COMMIT"), 200, 0},
		{"SET LOCAL search_path", queries("BEGIN", "SET LOCAL search_path = tenant7", select1, "COMMIT"), 100, 0},
		{"two of them", queries("BEGIN", "SET LOCAL search_path = tenant7", select1, "SET LOCAL search_path = tenant8", select1, "COMMIT",
			"BEGIN", select1, "COMMIT"), 300, 0},
		{"SET ROLE", queries("BEGIN", "SET ROLE visitor", select1, "RESET ROLE", select1, "COMMIT"), 200, 0},
		{"a savepoint", queries("BEGIN", "SAVEPOINT a", "SET LOCAL search_path = tenant7", select1, "ROLLBACK TO a", select1, "COMMIT"), 200, 0},
		{"DO", queries("BEGIN", "DO 'BEGIN PERFORM 1; END'", select1, "UPDATE t SET v = 1 WHERE id = 4", select1, "COMMIT"), 300, 0},
		{"DO that writes", queries("BEGIN", "DO 'BEGIN UPDATE t SET v = 1 WHERE id = 5; END'", "SELECT v FROM t WHERE id = 5", "COMMIT"), 100, 0},
		{"a temporary table", queries("BEGIN", "CREATE TEMP TABLE few (id int) ON COMMIT DROP", select1, "COMMIT"), 100, 0},
		{"a statement that isn't parsed", queries("BEGIN", "SELECT "+strings.Repeat("(", 220)+"1"+strings.Repeat(")", 220), select1, "COMMIT"), 100, 100},
	} {
		x := x
		t.Run(x.name, func(t *testing.T) {
			p := through(t, "postgres", func(o *Options) { o.Plans, o.Generation, o.Shared = d, d.Generation, NewShared() })
			seen, all := p.seenIn(100, x.steps...)
			t.Logf("%d of %d", seen, all)
			if all != x.all+x.left || seen*100 < x.all*95 {
				t.Errorf("%d of %d statements were seen: %v", seen, all, p.sink.unseen)
			}
		})
	}
}

// inBlocks are what a block may consist of. Each SELECT shows of which table its rows are.
var inBlocks = []string{
	"SAVEPOINT a", "SAVEPOINT a", "ROLLBACK TO a", "ROLLBACK TO a", "RELEASE a",
	"SET LOCAL search_path = tenant7", "SET search_path = tenant8, public", "RESET search_path", "SET LOCAL ROLE visitor",
	"SET ROLE visitor", "RESET ROLE", "SET SESSION AUTHORIZATION visitor", "RESET SESSION AUTHORIZATION", "RESET ALL",
	"SET TRANSACTION ISOLATION LEVEL SERIALIZABLE", "SET TRANSACTION READ ONLY", "SET LOCAL row_security = off",
	"SELECT set_config('search_path', 'tenant7, public', true)", "SELECT set_config('role', 'none', true)",
	"SELECT set_config('request.jwt.claims', 'me', true)", "SELECT set_config('search_path', 'tenant8', false)",
	"DO 'BEGIN PERFORM 1; END'", "DO $$BEGIN PERFORM set_config('search_path', 'tenant8', true); END$$",
	"DO 'BEGIN CREATE TEMP TABLE t (v int, w text, id int) ON COMMIT DROP; END'",
	"DO $$BEGIN EXECUTE 'CREATE TABLE tenant7.u (a int, b text, v int)'; END$$",
	"DO $$BEGIN EXECUTE 'ALTER TABLE public.t RENAME COLUMN id TO other'; END$$",
	"DO $$BEGIN EXECUTE 'ALTER TABLE public.t DROP COLUMN id CASCADE'; END$$",
	"DO $$BEGIN EXECUTE 'REVOKE ALL ON public.t, tenant7.t FROM visitor'; END$$",
	"DO $$BEGIN EXECUTE 'DISCARD PLANS'; END$$",
	"CREATE TEMP TABLE t (v int) ON COMMIT DROP", "ALTER TABLE public.t RENAME COLUMN id TO other",
	"UPDATE t SET v = v + 1", "UPDATE t SET v = v WHERE v = 10 RETURNING v", "SELECT v / 0 FROM t", "SELECT nothere FROM t",
	"DECLARE c CURSOR FOR SELECT tableoid::int, v FROM t ORDER BY v", "FETCH 2 FROM c", "CLOSE c", "SHOW search_path",
	"PREPARE s AS SELECT tableoid::int, v FROM t ORDER BY v LIMIT 2", "EXECUTE s", "EXECUTE s", "DEALLOCATE s",
	"SELECT relation::regclass::text, mode FROM pg_locks WHERE pid = pg_backend_pid() AND relation >= 16384 ORDER BY 1, 2",
	"SELECT count(*) FROM pg_locks WHERE locktype = 'advisory'", "SELECT pg_current_xact_id_if_assigned() IS NULL",
	"LOCK TABLE u IN SHARE MODE", "SELECT current_user, current_setting('search_path')",
}

// TestRandomBlocks: what is asked and tried inside blocks changes no answer, whatever the block does to names, rights and
// savepoints, and however it is sent. What is reported is of the tables that the server has read.
func TestRandomBlocks(t *testing.T) {
	needServer(t)
	r := seeded(t)
	sql(t, fill)
	sql(t, tenants)
	d, err := definitions.Open(context.Background(), config(), time.Hour, func(string) {})
	if err != nil {
		t.Fatal(err)
	}
	p := through(t, "postgres", func(o *Options) { o.Plans, o.Generation, o.Shared = d, d.Generation, NewShared() })
	one := direct(t, "postgres")
	one.do(named("n", "SELECT tableoid::int, v FROM t WHERE v > $1 ORDER BY v", 23))
	p.do(named("n", "SELECT tableoid::int, v FROM t WHERE v > $1 ORDER BY v", 23))
	reads, blocks := 0, 0
	for i := 0; i < *lockstep/2; i++ {
		steps := randomBlock(r)
		var wanted, all [][][]byte
		for _, s := range steps {
			wanted = append(wanted, one.do(s))
		}
		tables := map[string]bool{}
		for at, s := range steps {
			all = append(all, p.do(s))
			if r.Intn(3) == 0 {
				p.settle()
			}
			mask(all[at])
			mask(wanted[at])
			if !same(all[at], wanted[at]) {
				t.Fatalf("after %s\ngot\n%swanted\n%s", sent(steps[:at+1]), show(all[at]), show(wanted[at]))
			}
			for _, m := range all[at] {
				if m[0] == 'D' && wire.Int16(m[wire.Header:]) == 2 {
					_, _, values, _ := wire.Row(m, 2, nil)
					tables[string(values[0])] = true
				}
			}
		}
		blocks++
		for _, it := range p.sink.take() {
			for _, read := range it.Reads {
				reads++
				if !tables[fmt.Sprint(read.Relation)] && it.Number == 0 {
					t.Errorf("after %s\na read of %d, but the rows were of %v", sent(steps), read.Relation, tables)
				}
			}
		}
	}
	t.Logf("%d blocks, %d reads", blocks, reads)
	if reads < *lockstep {
		t.Errorf("only %d reads of %d blocks were told", reads, blocks)
	}
}

func sent(steps []step) string {
	var all strings.Builder
	for _, s := range steps {
		fmt.Fprintf(&all, "%q\n", s.send)
	}
	return all.String()
}

func randomBlock(r *rand.Rand) []step {
	select1 := []string{"SELECT tableoid::int, v FROM t ORDER BY v", "SELECT tableoid::int, v FROM t WHERE v < 40",
		"SELECT tableoid::int, v FROM u WHERE a = 1 ORDER BY v", "SELECT tableoid::int, v FROM owned ORDER BY v"}
	steps := queries([]string{"BEGIN", "BEGIN", "BEGIN ISOLATION LEVEL REPEATABLE READ"}[r.Intn(3)])
	for n := 2 + r.Intn(10); n > 0; n-- {
		text := inBlocks[r.Intn(len(inBlocks))]
		if r.Intn(2) == 0 {
			text = select1[r.Intn(len(select1))]
		}
		switch r.Intn(6) {
		case 0:
			steps = append(steps, bound("n", []int16{0}, "20"))
		case 1:
			steps = append(steps, extended(text, []int16{0}))
		case 2: // without waiting for the answer to the first one
			steps = append(steps, step{append(query(text).send, query(select1[r.Intn(len(select1))]).send...), 'Z', 2})
		case 3: // a portal that is left open
			steps = append(steps, messages('Z', &pgproto3.Parse{Query: select1[0]}, &pgproto3.Bind{DestinationPortal: "open"},
				&pgproto3.Execute{Portal: "open", MaxRows: 1}, &pgproto3.Sync{}), query(text),
				messages('Z', &pgproto3.Execute{Portal: "open", MaxRows: 1}, &pgproto3.Sync{}))
		default:
			steps = append(steps, query(text))
		}
	}
	return append(steps, queries("ROLLBACK", "RESET SESSION AUTHORIZATION; RESET ALL", "SELECT tableoid::int, v FROM t WHERE v < 40")...)
}

// TestBlockIsAborted: what surrounds a trial in a block fails, as by a cancel request at that moment, and has aborted the
// block. The client gets that error, not an answer to its COMMIT that drivers take for success.
func TestBlockIsAborted(t *testing.T) {
	needServer(t)
	sql(t, fill)
	defer func(is []byte) { savepoint = is }(savepoint)
	savepoint = once(savepointName, own.Guest("SELECT 1 OPERATOR(pg_catalog./) 0"))
	for _, next := range []step{query("SELECT v FROM t WHERE id = 1"), extended("SELECT v FROM t WHERE id = 1", nil), query("COMMIT"),
		extended("COMMIT", nil), query("ROLLBACK")} {
		p := through(t, "postgres", nil)
		p.warm("SELECT v FROM t WHERE id = 1")
		p.query("BEGIN")
		p.query("SELECT 1")
		p.query("SET LOCAL search_path = public, pg_catalog")
		p.settle()
		text, got := string(next.send), p.do(next)
		isEnd := strings.Contains(text, "COMMIT") || strings.Contains(text, "ROLLBACK")
		last, first := got[len(got)-1], got[0]
		switch {
		case string(last) == "Z\x00\x00\x00\x05I" != isEnd:
			t.Errorf("%q: the block is %s", text, show(got))
		case strings.Contains(text, "ROLLBACK"):
			if first[0] != 'C' {
				t.Errorf("%q: %s", text, show(got))
			}
		case len(got[len(got)-2]) < 5 || got[len(got)-2][0] != 'E' || string(wire.Field(got[len(got)-2], 'C')) != "22012":
			t.Errorf("%q: %s", text, show(got))
		}
		p.query("ROLLBACK")
		if got := p.query("SELECT v FROM t WHERE id = 1"); len(got) != 4 {
			t.Errorf("%q: then %s", text, show(got))
		}
		for _, it := range p.sink.take() {
			if it.Outcome == record.Committed && len(it.Reads) == 0 && !it.Partly {
				t.Errorf("%q: told %+v", text, it)
			}
		}
	}
}

// TestBlockHasItsSnapshot: a block that has none yet isn't given one before its client's first statement that takes one.
func TestBlockHasItsSnapshot(t *testing.T) {
	needServer(t)
	sql(t, fill)
	p := through(t, "postgres", nil)
	p.warm("SELECT v FROM t WHERE id = 1")
	p.query("BEGIN ISOLATION LEVEL REPEATABLE READ")
	p.query("SET LOCAL search_path = public, pg_catalog")
	p.settle()
	sql(t, "UPDATE t SET v = 77 WHERE id = 1")
	if got := p.query("SELECT v FROM t WHERE id = 1"); len(got) != 4 || !strings.HasSuffix(string(got[1]), "77") {
		t.Errorf("got %s", show(got))
	}
	p.query("COMMIT")
	if its := p.sink.take(); len(its) != 1 || len(its[0].Reads) != 1 {
		t.Errorf("told %+v, left out %v", its, p.sink.unseen)
	}
}

// TestTrialInBlockWithoutItsLock: a trial in a block doesn't get its lock. The client's statement waits for it, as without
// the proxy, and succeeds.
func TestTrialInBlockWithoutItsLock(t *testing.T) {
	needServer(t)
	sql(t, fill)
	sql(t, tenants)
	p, locker := through(t, "postgres", func(o *Options) { o.Shared = nil }), direct(t, "postgres")
	p.warm("SELECT v FROM u WHERE a = 1")
	locker.query("BEGIN")
	locker.query("LOCK TABLE tenant7.t")
	p.query("BEGIN")
	p.query("SET LOCAL search_path = tenant7")
	p.send(query("SELECT v FROM t").send)
	until(t, "the client's statement waits for the lock", func() bool {
		return sql(t, "SELECT count(*) FROM pg_stat_activity WHERE query = 'SELECT v FROM t' AND wait_event_type = 'Lock'")[0][0] == "1"
	})
	locker.query("COMMIT")
	if got := p.until('Z'); len(got) != 4 || got[0][0] != 'T' {
		t.Errorf("got %s", show(got))
	}
	if got := p.query("COMMIT"); string(got[0][wire.Header:]) != "COMMIT\x00" {
		t.Errorf("got %s", show(got))
	}
}

// TestUnparsedEnd: what follows a text that isn't parsed, and has ended the transaction and begun another one, isn't told
// as part of what precedes it.
func TestUnparsedEnd(t *testing.T) {
	needServer(t)
	sql(t, fill)
	p := through(t, "postgres", nil)
	p.warm("SELECT v FROM t WHERE id = 1", "SELECT v FROM t WHERE id = 2")
	deep := "SELECT " + strings.Repeat("(", 220) + "1" + strings.Repeat(")", 220)
	for _, x := range []struct {
		text string
		want int
	}{{deep + "; COMMIT; BEGIN", 1}, {deep, 2}} {
		for _, text := range []string{"BEGIN", "SELECT v FROM t WHERE id = 1", x.text, "SELECT v FROM t WHERE id = 2", "COMMIT"} {
			p.query(text)
		}
		if its := p.sink.take(); len(its) != 1 || len(its[0].Reads) != x.want {
			t.Errorf("%s: told %+v", x.text, its)
		}
	}
}

// TestBlockIsOver: what was learned in a block isn't relied on after its end, nor after a rollback to a savepoint, though
// the next statement comes at once.
func TestBlockIsOver(t *testing.T) {
	needServer(t)
	sql(t, fill)
	sql(t, tenants)
	d, err := definitions.Open(context.Background(), config(), time.Hour, func(string) {})
	if err != nil {
		t.Fatal(err)
	}
	const read = "SELECT tableoid::int, v FROM t ORDER BY v"
	for _, end := range []string{"COMMIT", "ROLLBACK", "ROLLBACK TO a", "COMMIT AND CHAIN", "ROLLBACK AND CHAIN", "END; SELECT 1"} {
		p := through(t, "postgres", func(o *Options) { o.Plans, o.Generation = d, d.Generation })
		one := direct(t, "postgres")
		for i := 0; i < 3; i++ {
			for _, next := range []step{query(read), extended(read, nil)} {
				for _, s := range append(queries(read, "BEGIN", "SAVEPOINT a", "SET LOCAL search_path = tenant7", read, read),
					step{append(query(end).send, next.send...), 'Z', 2}, query("ROLLBACK")) {
					got, wanted := p.do(s), one.do(s)
					if !same(got, wanted) {
						t.Fatalf("%s: after %q got\n%swanted\n%s", end, s.send, show(got), show(wanted))
					}
				}
				p.settle()
			}
		}
		reads := 0
		for _, it := range p.sink.take() {
			reads += len(it.Reads)
		}
		if reads < 20 {
			t.Errorf("%s: only %d reads were told", end, reads)
		}
	}
}
