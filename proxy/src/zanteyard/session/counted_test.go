package session

import (
	"context"
	"fmt"
	"strings"
	"sync/atomic"
	"testing"

	"github.com/jackc/pgconn"
	"github.com/jackc/pgproto3/v2"

	"zanteyard/record"
)

// TestWhatIsntLookedAtIsCounted: a statement without a plan is counted by the reason why it has none.
func TestWhatIsntLookedAtIsCounted(t *testing.T) {
	needServer(t)
	sql(t, fill)
	for _, x := range []struct {
		name, left string
		run        func(p *proxied)
	}{
		{"after a DISCARD ALL that failed", opaque.unseen, func(p *proxied) {
			p.do(named("mine", "SELECT v FROM t WHERE id = $1"))
			p.query("BEGIN")
			p.query("DISCARD ALL")
			p.query("ROLLBACK")
			p.do(bound("mine", nil, "3"))
		}},
		{"a function call", called.unseen, func(p *proxied) {
			p.send(encoded(&pgproto3.FunctionCall{Function: 1598, ResultFormatCode: 0})) // random()
			p.until('Z')
		}},
		{"too long", tooLong.unseen, func(p *proxied) {
			p.query("SELECT 1 -- " + strings.Repeat("x", 2<<20))
		}},
		{"an encoding that isn't read", "an encoding that isn't read", func(p *proxied) {
			p.query("SET client_encoding TO SJIS")
			p.query("SELECT v FROM t WHERE id = 3")
		}},
	} {
		t.Run(x.name, func(t *testing.T) {
			p := through(t, "postgres", nil)
			p.warm("SELECT v FROM t WHERE id = 3")
			p.sink.forget()
			x.run(p)
			if !p.sink.left(x.left) {
				t.Errorf("left out: %q", p.sink.unseen)
			}
		})
	}
}

// TestWritesOfNoRow: a write that changed no row is counted by what wasn't seen of it, or as one that found no row.
func TestWritesOfNoRow(t *testing.T) {
	needServer(t)
	sql(t, fill)
	for text, want := range map[string]string{
		"INSERT INTO t VALUES (3, 0) ON CONFLICT DO NOTHING":                 "a conflicting row that isn't written",
		"INSERT INTO t SELECT id, 0 FROM t WHERE id = 999":                   "what INSERT selects",
		"UPDATE t SET v = 0 WHERE id = 999":                                  record.FoundNoRow,
		"DELETE FROM t WHERE id = 999":                                       record.FoundNoRow,
		"INSERT INTO t VALUES (3, 0) ON CONFLICT (id) DO UPDATE SET v = t.v": "",
	} {
		p := through(t, "postgres", nil)
		p.warm(text)
		p.sink.take()
		p.query("BEGIN")
		p.query(text)
		p.query("COMMIT")
		its := p.sink.take()
		if len(its) != 1 {
			t.Errorf("%s: %d transactions", text, len(its))
			continue
		}
		if did := its[0].Did; want == "" && (did.Writes != 1 || len(did.Left) != 0) ||
			want != "" && (len(did.Left) != 1 || did.Left[0] != record.Left{Reason: want, Writes: 1}) {
			t.Errorf("%s: %+v", text, did)
		}
	}
}

// TestUnauditedExecute: while nothing is audited, what EXECUTE has run counts as a transaction, with arguments or without.
func TestUnauditedExecute(t *testing.T) {
	needServer(t)
	sql(t, fill)
	p := through(t, "postgres", func(o *Options) { o.Auditing = func() bool { return false } })
	for _, text := range []string{"PREPARE q AS SELECT v FROM t WHERE id = 3", "PREPARE r (int) AS SELECT v FROM t WHERE id = $1"} {
		p.query(text)
	}
	p.sink.take()
	for _, text := range []string{"EXECUTE q", "execute q;", "EXECUTE r (3)"} {
		p.query(text)
		its := p.sink.take()
		if len(its) != 1 {
			t.Errorf("%s: %d transactions", text, len(its))
			continue
		}
		if selects, _, rows := its[0].Did.Sum(0); selects != 1 || rows != 1 || !its[0].Unaudited {
			t.Errorf("%s: %+v", text, its[0])
		}
	}
	if p.query("SELECT 1"); len(p.sink.take()) > 0 {
		t.Error("what is on no table counts")
	}
}

// TestEachFetchedRowIsCounted: rows of a cursor that may be another one by now are in a place, though no read is reported
// of them.
func TestEachFetchedRowIsCounted(t *testing.T) {
	needServer(t)
	sql(t, fill)
	const declare = "DECLARE c CURSOR FOR SELECT v FROM t WHERE id > 10"
	p := through(t, "postgres", nil)
	p.warm("BEGIN", declare, "FETCH 1 FROM c", "COMMIT")
	p.sink.take()
	for _, text := range []string{"BEGIN", declare, "FETCH 2 FROM c", "SELECT bump(1)", "FETCH 3 FROM c", "COMMIT"} {
		p.query(text)
	}
	its := p.sink.take()
	if len(its) != 1 {
		t.Fatalf("%d transactions", len(its))
	}
	if _, _, rows := its[0].Did.Sum(len(its[0].Reads)); rows != 2+1+3 {
		t.Errorf("%d rows are counted of 6: %+v", rows, its[0].Did)
	}
}

// TestFetchedFromANameThatComesAgain: a cursor that is declared while nothing is audited isn't taken for an earlier one of
// its name.
func TestFetchedFromANameThatComesAgain(t *testing.T) {
	needServer(t)
	sql(t, fill)
	const declare = "DECLARE c CURSOR FOR SELECT v FROM t WHERE id > 10"
	var audits atomic.Bool
	audits.Store(true)
	p := through(t, "postgres", func(o *Options) { o.Auditing = audits.Load })
	p.warm("BEGIN", declare, "FETCH 1 FROM c", "COMMIT")
	p.sink.take()
	audits.Store(false)
	p.query("BEGIN")
	p.query(declare)
	audits.Store(true)
	p.query("FETCH 3 FROM c")
	p.query("COMMIT")
	its := p.sink.take()
	if len(its) != 1 {
		t.Fatalf("%d transactions", len(its))
	}
	if selects, _, rows := its[0].Did.Sum(len(its[0].Reads)); selects != 1 || rows != 3 {
		t.Errorf("%d SELECTs are counted of 1, and %d rows of 3: %+v", selects, rows, its[0].Did)
	}
}

// TestFailsAsAnAuditBegins: a statement that is sent while nothing is audited, and fails once an audit runs, is one of a
// transaction that was rolled back.
func TestFailsAsAnAuditBegins(t *testing.T) {
	needServer(t)
	sql(t, fill)
	const text = "SELECT 1 / (v - v) FROM t"
	var audits atomic.Bool
	p := through(t, "postgres", func(o *Options) { o.Auditing = audits.Load })
	ctx := context.Background()
	beside, err := pgconn.ConnectConfig(ctx, config())
	if err != nil {
		t.Fatal(err)
	}
	defer beside.Close(ctx)
	for _, one := range []string{"BEGIN", "LOCK TABLE t"} {
		if _, err := beside.Exec(ctx, one).ReadAll(); err != nil {
			t.Fatal(err)
		}
	}
	p.send(encoded(&pgproto3.Query{String: text}))
	until(t, "the statement waits for the lock", func() bool {
		return len(sql(t, "SELECT 1 FROM pg_stat_activity WHERE query = '"+text+"' AND wait_event_type = 'Lock'")) == 1
	})
	audits.Store(true)
	if _, err := beside.Exec(ctx, "ROLLBACK").ReadAll(); err != nil {
		t.Fatal(err)
	}
	p.until('Z')
	if its := p.sink.take(); len(its) != 1 || its[0].Outcome != record.Aborted {
		t.Errorf("reported are %+v", its)
	}
}

// TestCauses: what names refer to isn't known for different reasons, and a statement that isn't seen for that says which.
func TestCauses(t *testing.T) {
	needServer(t)
	sql(t, fill)
	const text = "SELECT v FROM t WHERE id = 3"
	for _, x := range []struct {
		before []string
		want   cause
	}{
		{nil, newConnection},
		{[]string{"SET search_path TO public"}, setSomething},
		{[]string{"ALTER TABLE changing ADD COLUMN IF NOT EXISTS more int"}, newDefinitions},
		{[]string{"SELECT 1 -- " + strings.Repeat("x", 2<<20)}, unparsed},
	} {
		p := through(t, "postgres", func(o *Options) { o.Bound = 0 }) // nothing waits for a trial
		if x.before != nil {
			p.warm(text)
		}
		for _, one := range x.before {
			p.query(one)
		}
		p.sink.forget()
		p.session.state.Lock()
		why := p.session.trust.cause
		p.session.state.Unlock()
		if p.query(text); why != x.want && !p.sink.left(string(x.want)) {
			t.Errorf("after %.40q: %s, and left out is %.300q", x.before, why, p.sink.unseen)
		}
	}
}

// TestWhatSelectsRestOn: a SELECT rests on the reads that it made, on those that the transaction had made before, and on
// those that aren't kept.
func TestWhatSelectsRestOn(t *testing.T) {
	needServer(t)
	sql(t, fill)
	p := through(t, "postgres", func(o *Options) { o.ReadLimit = 5 })
	texts := []string{"BEGIN", "SELECT v FROM t WHERE id IN (1, 2, 3) ORDER BY id", "SELECT v FROM t WHERE id IN (2, 3, 4) ORDER BY id",
		"SELECT v FROM t WHERE id = 3", "SELECT v FROM t WHERE id IN (5, 6) ORDER BY id", "SELECT v FROM t WHERE id = 7", "COMMIT"}
	p.warm(texts...)
	p.sink.take()
	for _, text := range texts {
		p.query(text)
	}
	its := p.sink.take()
	if len(its) != 1 {
		t.Fatalf("%d transactions", len(its))
	}
	want := []record.Select{{To: 3}, {From: 3, To: 4, EarlierFrom: 1, EarlierTo: 3}, {From: 4, To: 4, EarlierFrom: 2, EarlierTo: 3},
		{From: 4, To: 5, Unkept: 1}, {From: 5, To: 5, Unkept: 1}}
	got := its[0].Did
	if fmt.Sprint(got.Selects) != fmt.Sprint(want) || got.Again != 0 || got.Beyond != 2 {
		t.Errorf("%+v", got)
	}
}

// TestClosedInTheMiddle: a portal over a view has returned some of its rows and is closed. They count, and the transaction
// is checked in part at most, even if it has no other statement.
func TestClosedInTheMiddle(t *testing.T) {
	needServer(t)
	sql(t, fill+"; CREATE OR REPLACE VIEW viewed AS SELECT * FROM t")
	defer sql(t, "DROP VIEW viewed")
	const text = "SELECT id FROM viewed WHERE v < 40"
	some := messages('Z', &pgproto3.Parse{Query: text}, &pgproto3.Bind{DestinationPortal: "c"},
		&pgproto3.Execute{Portal: "c", MaxRows: 2}, &pgproto3.Close{ObjectType: 'P', Name: "c"}, &pgproto3.Sync{})
	for _, x := range []struct {
		name    string
		steps   []step
		selects uint64
		rows    uint64
	}{
		{"alone", []step{some}, 1, 2},
		{"in a block", []step{query("BEGIN"), query("SELECT v FROM t WHERE id = 1"), some, query("COMMIT")}, 2, 3},
	} {
		t.Run(x.name, func(t *testing.T) {
			p := through(t, "postgres", nil)
			p.warm(text, "SELECT v FROM t WHERE id = 1")
			p.sink.take()
			for _, one := range x.steps {
				p.do(one)
			}
			p.settle()
			its := p.sink.take()
			if len(its) != 1 || !its[0].Partly {
				t.Fatalf("told %+v", its)
			}
			if selects, _, rows := its[0].Did.Sum(len(its[0].Reads)); selects != x.selects || rows != x.rows {
				t.Errorf("%d SELECTs and %d rows count", selects, rows)
			}
		})
	}
}

// TestCommandTags: what each tag of the server counts.
func TestCommandTags(t *testing.T) {
	for tag, want := range map[string]struct {
		verb string
		n    uint64
	}{
		"SELECT 5": {"SELECT", 5}, "INSERT 0 7": {"INSERT", 7}, "UPDATE 0": {"UPDATE", 0}, "DELETE 12": {"DELETE", 12}, "FETCH 3": {"FETCH", 3},
		"MERGE 2": {"MERGE", 2}, "COPY 18446744073709551616": {"COPY 18446744073709551616", 0}, "COPY 9": {"COPY", 9}, "MOVE 1": {"MOVE", 1},
		"BEGIN": {"BEGIN", 0}, "CREATE TABLE": {"CREATE TABLE", 0}, "CREATE TABLE AS": {"CREATE TABLE AS", 0}, "": {"", 0}, "5": {"5", 0},
		" 5": {" 5", 0}, "X ": {"X ", 0}, "ROLLBACK PREPARED": {"ROLLBACK PREPARED", 0}, "SELECT -1": {"SELECT -1", 0},
	} {
		if verb, n := counted([]byte(tag)); verb != want.verb || n != want.n {
			t.Errorf("%q: %q, %d", tag, verb, n)
		}
	}
}
