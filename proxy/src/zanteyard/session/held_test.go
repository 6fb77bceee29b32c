package session

import (
	"fmt"
	"strings"
	"sync/atomic"
	"testing"

	"github.com/jackc/pgproto3/v2"

	"zanteyard/record"
	"zanteyard/wire"
)

const (
	holding = `DECLARE "h 1" CURSOR WITH HOLD FOR SELECT id, v FROM t ORDER BY id`
	more    = `FETCH 2 FROM "h 1"`
)

// toldOf writes what was reported of transactions: for each its reads' keys and, by a letter, whether they are those of a
// cursor WITH HOLD, whether it isn't counted, whether it has a number, and whether a SELECT counts as seen with it.
func toldOf(all []record.Transaction) string {
	var out strings.Builder
	for _, it := range all {
		for i, is := range []bool{it.Held, it.Uncounted, it.Number != 0, it.Did.Again > 0} {
			if is {
				out.WriteByte("huns"[i])
			}
		}
		fmt.Fprintf(&out, "%v;", keysOf(it.Reads))
	}
	return out.String()
}

// TestCursorsThatOutliveTheirTransaction: rows that a cursor WITH HOLD returns after its transaction are reads of one that ran
// when that one did, or are left out, with the reason.
func TestCursorsThatOutliveTheirTransaction(t *testing.T) {
	needServer(t)
	for _, x := range []struct {
		name, told, left string
		texts            []string
	}{
		{"by themselves", "[];hs[1 2];h[3 4];h[4];", "", []string{holding, more, more, `FETCH 0 FROM "h 1"`, `CLOSE "h 1"`}},
		{"beside writes", "[];hs[1 2];n[];h[3 4];", "", []string{holding, more, "UPDATE t SET v = 0 WHERE id = 4", more}},
		{"in a block", "s[1 2];n[7];hu[3 4];h[5 6];", "", []string{"BEGIN", holding, more, "COMMIT",
			"BEGIN", more, "SELECT v FROM t WHERE id = 7", "UPDATE t SET v = 0 WHERE id = 9", "COMMIT", "BEGIN", more, "ROLLBACK"}},
		{"of a writer", "n[];hs[];", heldByWriter, []string{"BEGIN", "UPDATE t SET v = 5 WHERE id = 3", holding, "COMMIT", more}},
		{"of one that has undone its writes", "n[];hs[];", heldByWriter, []string{"BEGIN", "SAVEPOINT s", "UPDATE t SET v = 5 WHERE id = 3",
			"ROLLBACK TO s", holding, "COMMIT", more}},
		{"rolled back", "s[];", "", []string{"BEGIN", holding, "ROLLBACK", more}},
		{"closed", "[];hs[];", "", []string{holding, "CLOSE ALL", more}},
		{"discarded", "[];hs[];", "", []string{holding, "DISCARD ALL", more}},
		{"discarded otherwise", "[];hs[1 2];", "", []string{holding, "DEALLOCATE ALL", more}},
		{"of two", "[];[];hs[1 2];hs[1];h[];", heldLater, []string{holding, strings.Replace(holding, "h 1", "h 2", 1), more,
			`FETCH 1 FROM "h 2"`, more}},
		{"of two at once", "[];[];hs[1 2];hus[1];", "", []string{holding, strings.Replace(holding, "h 1", "h 2", 1),
			"BEGIN", `FETCH 1 FROM "h 2"`, more, "COMMIT"}},
		{"another one by that name", "[];hs[1 2];[];hs[2 3];", "", []string{holding, more, `CLOSE "h 1"`,
			strings.Replace(holding, "t ORDER", "t WHERE id > 1 ORDER", 1), more}},
		{"of a borrowed snapshot", "[];h[];", borrowed, nil},
		{"of a query that isn't followed", "[];[];", "a subquery", []string{
			`DECLARE c CURSOR WITH HOLD FOR SELECT (SELECT 1 FROM u LIMIT 1)`, `FETCH c`}},
	} {
		t.Run(x.name, func(t *testing.T) {
			sql(t, fill)
			p := through(t, "postgres", nil)
			p.warm("BEGIN", holding, more, `DECLARE "h 2" CURSOR WITH HOLD FOR SELECT id, v FROM t ORDER BY id`,
				"DECLARE c CURSOR FOR SELECT id, v FROM t WHERE id > 1 ORDER BY id", "SELECT v FROM t WHERE id = 7",
				"UPDATE t SET v = 0 WHERE id = 9", "ROLLBACK")
			texts := x.texts
			if texts == nil {
				exporter := direct(t, "postgres")
				exporter.query("BEGIN ISOLATION LEVEL REPEATABLE READ")
				var name string
				for _, m := range exporter.query("SELECT pg_export_snapshot()") {
					if m[0] == 'D' {
						name = string(m[wire.Header+6:])
					}
				}
				texts = []string{"BEGIN ISOLATION LEVEL REPEATABLE READ", "SET TRANSACTION SNAPSHOT '" + name + "'", holding, "COMMIT", more}
			}
			p.sink.forget()
			for _, text := range texts {
				p.query(text)
			}
			p.settle()
			got := p.sink.take()
			if its := toldOf(got); its != x.told {
				t.Errorf("told %s, not %s", its, x.told)
			}
			if x.left != "" && !p.sink.left(x.left) || x.left == "" && len(p.sink.unseen) > 0 {
				t.Errorf("left out %q, not %q", p.sink.unseen, x.left)
			}
			var by *record.Transaction
			for i := range got {
				it := &got[i]
				if !it.Held {
					by = it
				} else if strings.HasPrefix(x.name, "by") && (it.Began != by.Began || it.Ended.Before(by.Began) || it.Ended.After(by.Ended)) {
					t.Errorf("held from %v to %v, declared from %v to %v", it.Began, it.Ended, by.Began, by.Ended)
				}
				if it.Held && len(it.Reads) > 0 && (len(it.Statements) != 1 || !strings.HasPrefix(it.Statements[0].Text, "DECLARE")) {
					t.Errorf("its statements: %+v", it.Statements)
				}
			}
		})
	}
}

// TestHeldIsWhatWasSeen: a cursor WITH HOLD returns the versions that its DECLARE has seen, whatever has been written since, by
// whom and at which level.
func TestHeldIsWhatWasSeen(t *testing.T) {
	needServer(t)
	for _, level := range []string{"READ COMMITTED", "REPEATABLE READ", "SERIALIZABLE"} {
		sql(t, fill)
		want := sql(t, "SELECT xmin, id FROM t ORDER BY id")
		p := through(t, "postgres", nil)
		p.warm("BEGIN", holding, more, "ROLLBACK", "UPDATE t SET v = v WHERE id = 20")
		p.query("BEGIN ISOLATION LEVEL " + level)
		p.query(holding)
		p.query("COMMIT")
		sql(t, "UPDATE t SET v = v + 1 WHERE id < 20")
		p.query("UPDATE t SET v = v + 1 WHERE id < 10")
		for range want[2:] { // the last one has another version since it was tried
			p.query(strings.Replace(more, "2", "1", 1))
		}
		p.settle()
		n := 0
		for _, it := range p.sink.take() {
			for _, read := range it.Reads {
				if its := fmt.Sprint(read.Version); !it.Held || its != want[n][0] || string(read.Key) != want[n][1] {
					t.Errorf("%s: read %s of %q, not %v; held: %v", level, its, read.Key, want[n], it.Held)
				}
				n++
			}
		}
		if n != len(want)-2 {
			t.Errorf("%s: %d reads", level, n)
		}
	}
}

// TestHeldAcrossAudits: nothing is told to an audit of what a cursor WITH HOLD has read before that audit began, and what a
// client gets doesn't change as audits end and begin.
func TestHeldAcrossAudits(t *testing.T) {
	needServer(t)
	sql(t, fill)
	var auditing atomic.Bool
	var mark atomic.Int64
	auditing.Store(true)
	mark.Store(anywhere)
	p := through(t, "postgres", func(o *Options) { o.Auditing, o.Mark = auditing.Load, mark.Load })
	p.warm("BEGIN", holding, more, "ROLLBACK")
	check := func(what string, told string) {
		t.Helper()
		all := p.query(more)
		for _, n := range columns(all) {
			if n != 2 {
				t.Fatalf("%s: a row has %d columns", what, n)
			}
		}
		p.settle()
		if got := toldOf(p.sink.take()); got != told {
			t.Errorf("%s: told %s, not %s", what, got, told)
		}
	}
	p.query(holding)
	p.settle()
	p.sink.take()
	check("in the same audit", "hs[1 2];")
	auditing.Store(false)
	check("in none", "h[];")
	mark.Store(12345)
	auditing.Store(true)
	check("in the next one", "h[];")
	p.query(`CLOSE "h 1"`)
}

// TestHeldByNames: statements that differ only in their cursor's name have one trial, and each returns its own cursor's rows.
func TestHeldByNames(t *testing.T) {
	needServer(t)
	sql(t, fill)
	p := through(t, "postgres", nil)
	p.warm(holding, `CLOSE "h 1"`)
	for i := 0; i < 3; i++ {
		name := fmt.Sprintf(`"h of %d"`, i)
		p.query(strings.Replace(holding, `"h 1"`, name, 1))
		if i == 1 {
			p.do(messages('Z', &pgproto3.Parse{Query: "FETCH 3 FROM " + name}, &pgproto3.Bind{ResultFormatCodes: []int16{1, 0}},
				&pgproto3.Execute{}, &pgproto3.Sync{}))
		} else {
			p.query("FETCH 3 FROM " + name)
		}
	}
	p.settle()
	if got := toldOf(p.sink.take()); got != strings.Repeat("[];hs[1 2 3];", 3) {
		t.Errorf("told %s", got)
	}
}

// TestNameOfAnotherCursor: a client gets all columns of a cursor that a function has opened by the name of one of the client's,
// which the server has no more.
func TestNameOfAnotherCursor(t *testing.T) {
	needServer(t)
	sql(t, `CREATE OR REPLACE FUNCTION opens_by(c refcursor) RETURNS refcursor LANGUAGE plpgsql AS $$BEGIN
		OPEN c FOR SELECT id, v, w, id + 1 AS a, v + 1 AS b, w AS x FROM t ORDER BY id; RETURN c; END$$;
		CREATE OR REPLACE FUNCTION closes_by(c refcursor) RETURNS int LANGUAGE plpgsql AS $$BEGIN CLOSE c; RETURN 1; END$$`)
	defer sql(t, "DROP FUNCTION opens_by; DROP FUNCTION closes_by")
	const inOne = "DECLARE h CURSOR FOR SELECT id, v FROM t ORDER BY id"
	held := strings.Replace(inOne, "CURSOR", "CURSOR WITH HOLD", 1)
	for name, before := range map[string][]step{
		"undone":                   queries("BEGIN", "SAVEPOINT s", held, "ROLLBACK TO s", "COMMIT", "BEGIN"),
		"undone in one":            queries("BEGIN", "SAVEPOINT s", inOne, "FETCH 1 FROM h", "ROLLBACK TO s"),
		"closed by a function":     queries(held, "SELECT closes_by('h')", "BEGIN"),
		"closed, in one":           queries("BEGIN", inOne, "FETCH 1 FROM h", "SELECT closes_by('h')"),
		"undone, with another one": queries("BEGIN", inOne, "SAVEPOINT s", strings.Replace(held, "h", "i", 1), "CLOSE h", held, "ROLLBACK TO s"),
	} {
		for _, fetch := range []step{query("FETCH 2 FROM h"), messages('Z', &pgproto3.Parse{Query: "FETCH 2 FROM h"}, &pgproto3.Bind{},
			&pgproto3.Execute{}, &pgproto3.Sync{})} {
			steps := join(before, queries("SELECT opens_by('h')"), []step{fetch}, queries("COMMIT", "CLOSE ALL"))
			t.Run(name, func(t *testing.T) { exchangeSame(t, exchange{steps: steps}, 3) })
		}
	}
}
