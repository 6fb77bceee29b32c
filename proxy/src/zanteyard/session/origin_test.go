package session

import (
	"context"
	"testing"
	"time"

	"github.com/jackc/pgproto3/v2"

	"zanteyard/definitions"
	"zanteyard/record"
)

// shadows are what somebody puts in front of the tables t and u after the proxy has looked at the catalog: views whose rows
// say that they are others, written by another transaction. A new schema makes the server look names up again.
const shadows = `DROP SCHEMA IF EXISTS early CASCADE; CREATE SCHEMA early;
CREATE VIEW early.t AS SELECT id, v, w, '77'::xid AS xmin, 'public.t'::regclass::oid AS tableoid FROM public.t WHERE id <> 3;
CREATE VIEW early.u AS SELECT a, b, v, '77'::xid AS xmin, 'public.u'::regclass::oid AS tableoid FROM public.u;
CREATE SCHEMA unused; DROP SCHEMA unused`

// TestAnotherRelation: nothing is reported of a statement that is run over another relation than the one that its plan was
// made for, however it is run: what it reads is left out, and counted.
func TestAnotherRelation(t *testing.T) {
	needServer(t)
	const one = "SELECT v FROM t WHERE id = 1"
	bind, execute := &pgproto3.Bind{PreparedStatement: "s"}, &pgproto3.Execute{}
	prepared := func(text string) step {
		return messages('Z', &pgproto3.Parse{Name: "s", Query: text}, &pgproto3.Sync{})
	}
	for name, x := range map[string]struct {
		first []step // once
		runs  []step
	}{
		"a text":    {runs: []step{query(one)}},
		"of two":    {runs: []step{query("SELECT x.v, y.v FROM t x JOIN u y ON y.v = x.id WHERE x.id = 1")}},
		"several":   {runs: []step{query("SELECT 1; " + one + "; SELECT v FROM u WHERE a = 1")}},
		"a deleted": {runs: []step{query("BEGIN"), query("DELETE FROM t WHERE id = 9 RETURNING v"), query("ROLLBACK")}},
		"unnamed":   {runs: []step{messages('Z', &pgproto3.Parse{Query: one}, &pgproto3.Bind{}, execute, &pgproto3.Sync{})}},
		"unnamed, and described": {runs: []step{messages('Z', &pgproto3.Parse{Query: one}, &pgproto3.Bind{}, &pgproto3.Describe{ObjectType: 'P'},
			execute, &pgproto3.Sync{})}},
		"prepared":                {first: []step{prepared(one)}, runs: []step{messages('Z', bind, execute, &pgproto3.Sync{})}},
		"prepared, and described": {first: []step{prepared(one)}, runs: []step{messages('Z', bind, &pgproto3.Describe{ObjectType: 'P'}, execute, &pgproto3.Sync{})}},
		"in pieces": {first: []step{prepared("SELECT v FROM t WHERE id < 9")}, runs: []step{messages('Z', bind, &pgproto3.Execute{MaxRows: 2}, &pgproto3.Execute{MaxRows: 2},
			execute, &pgproto3.Sync{})}},
		"an aggregate":      {runs: []step{query("SELECT sum(v) FROM t WHERE id < 9")}},
		"an aggregate, two": {runs: []step{query("SELECT sum(x.v) FROM t x JOIN u y ON y.v = x.id")}},
		"groups":            {runs: []step{query("SELECT a, sum(v) FROM u GROUP BY a ORDER BY a")}},
		"of a key":          {runs: []step{query("SELECT id, sum(v) FROM t WHERE id < 4 GROUP BY id ORDER BY id")}},
		"PREPARE":           {first: []step{query("PREPARE q AS " + one)}, runs: []step{query("EXECUTE q")}},
		"PREPARE of a sum":  {first: []step{query("PREPARE q AS SELECT sum(v) FROM t WHERE id < 9")}, runs: []step{query("EXECUTE q")}},
		"a cursor":          {runs: []step{query("BEGIN"), query("DECLARE c CURSOR FOR " + one), query("FETCH c"), query("COMMIT")}},
		"a cursor's portal": {first: []step{prepared("FETCH c")}, runs: []step{query("BEGIN"), query("DECLARE c CURSOR FOR " + one),
			messages('Z', bind, execute, &pgproto3.Sync{}), query("COMMIT")}},
	} {
		x := x
		t.Run(name, func(t *testing.T) {
			sql(t, fill)
			sql(t, "DROP SCHEMA IF EXISTS early CASCADE; CREATE SCHEMA early")
			d, err := definitions.Open(context.Background(), config(), time.Hour, func(string) {})
			if err != nil {
				t.Fatal(err)
			}
			p := through(t, "postgres", func(o *Options) { o.Plans, o.Generation, o.Shared = d, d.Generation, nil })
			p.query("SET search_path TO early, public")
			for _, step := range x.first {
				p.do(step)
			}
			reads := func() (all []record.Read) {
				for _, step := range x.runs {
					p.do(step)
				}
				p.settle()
				for _, it := range p.sink.take() {
					all = append(all, it.Reads...)
				}
				return all
			}
			until(t, "it is seen", func() bool { return len(reads()) > 0 })
			p.sink.forget()
			sql(t, shadows)
			if got := reads(); len(got) > 0 {
				t.Errorf("over a view it is told as %+v", got)
			}
			if !p.sink.left(map[bool]string{false: otherRelation}[name == "of a key"]) { // which the server refuses for a view
				t.Error("it isn't counted")
			}
		})
	}
}

// TestAnotherRelationsWrites: what a view says of a row that was written to it isn't taken for a transaction's number.
func TestAnotherRelationsWrites(t *testing.T) {
	needServer(t)
	for _, text := range []string{"UPDATE t SET v = v + 1 WHERE id = 1", "UPDATE t SET v = v + 1 WHERE id = 1 RETURNING v",
		"UPDATE t SET v = t.v + 1 FROM u WHERE id = 1 AND a = 1 AND b = 'b1' RETURNING w", "INSERT INTO t VALUES (100, 1, 'x')"} {
		sql(t, fill)
		sql(t, "DROP SCHEMA IF EXISTS early CASCADE; CREATE SCHEMA early")
		d, err := definitions.Open(context.Background(), config(), time.Hour, func(string) {})
		if err != nil {
			t.Fatal(err)
		}
		p := through(t, "postgres", func(o *Options) { o.Plans, o.Generation, o.Shared = d, d.Generation, nil })
		p.query("SET search_path TO early, public")
		do := func() (versions []uint32) {
			p.query("BEGIN")
			p.query("SAVEPOINT x")
			p.query(text)
			p.query("ROLLBACK")
			p.settle()
			for _, it := range p.sink.take() {
				versions = append(versions, it.Versions...)
			}
			return versions
		}
		do()
		do()
		if got := do(); len(got) != 1 {
			t.Errorf("%s: told with %v before", text, got)
		}
		sql(t, shadows)
		for _, one := range do() {
			if one == 77 {
				t.Errorf("%s: what the view says is taken for the transaction's number", text)
			}
		}
	}
}

// TestAbsentElsewhere: a row that a view, or another table of the name, doesn't have isn't reported as absent from the table.
func TestAbsentElsewhere(t *testing.T) {
	needServer(t)
	run := []step{messages('Z', &pgproto3.Bind{PreparedStatement: "s"}, &pgproto3.Execute{}, &pgproto3.Sync{})}
	for name, x := range map[string]struct {
		runs   []step
		shadow string
	}{
		"a view":                   {[]step{query("SELECT v FROM t WHERE id = 3")}, shadows},
		"another table":            {[]step{query("SELECT v FROM t WHERE id = 3")}, "CREATE TABLE early.t (id int PRIMARY KEY, v int, w text); CREATE SCHEMA unused; DROP SCHEMA unused"},
		"a view, by a statement":   {run, shadows},
		"another, by a statement":  {run, "CREATE TABLE early.t (id int PRIMARY KEY, v int, w text); CREATE SCHEMA unused; DROP SCHEMA unused"},
		"another, of another name": {run, "BEGIN; ALTER TABLE public.t RENAME TO kept; CREATE TABLE public.t (id int PRIMARY KEY, v int, w text); COMMIT"},
	} {
		x := x
		t.Run(name, func(t *testing.T) {
			sql(t, fill)
			sql(t, "DROP SCHEMA IF EXISTS early CASCADE; CREATE SCHEMA early")
			d, err := definitions.Open(context.Background(), config(), time.Hour, func(string) {})
			if err != nil {
				t.Fatal(err)
			}
			p := through(t, "postgres", func(o *Options) { o.Plans, o.Generation, o.Shared = d, d.Generation, nil })
			p.query("SET search_path TO early, public")
			p.do(messages('Z', &pgproto3.Parse{Name: "s", Query: "SELECT v FROM t WHERE id = 3"}, &pgproto3.Sync{}))
			absent := func() (n int) {
				p.query("BEGIN ISOLATION LEVEL REPEATABLE READ")
				for _, step := range x.runs {
					p.do(step)
				}
				p.query("COMMIT")
				p.settle()
				for _, it := range p.sink.take() {
					n += len(it.Absent)
				}
				return n
			}
			absent()
			absent()
			sql(t, "DELETE FROM t WHERE id = 3")
			if absent(); absent() != 1 {
				t.Fatal("nothing is seen before")
			}
			sql(t, "INSERT INTO t VALUES (3, 30, 'row 3')")
			sql(t, x.shadow)
			defer sql(t, "DO $$BEGIN IF EXISTS (SELECT FROM pg_class WHERE relname = 'kept') THEN DROP TABLE public.t; ALTER TABLE kept RENAME TO t; END IF; END$$")
			if n := absent(); n != 0 {
				t.Errorf("it is told as absent")
			}
		})
	}
}

// TestExecutedAgain: a portal that has returned its row, and is executed again, returns none. The row isn't taken for one
// that isn't there, and its SELECT is counted once.
func TestExecutedAgain(t *testing.T) {
	needServer(t)
	sql(t, fill)
	p := through(t, "postgres", nil)
	p.do(messages('Z', &pgproto3.Parse{Name: "s", Query: "SELECT v FROM t WHERE id = $1", ParameterOIDs: []uint32{23}}, &pgproto3.Sync{}))
	its := func(key string, execute ...pgproto3.FrontendMessage) record.Transaction {
		for tries := 0; ; tries++ {
			p.query("BEGIN ISOLATION LEVEL REPEATABLE READ")
			p.do(messages('Z', append(append([]pgproto3.FrontendMessage{&pgproto3.Bind{PreparedStatement: "s", Parameters: [][]byte{[]byte(key)}}},
				execute...), &pgproto3.Sync{})...))
			p.query("COMMIT")
			p.settle()
			if all := p.sink.take(); len(all) == 1 && len(all[0].Reads)+len(all[0].Absent) > 0 {
				return all[0]
			} else if tries > 20 {
				t.Fatalf("told as %+v", all)
			}
		}
	}
	one, all := &pgproto3.Execute{MaxRows: 1}, &pgproto3.Execute{}
	for _, execute := range [][]pgproto3.FrontendMessage{{one, one}, {one, one, one}, {all, all}, {one, all}} {
		if it := its("1", execute...); len(it.Reads) != 1 || len(it.Absent) != 0 || len(it.Did.Selects) != 1 {
			t.Errorf("%+v: told as %+v", execute, it)
		}
	}
	if it := its("1000", one, one); len(it.Reads) != 0 || len(it.Absent) != 1 {
		t.Errorf("a row that isn't there: told as %+v", it)
	}
}
