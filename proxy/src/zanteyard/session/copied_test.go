package session

import (
	"fmt"
	"testing"

	"github.com/jackc/pgproto3/v2"

	"zanteyard/catalog"
	"zanteyard/plan"
	"zanteyard/record"
)

// TestAskedOnceMore runs statements that merge rows and are asked for these once more: what is answered is the same, and what
// was read is told, or why it isn't.
func TestAskedOnceMore(t *testing.T) {
	needServer(t)
	alone(t)
	sql(t, fill)
	sql(t, listing)
	sql(t, `DROP TABLE IF EXISTS measured; CREATE TABLE measured (id int PRIMARY KEY, g int, f float8, s text);
		INSERT INTO measured SELECT i, i % 5, 1.0 / i, 's' || i % 3 FROM generate_series(1, 60) i; CREATE INDEX ON measured (g)`)
	sql(t, "VACUUM ANALYZE listed, measured")
	listedAs(t, knowing(t, catalog.OnlyCertainLists), []listedCase{
		{"SELECT sum(f) FROM measured", 60, ""},
		{"SELECT DISTINCT s, g FROM measured WHERE g < 3", 36, ""},
		{"SELECT g, sum(f), array_agg(id) FROM measured WHERE s <> 's1' GROUP BY g HAVING sum(f) > 0.1", 40, ""},
		{"SELECT DISTINCT t.*, m.s FROM t JOIN measured m ON m.id = t.id", 40, ""},
		{"SELECT DISTINCT m.g, t.v FROM measured m LEFT JOIN t ON t.id = m.id AND t.v > 100", 70, ""},
		{"SELECT DISTINCT s FROM measured WHERE g IN (SELECT a FROM u WHERE b > 'b3') AND id < 20", 15, "a subquery"},
		{"SELECT DISTINCT s FROM measured WHERE id > 1000", 0, ""},
		{"SELECT g FROM measured WHERE id < 4 UNION SELECT v FROM t WHERE id < 3", 5, ""},
		{"SELECT s FROM measured WHERE id < 30 INTERSECT ALL (SELECT s FROM measured WHERE id > 20) ORDER BY s", 60, ""},
		{"SELECT g FROM measured EXCEPT SELECT a FROM u ORDER BY g DESC", 72, ""},
		{"SELECT g, count(*) FROM measured GROUP BY g UNION ALL SELECT 7, 8 ORDER BY 1", 60, ""},
		{"SELECT g FROM measured WHERE id > 1000 UNION SELECT v FROM t WHERE id > 1000", 0, ""},
		{"SELECT g FROM listed WHERE id < 300 UNION SELECT v FROM t", 20, tooManyRows},
		{"SELECT DISTINCT g FROM measured UNION ALL SELECT v FROM t WHERE id < 3", 0, "UNION, INTERSECT or EXCEPT"},
		{"SELECT string_agg(s, ',') FROM measured WHERE id > 1000", 0, ""},
		{"SELECT DISTINCT g FROM listed WHERE id < 300", 0, tooManyRows},
		{"SELECT DISTINCT g, x FROM listed WHERE id < 15000", 0, plan.Dear},
		{"SELECT DISTINCT s FROM measured LIMIT 2", 0, "DISTINCT"},
		{"SELECT DISTINCT s FROM measured WHERE 1 / f > 3", 0, "DISTINCT"},
	})
}

// TestCopiedRows: each row of a statement that lists all it has read with its first row is in one place, and its reads count
// only if the client has taken all rows.
func TestCopiedRows(t *testing.T) {
	needServer(t)
	alone(t)
	sql(t, fill)
	const text = "SELECT DISTINCT w FROM t WHERE id <= 5"
	some := func(most uint32) pgproto3.FrontendMessage { return &pgproto3.Execute{Portal: "c", MaxRows: most} }
	open := []pgproto3.FrontendMessage{&pgproto3.Parse{Query: text}, &pgproto3.Bind{DestinationPortal: "c", ResultFormatCodes: []int16{1}}}
	steps := func(more ...pgproto3.FrontendMessage) step {
		return messages('Z', append(append(open, more...), &pgproto3.Sync{})...)
	}
	for _, x := range []struct {
		name        string
		steps       []step
		reads, sees int // and SELECTs of which all was seen
		left        string
		rows        uint64
	}{
		{"by itself", []step{query(text)}, 5, 1, "", 5},
		{"in a block, twice", queries("BEGIN", text, text, "COMMIT"), 5, 2, "", 10},
		{"with another", []step{query(text + "; SELECT v FROM t WHERE id = 9; " + text)}, 6, 3, "", 11},
		{"after its own write", queries("BEGIN", "UPDATE t SET v = 0 WHERE id = 3", text, "COMMIT"), 5, 1, "", 5},
		{"in the extended protocol", []step{extended(text, nil)}, 5, 1, "", 5},
		{"in binary", []step{extended(text, []int16{1})}, 5, 1, "", 5},
		{"with a limit that is enough", []step{steps(some(6))}, 5, 1, "", 5},
		{"a part of them", []step{query("BEGIN"), steps(some(2)), query("COMMIT")}, 0, 0, notAll, 2},
		{"part by part", []step{query("BEGIN"), steps(some(2), some(2), some(2)), query("COMMIT")}, 0, 0, notAll, 5},
		{"of which one fails", queries("BEGIN", text, "SELECT 1 / 0", "ROLLBACK"), 5, 1, "", 5},
	} {
		t.Run(x.name, func(t *testing.T) {
			plain, p := direct(t, "postgres"), through(t, "postgres", knowing(t, catalog.OnlyCertainLists))
			p.warm(text, "SELECT v FROM t WHERE id = 9", "UPDATE t SET v = 0 WHERE id = 3")
			for i := 0; i < 3; i++ { // its plans are compared after its first run
				p.query(text)
				p.settle()
			}
			p.sink.take()
			got, want := "", ""
			for _, one := range x.steps {
				got += show(p.do(one))
			}
			p.settle()
			for _, one := range x.steps {
				want += show(plain.do(one))
			}
			if got != want {
				t.Fatalf("got\n%s\nand not\n%s", got, want)
			}
			reads, selects, rows, did := 0, uint64(0), uint64(0), []record.Left(nil)
			for _, it := range p.sink.take() {
				_, _, its := it.Did.Sum(len(it.Reads))
				for _, one := range it.Statements {
					if one.Text == text && x.sees == 1 && one.To-one.From != 5 {
						t.Errorf("%d reads are noted with the statement", one.To-one.From)
					}
				}
				reads, selects, rows, did = reads+len(it.Reads), selects+uint64(len(it.Did.Selects)), rows+its, append(did, it.Did.Left...)
			}
			left := ""
			for _, one := range did {
				left = one.Reason
			}
			if reads != x.reads || selects != uint64(x.sees) || left != x.left || rows != x.rows {
				t.Errorf("%d reads, %d SELECTs and %d rows are told; left out: %+v", reads, selects, rows, did)
			}
		})
	}
}

// TestLocksNoMore: at serializable a statement locks through the proxy what it locks by itself, also one of which rows would
// be asked for once more, or looked up. These are then left out, and counted.
func TestLocksNoMore(t *testing.T) {
	needServer(t)
	alone(t)
	sql(t, fill)
	sql(t, `DROP TABLE IF EXISTS wide; CREATE TABLE wide (id int PRIMARY KEY, x int, y text);
		INSERT INTO wide SELECT i, i % 5000, repeat('y', 40) FROM generate_series(1, 5000) i; CREATE INDEX by_x ON wide (x);
		DROP TABLE IF EXISTS linking; CREATE TABLE linking (a int PRIMARY KEY, b int);
		INSERT INTO linking SELECT i * 2, i % 1000 FROM generate_series(1, 20000) i; CREATE INDEX by_b ON linking (b, a)`)
	sql(t, "VACUUM ANALYZE wide, linking")
	const locked = `SELECT string_agg(concat_ws(' ', locktype, relation::regclass, page, tuple), ', ' ORDER BY locktype,
		relation::regclass::text, page, tuple) FROM pg_locks WHERE mode = 'SIReadLock' AND pid = pg_backend_pid()`
	plain, p := direct(t, "postgres"), through(t, "postgres", knowing(t, catalog.OnlyCertainLists))
	for _, x := range []struct {
		text string // with %d
		wide []int  // constants: the first is tried
		told int    // reads of the first one below serializable
	}{
		{"SELECT x, count(*) FROM wide WHERE x > %d GROUP BY x ORDER BY count(*) DESC", []int{4990, 2500, 2300}, 9},
		{"SELECT a FROM linking WHERE b = %d AND a < 40001", []int{5, 6}, 20},
	} {
		first := fmt.Sprintf(x.text, x.wide[0])
		for i := 0; i < 4; i++ {
			p.warm(first)
			p.settle()
		}
		p.sink.take()
		p.query(first)
		p.settle()
		if got := p.sink.take(); len(got) != 1 || len(got[0].Reads) != x.told {
			t.Fatalf("%s: %+v", first, got)
		}
		for _, constant := range x.wide {
			text := fmt.Sprintf(x.text, constant)
			steps := queries("BEGIN ISOLATION LEVEL SERIALIZABLE", text, locked, "COMMIT")
			got, want := "", ""
			for _, one := range steps {
				want += show(plain.do(one))
			}
			for _, one := range steps {
				got += show(p.do(one))
			}
			p.settle()
			if got != want {
				t.Errorf("%s: got\n%s\nand not\n%s", text, got, want)
			}
			for _, it := range p.sink.take() {
				if len(it.Reads) > 0 || len(it.Did.Left) != 1 || it.Did.Left[0].Reason != atSerializable {
					t.Errorf("%s: %d reads are told, and %+v", text, len(it.Reads), it.Did)
				}
			}
		}
	}
}
