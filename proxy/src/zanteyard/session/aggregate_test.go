package session

import (
	"context"
	"fmt"
	"testing"
	"time"

	"zanteyard/catalog"
	"zanteyard/definitions"
	"zanteyard/plan"
)

// listing has tables whose rows an index may have, or too many of them, or with long keys.
const listing = `
DROP TABLE IF EXISTS listed, spelled CASCADE;
CREATE TABLE listed (id int PRIMARY KEY, g int, h int, x int);
INSERT INTO listed SELECT i, i / 10, i * 7919 % 2000, i FROM generate_series(1, 20000) i;
CREATE INDEX ON listed (g); CREATE INDEX ON listed (h);
CREATE TABLE spelled (name text PRIMARY KEY, x int);
INSERT INTO spelled SELECT i || repeat('x', 100 * (i % 2)), i FROM generate_series(1, 20) i;
INSERT INTO spelled VALUES (repeat('y', 129), 100), (repeat('z', 128), 200);
`

// knowing makes sessions know the definitions as they are now.
func knowing(t *testing.T, options ...catalog.Option) func(*Options) {
	t.Helper()
	d, err := definitions.Open(context.Background(), config(), time.Hour, func(string) {}, options...)
	if err != nil {
		t.Fatal(err)
	}
	return func(o *Options) { o.Plans, o.Generation, o.Shared = d, d.Generation, nil }
}

// TestListed runs aggregates, and statements that an index may answer alone: what is answered is the same, and what was
// read is told, or why it isn't.
func TestListed(t *testing.T) {
	needServer(t)
	sql(t, fill)
	sql(t, listing)
	sql(t, "VACUUM ANALYZE listed")
	listedAs(t, knowing(t), []listedCase{
		{"SELECT count(*), sum(x) FROM listed WHERE g = 5", 10, ""},
		{"SELECT count(*) FROM listed WHERE g = 5", 10, ""},
		{"SELECT sum(x), max(x) FROM listed WHERE g = 5 HAVING count(*) > 3", 10, ""},
		{"SELECT count(*) FROM listed WHERE h = 5", 10, ""},
		{"SELECT count(*) FROM listed WHERE g BETWEEN 5 AND 29 AND h > 0", 250, ""},
		{"SELECT count(*) FROM listed WHERE id < 300", 0, tooManyRows},
		{"SELECT count(*), sum(x) FROM listed", 0, plan.Dear},
		{"SELECT count(*) FROM listed", 0, tooManyRows},
		{"SELECT max(id) FROM listed", 0, "MIN or MAX"},
		{"SELECT max(x) FROM listed WHERE g = 5", 10, ""},
		{"SELECT array_agg(x) FROM listed WHERE g = 5", 10, ""},
		{"SELECT 1 AS one FROM listed WHERE g = 5 LIMIT 1", 1, ""},
		{"SELECT g FROM listed WHERE g = 5", 10, ""},
		{"SELECT h FROM listed WHERE h = 5", 0, plan.Reordered}, // by a bitmap, which has the pages' order
		{"SELECT h FROM listed WHERE h BETWEEN 5 AND 50", 0, plan.Reordered},
		{"SELECT 1 AS one FROM listed WHERE h = 5", 10, ""},
		{"SELECT id FROM listed ORDER BY id LIMIT 3", 3, ""},
		{"SELECT h FROM listed WHERE h > 3 ORDER BY h", 0, plan.ByIndex},
		{"SELECT count(*), min(x) FROM spelled WHERE x < 10", 9, ""},
		{"SELECT count(*), min(x) FROM spelled WHERE x > 10 AND x <> 100", 11, ""},
		{"SELECT count(*), min(x) FROM spelled WHERE x > 18", 3, tooManyRows},
		{"SELECT g, count(*) FROM listed WHERE id BETWEEN 5 AND 34 GROUP BY g ORDER BY g", 30, ""},
		{"SELECT g, count(*) FROM listed WHERE id BETWEEN 5 AND 34 GROUP BY g HAVING count(*) > 5 ORDER BY g DESC", 20, ""},
		{"SELECT g, sum(x) FROM listed WHERE h = 5 GROUP BY g ORDER BY g", 10, ""},
		{"SELECT h, count(*), max(g) FROM listed WHERE x < 50 GROUP BY h ORDER BY h", 49, ""},
		{"SELECT g, count(*) FROM listed WHERE id < 50 GROUP BY g", 49, ""},
		{"SELECT g, count(*) FROM listed GROUP BY g ORDER BY g", 0, plan.ByIndex},
		{"SELECT g, sum(x) FROM listed GROUP BY g ORDER BY g", 0, plan.Dear},
		{"SELECT count(t.v), sum(u.v) FROM t LEFT JOIN u ON u.a = t.id AND u.b <> 'b1' WHERE t.id < 3", 7, ""},
		{"SELECT count(*), sum(v) FROM t WHERE id = 5", 1, ""},
	})
}

// listedCase is a statement, and what is told of it.
type listedCase struct {
	text  string
	reads int
	why   string // "" if all is seen
}

func listedAs(t *testing.T, known func(*Options), cases []listedCase) {
	plain := direct(t, "postgres")
	for _, x := range cases {
		t.Run(x.text, func(t *testing.T) {
			want := show(plain.do(query(x.text)))
			p := through(t, "postgres", known)
			until(t, "it was tried", func() bool {
				p.sink.take()
				p.sink.forget()
				if got := show(p.do(query(x.text))); got != want {
					t.Fatalf("got\n%s\nand not\n%s", got, want)
				}
				p.settle()
				return !p.sink.left("not tried") && !p.sink.left("what names refer to")
			})
			reads := 0
			for _, it := range p.sink.take() {
				reads += len(it.Reads)
			}
			if reads != x.reads || x.why == "" && len(p.sink.unseen) > 0 || x.why != "" && !p.sink.left(x.why) {
				t.Errorf("%d reads are told, left out: %q", reads, p.sink.unseen)
			}
		})
	}
}

// TestListedForCertain: what isn't an option is seen of aggregates, and of what an index may answer alone, where the answer
// is the same whatever plan the server chooses.
func TestListedForCertain(t *testing.T) {
	needServer(t)
	sql(t, fill)
	sql(t, listing)
	sql(t, `DROP FUNCTION IF EXISTS noted(int);
		DROP TABLE IF EXISTS exact; CREATE TABLE exact (id int PRIMARY KEY, n numeric);
		INSERT INTO exact VALUES (1, 1.0), (2, 1.00), (3, 2);
		CREATE OR REPLACE FUNCTION called(listed) RETURNS int IMMUTABLE LANGUAGE sql AS 'SELECT 1';
		CREATE FUNCTION noted(int) RETURNS boolean IMMUTABLE LANGUAGE plpgsql AS 'BEGIN RAISE NOTICE ''%'', $1; RETURN true; END'`)
	sql(t, "VACUUM ANALYZE listed")
	listedAs(t, knowing(t, catalog.OnlyCertainLists), []listedCase{
		{"SELECT count(*), sum(x) FROM listed WHERE g = 5", 10, ""},
		{"SELECT count(*) FROM listed WHERE h = 5", 10, ""},
		{"SELECT COALESCE(sum(x), 0) + 1, avg(x) FROM listed WHERE g = 5 HAVING count(DISTINCT h) > 3", 10, ""},
		{"SELECT sum(x) FROM listed WHERE g = 5 AND (x IN (51, 52) OR x BETWEEN 53 AND 70) AND h IS NOT NULL", 9, ""},
		{"SELECT count(*) FROM listed WHERE g = 5 AND EXISTS (SELECT FROM t WHERE t.id = listed.h) IS NOT TRUE", 10, "a subquery"},
		{"SELECT sum(x) FROM listed WHERE g = 5 AND abs(x) > 3", 0, "an aggregate"},
		{"SELECT sum(x) FROM listed WHERE g = 5 AND 100 / x > 1", 0, "an aggregate"},
		{"SELECT sum(x) FROM listed WHERE g = 5 AND h::text::int > 1", 0, "an aggregate"},
		{"SELECT sum(x) FROM listed WHERE g = 5 AND h > (SELECT max(u.v) FROM u WHERE u.a = h)", 0, "an aggregate"},
		{"SELECT count(l.id) FROM listed l JOIN t ON t.id = 100 / l.h WHERE l.g = 5", 0, "an aggregate"},
		{"SELECT sum(x) FROM listed WHERE g = 5 AND random() >= 0", 0, "an aggregate"},
		{"SELECT sum(x) FROM listed WHERE g = 5 AND noted(x)", 0, "an aggregate"},
		{"SELECT array_agg(x) FROM listed WHERE g = 5", 10, ""},
		{"SELECT sum(DISTINCT n) FROM exact", 3, ""},
		{"SELECT sum(n) FROM exact", 3, ""},
		{"SELECT sum(listed.called) FROM listed WHERE g = 5", 0, "an aggregate"},
		{"SELECT id, row_number() OVER () FROM listed WHERE id < 4 ORDER BY id", 0, plan.ByIndex},
		{"SELECT sum(x::float8) FROM listed WHERE g = 5", 10, ""},
		{"SELECT round(avg(x), 2) FROM listed WHERE g = 5", 10, ""},
		{"SELECT count(*) FROM listed WHERE id < 300", 0, tooManyRows},
		{"SELECT count(*), sum(x) FROM listed", 0, plan.Dear},
		{"SELECT g, count(*) FROM listed WHERE id BETWEEN 5 AND 34 GROUP BY g ORDER BY g", 30, ""},
		{"SELECT g, sum(x) FROM listed WHERE h = 5 GROUP BY g HAVING count(*) > 0 ORDER BY g DESC", 10, ""},
		{"SELECT g, count(*) FROM listed WHERE id BETWEEN 5 AND 34 GROUP BY g", 30, ""},
		{"SELECT g, count(*) FROM listed WHERE id BETWEEN 5 AND 34 GROUP BY g ORDER BY g LIMIT 2", 0, "GROUP BY"},
		{"SELECT g, count(*) FROM listed WHERE h = 5 AND x / id = 1 GROUP BY g ORDER BY g", 0, "GROUP BY"},
		{"SELECT g, sum(x) / count(*) FROM listed WHERE h = 5 GROUP BY g ORDER BY g", 10, ""},
		{"SELECT g, array_agg(x) FROM listed WHERE h = 5 GROUP BY g ORDER BY g", 10, ""},
		{"SELECT DISTINCT h FROM listed WHERE g = 5 ORDER BY h", 10, ""},
		{"SELECT DISTINCT g FROM listed WHERE id BETWEEN 5 AND 34 ORDER BY g", 30, ""},
		{"SELECT DISTINCT g FROM listed WHERE id BETWEEN 5 AND 34", 30, ""},
		{"SELECT DISTINCT g FROM listed WHERE id BETWEEN 5 AND 34 ORDER BY g LIMIT 2", 0, "DISTINCT"},
		{"SELECT DISTINCT h FROM listed WHERE id < 300 ORDER BY h", 0, tooManyRows},
		{"SELECT DISTINCT g FROM listed ORDER BY g", 0, plan.ByIndex},
		{"SELECT DISTINCT x FROM listed ORDER BY x", 0, plan.Dear},
		{"SELECT max(x) FROM listed WHERE g = 5", 10, ""},
		{"SELECT 1 AS one FROM listed WHERE g = 5 LIMIT 1", 1, ""},
		{"SELECT 1 AS one FROM listed WHERE h = 5", 10, ""},
		{"SELECT h FROM listed WHERE h BETWEEN 5 AND 9", 0, plan.ByIndex},
		{"SELECT id FROM listed ORDER BY id LIMIT 3", 3, ""},
		{"SELECT id AS n FROM listed ORDER BY listed.id LIMIT 3", 3, ""},
		{"SELECT id AS n, h AS id FROM listed ORDER BY id LIMIT 3", 3, ""},
		{"SELECT 5 AS id FROM listed ORDER BY listed.id LIMIT 3", 3, ""},
		{"SELECT id::text FROM listed ORDER BY listed.id LIMIT 3", 3, ""},
		{"SELECT h FROM listed WHERE h = 5", 0, plan.ByIndex},
		{"SELECT count(t.v), sum(u.v) FROM t LEFT JOIN u ON u.a = t.id AND u.b <> 'b1' WHERE t.id < 3", 7, ""},
	})
}

// TestAsByTheirOwnPlan: with other constants than those of the trial the server may read a table in place of an index, by a
// scan that meets other rows, or by a bitmap, in another order; of two tables it may hash the other one, since rows are wider.
// What a statement answers is the same nevertheless.
func TestAsByTheirOwnPlan(t *testing.T) {
	needServer(t)
	sql(t, `DROP TABLE IF EXISTS lines, facts, named, numbered;
		CREATE TABLE named (k text PRIMARY KEY, g int, x int); CREATE TABLE numbered (k int PRIMARY KEY, g int, y int);
		INSERT INTO named SELECT repeat('k', 58) || i, i::bigint * 7919 % 100000, i FROM generate_series(100001, 180000) i;
		INSERT INTO numbered SELECT i, i::bigint * 104729 % 100000, i FROM generate_series(1, 95000) i;
		CREATE TABLE lines (id int PRIMARY KEY, customer int, note text);
		INSERT INTO lines SELECT i, i % 20000, 'n' FROM generate_series(1, 100000) i ORDER BY i * 7919 % 100003;
		CREATE INDEX ON lines (customer, id);
		CREATE TABLE facts (id int PRIMARY KEY, kind int NOT NULL, val text NOT NULL, pad text NOT NULL);
		INSERT INTO facts SELECT i, k, CASE WHEN k <> 100 THEN (i % 37)::text ELSE 'none' END, repeat('p', 150) FROM (
			SELECT i, CASE WHEN i % 10 < 8 THEN 1 + i % 8 WHEN i % 10000 = 8 THEN 11 + i / 10000 ELSE 100 END AS k
			FROM generate_series(1, 50000) i) s;
		CREATE INDEX ON facts (kind, val)`)
	sql(t, "VACUUM ANALYZE lines, facts, named, numbered")
	plain, p := direct(t, "postgres"), through(t, "postgres", knowing(t, catalog.OnlyCertainLists))
	for _, statements := range [][2]string{
		{"SELECT id FROM lines WHERE customer = 78", "SELECT id FROM lines WHERE customer = 5123"},
		{"SELECT id FROM lines WHERE customer = 78 LIMIT 2", "SELECT id FROM lines WHERE customer = 5123 LIMIT 2"},
		{"SELECT count(*) FROM facts WHERE kind IN (11) AND val::int > 5",
			"SELECT count(*) FROM facts WHERE kind IN (1, 2, 3, 4, 5, 6, 7, 8) AND val::int > 5"},
		{"SELECT named.x, numbered.y FROM named JOIN numbered ON named.g = numbered.g",
			"SELECT named.x, numbered.y FROM named JOIN numbered ON named.g = numbered.g"}, // the other one is hashed
		{"SELECT 1 FROM facts WHERE kind IN (11) AND val::int > 5",
			"SELECT 1 FROM facts WHERE kind IN (1, 2, 3, 4, 5, 6, 7, 8) AND val::int > 5 OFFSET 20000"},
	} {
		p.warm(statements[0], statements[0])
		for i := 0; i < 3; i++ {
			p.query(statements[0])
			p.settle()
		}
		for _, text := range statements {
			if got, want := show(p.do(query(text))), show(plain.do(query(text))); got != want {
				t.Errorf("%s: got\n%.300s\nand not\n%.300s", text, got, want)
			}
		}
	}
}

// TestDistinctOfRanges runs a statement of sysbench's, prepared, with other constants each time.
func TestDistinctOfRanges(t *testing.T) {
	needServer(t)
	sql(t, `DROP TABLE IF EXISTS ranges; CREATE TABLE ranges (id int PRIMARY KEY, k int, c char(120), pad char(60));
		INSERT INTO ranges SELECT i, i, i % 80 || '-' || i % 7, 'p' FROM generate_series(1, 2000) i`)
	sql(t, "VACUUM ANALYZE ranges")
	plain, p := direct(t, "postgres"), through(t, "postgres", knowing(t, catalog.OnlyCertainLists))
	statement := named("d", "SELECT DISTINCT c FROM ranges WHERE id BETWEEN $1 AND $2 ORDER BY c")
	plain.do(statement)
	p.do(statement)
	run := func(from, to string, format int16) (reads int) {
		p.sink.take()
		p.sink.forget()
		its := bound("d", []int16{format}, from, to)
		if got, want := show(p.do(its)), show(plain.do(its)); got != want {
			t.Fatalf("from %s to %s: got\n%s\nand not\n%s", from, to, got, want)
		}
		p.settle()
		for _, one := range p.sink.take() {
			reads += len(one.Reads)
		}
		return reads
	}
	until(t, "it was tried", func() bool {
		run("101", "200", 0)
		return !p.sink.left("not tried") && !p.sink.left("what names refer to")
	})
	for i, x := range []struct {
		from, to string
		reads    int
	}{
		{"101", "200", 100}, {"7", "7", 1}, {"1801", "2100", 200}, {"5", "4", 0}, {"1", "256", 256}, {"1", "257", 0},
	} {
		if got := run(x.from, x.to, int16(i%2)); got != x.reads {
			t.Errorf("from %s to %s %d reads are told, and not %d: %q", x.from, x.to, got, x.reads, p.sink.unseen)
		}
	}
}

// TestRests: an aggregate of many rows by a condition of which the server expected few is left as it is for a while, on
// all connections.
func TestRests(t *testing.T) {
	needServer(t)
	sql(t, listing)
	sql(t, "VACUUM ANALYZE listed")
	sql(t, "UPDATE listed SET g = 777 WHERE id < 2000")
	known := knowing(t)
	p := through(t, "postgres", known)
	text := func(g int) string {
		return fmt.Sprintf("SELECT count(*), sum(x) FROM listed WHERE g = %d AND x > 0", g)
	}
	p.warm(text(1900), text(1900))
	p.sink.forget()
	p.query(text(1901))
	p.settle()
	if its := p.sink.take(); len(its) != 1 || len(its[0].Reads) != 10 {
		t.Fatalf("told is %+v, left out %q", its, p.sink.unseen)
	}
	p.query(text(777))
	p.settle()
	if its := p.sink.take(); len(its) != 1 || len(its[0].Reads) != 0 || !p.sink.left(tooManyRows) {
		t.Fatalf("told is %+v, left out %q", its, p.sink.unseen)
	}
	sql(t, "UPDATE listed SET h = id / 10 WHERE id < 2000") // groups of ten rows
	groups := "SELECT h, count(*) FROM listed WHERE g = 777 AND x > 0 GROUP BY h ORDER BY h"
	for i := 0; i < 20 && !p.sink.left(ManyRows); i++ {
		p.query(groups)
		p.settle()
	}
	if !p.sink.left(ManyRows) {
		t.Errorf("many groups of few rows aren't left as they are: %q", p.sink.unseen)
	}
	other := through(t, "postgres", known)
	for _, its := range []*proxied{p, other} {
		its.sink.forget()
		for i := 0; i < 10 && !its.sink.left(ManyRows); i++ { // at first it is tried
			its.query(text(1901))
			its.settle()
		}
		if !its.sink.left(ManyRows) {
			t.Errorf("it isn't left as it is: %q", its.sink.unseen)
		}
	}
}
