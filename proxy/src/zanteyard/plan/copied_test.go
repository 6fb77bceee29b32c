package plan

import (
	"fmt"
	"strings"
	"testing"

	"zanteyard/catalog"
)

// TestCopied: what a statement merges is listed by asking once more; its rows, and their order, are those that it has by
// itself.
func TestCopied(t *testing.T) {
	connection := connect(t, "copied", schema+`
CREATE TABLE log (id int PRIMARY KEY, v int, f float8, s text COLLATE "C", j json);
CREATE VIEW t2 AS SELECT * FROM t;
INSERT INTO log SELECT i, i % 7, i / 3.0, 's' || i % 5 FROM generate_series(1, 200) i;
ANALYZE`)
	known := load(t, connection, catalog.OnlyCertainLists)
	cache := NewCache(known)
	for _, c := range []struct {
		text   string
		copied bool
		unseen string
	}{
		{"SELECT DISTINCT v FROM log", true, ""},
		{"SELECT DISTINCT s, v FROM log WHERE id > 10 OR s IS NULL -- end", true, ""},
		{"SELECT sum(f), avg(f), array_agg(id), string_agg(s, ',') FROM log", true, ""},
		{"SELECT v, sum(f), json_agg(s) AS from FROM log WHERE v IN (1, 2, 3) GROUP BY v;", true, ""},
		{"SELECT v AS w, count(*), 'x', NULL, v, $1::int FROM log WHERE v > $1 GROUP BY 1 HAVING count(*) > 2 ORDER BY count(*), 1", true, ""},
		{"SELECT v, s, count(*) FROM log GROUP BY ROLLUP (v, s)", false, "GROUP BY"},
		{"SELECT v, array_agg(id) FROM log GROUP BY v HAVING count(*) > 2 AND max(f) < 99", true, ""},
		// Conditions of HAVING that the server tries on each row.
		{"SELECT v, array_agg(id) FROM log GROUP BY v HAVING v = 3", false, "GROUP BY"},
		{"SELECT v, array_agg(id) FROM log GROUP BY v HAVING count(*) > 2 AND v = 3", false, "GROUP BY"},
		{"SELECT v, array_agg(id) FROM log GROUP BY v HAVING NOT (v = 3 OR count(*) > 99)", false, "GROUP BY"},
		{"SELECT v, array_agg(id) FROM log GROUP BY v HAVING v BETWEEN 1 AND count(*)", false, "GROUP BY"},
		{"SELECT v, array_agg(id) FROM log GROUP BY v HAVING (v, count(*)) = (3, 29)", false, "GROUP BY"},
		{"SELECT v, array_agg(id) FROM log GROUP BY v HAVING $1", false, "GROUP BY"},
		{"SELECT v, array_agg(id) FROM log GROUP BY v HAVING false", false, "GROUP BY"},
		{"SELECT DISTINCT l.v, t.s FROM log l JOIN t ON t.id = l.v LEFT JOIN u ON u.t = t.id AND u.w = 'w' WHERE u.id IS NULL", true, ""},
		{"SELECT DISTINCT l.v FROM log l, bare b", true, "no primary key"},
		{"SELECT DISTINCT l.v FROM log l LEFT JOIN t ON t.id = l.v", true, "a join that the server may skip"},
		{"SELECT DISTINCT v FROM log WHERE EXISTS (SELECT 1 FROM t WHERE t.id = log.v)", true, "a subquery"},
		{"SELECT DISTINCT v FROM log WHERE id NOT IN (SELECT DISTINCT t FROM u WHERE w IN ('w1', 'w2'))", true, "a subquery"},
		{"SELECT DISTINCT v, row_number() OVER (ORDER BY id) FROM log", true, ""},
		{"SELECT max(f), min(s) FROM log WHERE v = 3", true, ""},
		{"SELECT bool_or(v > 3), max(f) FROM log WHERE id BETWEEN 1 AND 50", true, ""},
		{"SELECT DISTINCT generate_series(1, v) FROM log WHERE id < 10", true, ""},
		{"SELECT DISTINCT v FROM parts WHERE at > 3", true, ""},
		{"SELECT DISTINCT v, id * 0 FROM t GROUP BY v, id", true, ""},
		{`SELECT DISTINCT "a b" FROM "Über ""x"""`, true, ""},
		// Parts of which each is asked for.
		{"SELECT v FROM log UNION SELECT id FROM t", true, ""},
		{"(SELECT v, s FROM log WHERE id > 10) INTERSECT (SELECT v, s FROM log WHERE id < 100 ORDER BY s) ORDER BY 2, 1", true, ""},
		{"SELECT v FROM log EXCEPT ALL SELECT t FROM u WHERE w = 'w1' ORDER BY v", true, ""},
		{"SELECT v, count(*) FROM log GROUP BY v UNION SELECT id, v FROM t WHERE id IN (SELECT t FROM u) UNION SELECT 1, 2", true, "a subquery"},
		{"SELECT v FROM log WHERE s = $1 UNION (SELECT id FROM t EXCEPT SELECT t FROM u WHERE w <> $1) ORDER BY 1 DESC", true, ""},
		{"SELECT DISTINCT v FROM log UNION ALL SELECT v FROM t ORDER BY v", true, ""},
		{"SELECT l.v, t.s FROM log l JOIN t ON t.id = l.v UNION SELECT t.v, u.w FROM t LEFT JOIN u ON u.t = t.id AND u.w = 'w'", true, ""},
		{"SELECT v FROM log UNION SELECT v FROM bare", false, "UNION, INTERSECT or EXCEPT"},
		{"SELECT v FROM log UNION SELECT t.v FROM bare, t", true, "no primary key"},
		{"SELECT v AS x, NULL, 'é' FROM log UNION SELECT u.id, w, 'x' FROM u, t WHERE t.id = u.t", true, ""},
		{"SELECT v FROM bare UNION SELECT 1", false, "UNION, INTERSECT or EXCEPT"},
		{"SELECT 1 UNION SELECT 2", false, ""},
		{"SELECT v FROM log UNION SELECT max(id) FROM t", false, "UNION, INTERSECT or EXCEPT"},
		{"SELECT v FROM log UNION SELECT id FROM t LIMIT 3", false, "UNION, INTERSECT or EXCEPT"},
		{"SELECT v FROM log UNION (SELECT id FROM t LIMIT 3)", false, "UNION, INTERSECT or EXCEPT"},
		{"SELECT v FROM log UNION VALUES (1), (2)", false, "UNION, INTERSECT or EXCEPT"},
		{"SELECT v FROM log UNION SELECT v FROM secured", false, "UNION, INTERSECT or EXCEPT"},
		{"SELECT v FROM log UNION SELECT v FROM t2", false, "UNION, INTERSECT or EXCEPT"},
		{"SELECT v FROM log WHERE 10 / id > 1 UNION SELECT v FROM t", false, "UNION, INTERSECT or EXCEPT"},
		{"SELECT v FROM log UNION SELECT bump(v) FROM t", false, "what a function reads; UNION, INTERSECT or EXCEPT"},
		{"WITH x AS (SELECT 1) SELECT v FROM log UNION SELECT v FROM t", false, "UNION, INTERSECT or EXCEPT"},
		{"SELECT v FROM log UNION SELECT v FROM t FOR UPDATE", false, "UNION, INTERSECT or EXCEPT"},
		{"DECLARE c CURSOR FOR SELECT v FROM log UNION SELECT v FROM t", false, ""},
		// Conditions that may be an error for a row that the statement's own plan doesn't meet.
		{"SELECT DISTINCT v FROM log WHERE 10 / id > 1", false, "DISTINCT"},
		{"SELECT DISTINCT v FROM log WHERE s::int > 1", false, "DISTINCT"},
		{"SELECT DISTINCT v FROM log WHERE f > 1", false, "DISTINCT"},
		{"SELECT DISTINCT v FROM log WHERE s LIKE 's%'", false, "DISTINCT"},
		{"SELECT DISTINCT v FROM log WHERE id = (SELECT t FROM u)", false, "a subquery; DISTINCT"},
		{"SELECT DISTINCT v FROM log WHERE id = ANY (SELECT 1 / id FROM u)", false, "a subquery; DISTINCT"},
		{"SELECT DISTINCT v FROM log WHERE id IN (SELECT t FROM u LIMIT 1)", false, "a subquery; DISTINCT"},
		{"SELECT DISTINCT v FROM log WHERE EXISTS (SELECT FROM t2)", false, "a subquery; DISTINCT"},
		{"SELECT DISTINCT v FROM log WHERE random() > 0.5", false, "DISTINCT"},
		{"SELECT DISTINCT v FROM log WHERE id > nextval('hooked_i_seq')", false, "DISTINCT"},
		{"SELECT DISTINCT l.v FROM log l JOIN t ON t.id / t.v > 0", false, "DISTINCT"},
		{"SELECT DISTINCT l.v FROM log l JOIN t USING (v)", false, "DISTINCT"},
		{"SELECT DISTINCT l.v FROM log l NATURAL JOIN t", false, "DISTINCT"},
		// Of which not all rows are returned, or others are meant.
		{"SELECT DISTINCT v FROM log LIMIT 3", false, "DISTINCT"},
		{"SELECT sum(f) FROM log OFFSET 0", false, "an aggregate"},
		{"SELECT DISTINCT v FROM log TABLESAMPLE BERNOULLI (50)", false, "DISTINCT"},
		{"SELECT DISTINCT v FROM secured", false, "DISTINCT"},
		{"SELECT DISTINCT v FROM t2", false, "DISTINCT"},
		{"SELECT DISTINCT v FROM (SELECT v FROM log) x", false, "DISTINCT"},
		{"WITH x AS (SELECT 1) SELECT DISTINCT v FROM log", false, "DISTINCT"},
		{"SELECT DISTINCT max(id) FROM log", false, "DISTINCT"},
		{"SELECT max(id) FROM log", false, "MIN or MAX, for which an index may need one row alone"},
		{"SELECT DISTINCT bump(v) FROM log", false, "what a function reads; DISTINCT"},
		{"DECLARE c CURSOR FOR SELECT DISTINCT v FROM log", false, ""},
		{"PREPARE x AS SELECT DISTINCT v FROM log", false, ""},
		{"SELECT DISTINCT v AS zanteyard FROM log", false, "it uses the hidden columns' name"},
		{"SELECT DISTINCT v INTO x FROM log", false, "a table created from a query"},
	} {
		p, tokens := cache.Plan(c.text)
		if p.Copied != c.copied || c.unseen != "" && reasons(p) != c.unseen || c.copied && c.unseen == "" && len(p.Unseen) > 0 {
			t.Errorf("%s: copied is %v, unseen %q", c.text, p.Copied, reasons(p))
		}
		if !p.Copied {
			continue
		}
		untouched(t, c.text, p, tokens)
		tried(t, connection, p, true)
		rewritten, _ := p.Rewrite(c.text, tokens)
		for _, format := range []int16{0, 1} {
			if compare(t, connection, known, c.text, p, tokens, format, true) {
				t.Errorf("%s fails", rewritten)
			}
		}
		if strings.Contains(c.text, "$1") {
			continue
		}
		with, without := compared(t, connection, p, rewritten, true), compared(t, connection, p, c.text, false)
		if with.form != without.form || with.form == "" {
			t.Errorf("%s: its plan has the form\n%s\nwith its copy\n%s", c.text, without.form, with.form)
		}
	}
}

// TestCopiesFindTheSameRows: a statement is left as it is if its copy finds rows in another way, and might meet or lock others,
// or if it returns rows before it has read all.
func TestCopiesFindTheSameRows(t *testing.T) {
	connection := connect(t, "found", schema+`
CREATE TABLE log (id int PRIMARY KEY, v int, w int, s text COLLATE "C");
INSERT INTO log SELECT i, i % 400, i % 9, 's' || i % 5 FROM generate_series(1, 4000) i;
CREATE INDEX by_v ON log (v, w);
ANALYZE`)
	cache := NewCache(load(t, connection, catalog.OnlyCertainLists))
	const groups = "SELECT w, array_agg(id) FROM log WHERE v = 7 GROUP BY w"
	for _, c := range []struct {
		set, text string
		same      bool
	}{
		{"", groups, true},
		{"SET enable_hashagg = off; SET enable_bitmapscan = off", groups, false}, // the groups come in the order of an index
		{"SET enable_hashagg = off; SET enable_indexscan = off", groups, true},   // they are sorted first
		{"", "SELECT DISTINCT s FROM log WHERE v < 3 OR w = 5 AND s <> 's1'", true},
		{"", "SELECT DISTINCT l.s FROM log l JOIN t ON t.id = l.id WHERE l.v IN (3, 4)", true},
		{"SET enable_hashagg = off; SET enable_sort = off; SET enable_seqscan = off", "SELECT DISTINCT id FROM log WHERE w = 3", false},
	} {
		run(t, connection, "RESET ALL; "+c.set)
		p, tokens := cache.Plan(c.text)
		if !p.Copied {
			t.Fatalf("%s isn't copied: %q", c.text, reasons(p))
		}
		rewritten, _ := p.Rewrite(c.text, tokens)
		with, without := compared(t, connection, p, rewritten, true), compared(t, connection, p, c.text, false)
		if same := with.form != "" && with.form == without.form; same != c.same {
			t.Errorf("%s: %s: the same is %v: %q, %q", c.set, c.text, same, with.form, without.form)
		}
	}
}

// TestCopiesAreBounded: how much is listed, how long a statement may be, and for how long it may have run.
func TestCopiesAreBounded(t *testing.T) {
	connection := connect(t, "bounded", schema+`
CREATE TABLE long (id text PRIMARY KEY, v int);
INSERT INTO long SELECT repeat('x', 200) || i, i % 3 FROM generate_series(1, 10) i;
CREATE TABLE many (id int PRIMARY KEY, v int);
INSERT INTO many SELECT i, i % 3 FROM generate_series(1, 1000) i`)
	cache := NewCache(load(t, connection, catalog.OnlyCertainLists))
	for _, c := range []struct {
		text  string
		rows  uint64
		known bool // the number of rows
		whole bool
	}{
		{"SELECT DISTINCT v FROM many WHERE id <= 256", 256, true, true}, {"SELECT DISTINCT v FROM many WHERE id <= 257", 257, true, false},
		{"SELECT DISTINCT v FROM many", 257, true, false}, {"SELECT DISTINCT v FROM long", 10, true, false},
	} {
		p, tokens := cache.Plan(c.text)
		rewritten, _ := p.Rewrite(c.text, tokens)
		its := ask(connection, rewritten, 1)
		hidden := its.rows[0][1:]
		rows, known := p.Aggregated(hidden, true)
		if !p.Copied || rows != c.rows || known != c.known || p.Complete(hidden, true) != c.whole {
			t.Errorf("%s: %d rows (%v), whole is %v", c.text, rows, known, p.Complete(hidden, true))
		}
	}
	p, tokens := cache.Plan("SELECT DISTINCT v, pg_sleep(1.1)::text FROM many WHERE id = 3")
	rewritten, _ := p.Rewrite("SELECT DISTINCT v, pg_sleep(1.1)::text FROM many WHERE id = 3", tokens)
	if its := ask(connection, rewritten, 1); p.Copied {
		if _, known := p.Aggregated(its.rows[0][2:], true); known || p.Complete(its.rows[0][2:], true) {
			t.Errorf("%q has rows after a second", rewritten)
		}
	} else {
		t.Errorf("a statement that waits is left as it is: %q", reasons(p))
	}
	list := func(n int) string {
		return "SELECT DISTINCT v FROM many WHERE id IN (1" + strings.Repeat(fmt.Sprintf(", %d", n), n) + ")"
	}
	short, tokens := cache.Plan(list(100))
	if _, inserted := short.Rewrite(list(100), tokens); inserted == nil {
		t.Error("a list of 100 isn't copied")
	}
	long, tokens := cache.Plan(list(5000))
	if _, inserted := long.Rewrite(list(5000), tokens); inserted != nil || reasons(long) != tooLongToCopy {
		t.Errorf("a list of 5,000 is copied: %q", reasons(long))
	}
	many := "SELECT DISTINCT v FROM many WHERE id = 1" + strings.Repeat(" OR id = 2", 500)
	if p, _ := cache.Plan(many); p.Copied {
		t.Error("a condition of 500 parts is copied")
	}
}
