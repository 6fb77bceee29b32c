package plan

import (
	"strings"
	"testing"

	"zanteyard/catalog"
)

// TestLookedUp: a row is looked up by its key if each index that may answer alone has the key; then the plan stays as it is.
func TestLookedUp(t *testing.T) {
	connection := connect(t, "looked", schema+`
CREATE TABLE linked (a int, b int, note text, PRIMARY KEY (a, b)); CREATE INDEX ON linked (b);
INSERT INTO linked SELECT i / 10, i, 'n' FROM generate_series(1, 5000) i;
CREATE TABLE people (id int PRIMARY KEY, kind text, age int); CREATE INDEX ON people (kind, id); CREATE INDEX ON people (age);
INSERT INTO people SELECT i, 'k' || i % 50, i % 90 FROM generate_series(1, 5000) i;
CREATE TABLE pieces (a int, b text, PRIMARY KEY (a, b)) PARTITION BY RANGE (a);
CREATE TABLE pieces_1 PARTITION OF pieces FOR VALUES FROM (0) TO (100);
CREATE TABLE pieces_2 PARTITION OF pieces FOR VALUES FROM (100) TO (1000);
INSERT INTO pieces SELECT i % 500, 'b' || i FROM generate_series(1, 5000) i;
CREATE TABLE moods (m mood, who varchar(64), yes boolean, PRIMARY KEY (m, who, yes));
INSERT INTO moods SELECT CASE i % 2 WHEN 0 THEN 'sad' ELSE 'it''s ok' END::mood, 'w' || i / 8, i % 3 = 0 FROM generate_series(1, 4000) i
  ON CONFLICT DO NOTHING;
CREATE TABLE paired (id int PRIMARY KEY, a int NOT NULL, b int NOT NULL, c int, UNIQUE (a, b)); CREATE INDEX ON paired (a); CREATE INDEX ON paired (b);
CREATE UNIQUE INDEX ON paired (c, a) WHERE c > 0; CREATE UNIQUE INDEX ON paired (b, c, abs(a));
INSERT INTO paired SELECT i, i / 10, i % 10, i FROM generate_series(1, 5000) i;
CREATE TABLE odd_keys (n numeric, m int, PRIMARY KEY (n, m)); INSERT INTO odd_keys SELECT i / 10, i FROM generate_series(1, 2000) i;`)
	run(t, connection, "VACUUM ANALYZE")
	known := load(t, connection, catalog.OnlyCertainLists)
	cache := NewCache(known)
	for _, c := range []struct {
		text   string
		looks  bool
		unseen string
	}{
		{"SELECT a, b FROM linked WHERE a = 7", true, ""},
		{"SELECT b FROM linked WHERE a = $1", true, ""},
		{"SELECT a, b FROM linked l WHERE l.a IN (5, 6) AND b > 50", true, ""},
		{"SELECT b / (b - 75) FROM linked WHERE a = 8 LIMIT 3", true, ""},
		{"SELECT a + b AS from FROM public.linked WHERE a = 7 OFFSET 2 -- end", true, ""},
		{"SELECT kind, id FROM people WHERE kind = 'k7'", true, ""},
		{"SELECT p.kind, u.w FROM people p JOIN u ON u.t = p.id WHERE p.kind = 'k3'", true, ""},
		{"SELECT u.w, l.b FROM u LEFT JOIN linked l ON l.a = u.t WHERE u.id < 3", true, ""},
		{"SELECT a FROM pieces WHERE a = 70", false, ByIndex}, // each partition would be locked
		{"SELECT m, who, yes FROM moods WHERE who IN ('w7', 'w8') AND m = 'sad' AND yes = false", true, ""},
		{"SELECT b FROM linked WHERE a = 7 FOR UPDATE", false, ""},
		{"SELECT note FROM linked WHERE a = 7", false, ""},
		{"SELECT a, b FROM paired WHERE a = 7", true, ""}, // by its unique columns
		{"SELECT u.w FROM paired p JOIN u ON u.t = p.b WHERE p.a = 3", true, ""},
		{"SELECT a FROM paired WHERE a = 7", false, ByIndex}, // the index of a alone hasn't these
		{"SELECT a, c FROM paired WHERE a = 7 AND c > 0", false, ByIndex},
		{"SELECT b FROM linked WHERE b > 7", false, ByIndex}, // the index of b alone hasn't the key
		{"SELECT age FROM people WHERE age = 7", false, ByIndex},
		{"SELECT n FROM odd_keys WHERE n = 7", false, ByIndex},
		{"SELECT x.b FROM (SELECT b FROM linked WHERE a = 7 LIMIT 2) x", false, ByIndex},
		{"DECLARE c CURSOR FOR SELECT a, b FROM linked WHERE a = 7", false, ""},
		{"PREPARE p AS SELECT a, b FROM linked WHERE a = 7", false, ""},
		{"SELECT b FROM linked WHERE a = 7 UNION ALL SELECT 1", false, ""},
	} {
		p, tokens := cache.Plan(c.text)
		if p.looksUp != c.looks || c.unseen != "" && reasons(p) != c.unseen || c.looks && len(p.Unseen) > 0 {
			t.Errorf("%s: looked up is %v, unseen %q", c.text, p.looksUp, reasons(p))
		}
		if !p.looksUp {
			continue
		}
		untouched(t, c.text, p, tokens)
		tried(t, connection, p, true)
		for _, format := range []int16{0, 1} {
			compare(t, connection, known, c.text, p, tokens, format, true)
		}
		if strings.Contains(c.text, "$1") {
			continue
		}
		rewritten, _ := p.Rewrite(c.text, tokens)
		with, without := compared(t, connection, p, rewritten, true), compared(t, connection, p, c.text, false)
		if with.form != without.form || with.form == "" {
			t.Errorf("%s: its plan has the form\n%s\nand with the look-up\n%s", c.text, without.form, with.form)
		}
	}
}
