package plan

import (
	"fmt"
	"strings"
	"testing"
	"time"
)

// TestBombs plans texts that name themselves, or whose parts name others twice: what they read is no more than the server is
// asked for, and the plan is soon made.
func TestBombs(t *testing.T) {
	connection := connect(t, "bombs", schema)
	known := load(t, connection)
	cache := NewCache(known)
	twice := func(parts int) string {
		text := "WITH w0 AS (SELECT id, v FROM t)"
		for i := 1; i <= parts; i++ {
			text += fmt.Sprintf(", w%d AS (SELECT a.id, b.v FROM w%d a JOIN w%d b USING (id))", i, i-1, i-1)
		}
		return text + fmt.Sprintf(" SELECT id, v FROM w%d", parts)
	}
	stars := func(parts int) string {
		text := "WITH w0 AS (SELECT * FROM t)"
		for i := 1; i <= parts; i++ {
			text += fmt.Sprintf(", w%d AS (SELECT * FROM w%d UNION ALL SELECT * FROM w%d)", i, i-1, i-1)
		}
		return text + fmt.Sprintf(" SELECT a.v FROM (SELECT * FROM w%d) a", parts)
	}
	joined := func(tables int) string {
		text := "SELECT x.v FROM t x"
		for i := 1; i < tables; i++ {
			text += fmt.Sprintf(" JOIN t x%d ON x%d.id = x.id AND x%d.v > 0", i, i, i)
		}
		return text
	}
	nested := func(depth int) string {
		return strings.Repeat("SELECT * FROM (", depth) + "SELECT v FROM t" + strings.Repeat(") x", depth)
	}
	for _, c := range []struct {
		text  string
		seen  int
		fails bool // the server refuses it
	}{
		{"WITH a AS (SELECT * FROM a) SELECT * FROM a", 0, true},
		{"WITH a AS (SELECT * FROM b), b AS (SELECT * FROM a) SELECT a.x FROM a, b", 0, true},
		{"WITH a AS (SELECT x.* FROM (SELECT * FROM a) x) SELECT a.v FROM a", 0, true},
		{twice(2), 4, false}, {twice(3), 0, false}, {twice(5), 0, false}, {twice(40), 0, false}, {stars(30), 0, false},
		{joined(12), 12, false}, {joined(13), 0, false}, {joined(300), 0, false},
		{nested(8), 1, false}, {nested(9), 0, false}, {nested(190), 0, false},
		{"SELECT v FROM t" + strings.Repeat(" UNION ALL SELECT v FROM t", 4), 5, false},
		{"SELECT v FROM t" + strings.Repeat(" UNION ALL SELECT v FROM t", 5), 0, false},
		{"SELECT v FROM t" + strings.Repeat(" UNION ALL SELECT v FROM t", 30), 0, false},
		{"SELECT v FROM t" + strings.Repeat(" UNION ALL SELECT v FROM t", 700), 0, false},
		{"SELECT x0.v FROM (SELECT v FROM t) x0" + strings.Repeat(", (SELECT v FROM t) x", 300), 0, true},
	} {
		began := time.Now()
		p, tokens := cache.Plan(c.text)
		if len(p.Sources) != c.seen || time.Since(began) > 20*time.Second {
			t.Errorf("%.200q has %d tables, after %v; left out is %q", c.text, len(p.Sources), time.Since(began), reasons(p))
		}
		if size := len(p.added()); size > 200_000 {
			t.Errorf("%.200q gets %d bytes", c.text, size)
		}
		if !c.fails && p.adds() && len(c.text) < 1000 {
			untouched(t, c.text, p, tokens)
			tried(t, connection, p, true)
			compare(t, connection, known, c.text, p, tokens, 0, false)
		}
	}
}

// TestLateralNames: a column that isn't there any more is no column of a table around a LATERAL subquery.
func TestLateralNames(t *testing.T) {
	connection := connect(t, "beside", schema)
	cache := NewCache(load(t, connection))
	const text = "SELECT u.w, x.v FROM u, LATERAL (SELECT v FROM t WHERE v > u.t LIMIT 1) x"
	p, tokens := cache.Plan(text)
	rewritten, _ := p.Rewrite(text, tokens)
	if len(p.Sources) != 2 {
		t.Fatalf("%q is planned as %q", text, rewritten)
	}
	tried(t, connection, p, true)
	if its := ask(connection, rewritten, 0); its.err != "" || len(its.rows) == 0 {
		t.Fatalf("%q: %+v", rewritten, its)
	}
	run(t, connection, "ALTER TABLE t RENAME COLUMN id TO other")
	if its := ask(connection, rewritten, 0); its.err == "" {
		t.Errorf("%q has %q", rewritten, its.rows)
	}
}
