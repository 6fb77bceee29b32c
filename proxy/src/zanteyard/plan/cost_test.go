package plan

import (
	"strconv"
	"strings"
	"testing"
)

// TestExplained: the text has a NULL for each parameter, and no name that a search path could give another meaning.
func TestExplained(t *testing.T) {
	for _, x := range []struct {
		text     string
		declared int
		want     string
	}{
		{"SELECT v FROM t ORDER BY v", 0, `EXPLAIN (FORMAT JSON) EXECUTE "zanteyard.trial"`},
		{"SELECT v FROM t WHERE a = $2 OR b = $1 OR c = '$7' /* $8 */ ORDER BY v", 0,
			`EXPLAIN (FORMAT JSON) EXECUTE "zanteyard.trial"(NULL, NULL)`},
		{"SELECT v FROM t WHERE a = $1", 3, `EXPLAIN (FORMAT JSON) EXECUTE "zanteyard.trial"(NULL, NULL, NULL)`},
		{"SELECT v FROM t WHERE a = $99999", 0, ""},
		{"SELECT v FROM t WHERE a = $99999999999999999999", 0, ""},
		{"SELECT '", 0, ""},
	} {
		got := Explained("zanteyard.trial", x.text, x.declared)
		if got != x.want {
			t.Errorf("%s: %s", x.text, got)
		}
		if got != "" {
			check(t, x.text, got)
		}
	}
}

// TestCost reads what a server answered.
func TestCost(t *testing.T) {
	connection := connect(t, "cost", schema)
	answer := run(t, connection, "EXPLAIN (FORMAT JSON) SELECT * FROM t a, t b ORDER BY a.v")[0].Rows[0][0]
	plain, _ := explain(connection, "SELECT * FROM t a, t b ORDER BY a.v")
	_, rest, _ := strings.Cut(plain, "..")
	text, _, _ := strings.Cut(rest, " ")
	want, err := strconv.ParseFloat(text, 64)
	if cost, ok := Cost(answer); !ok || err != nil || cost != want {
		t.Errorf("the cost is %v (%v): %s", cost, ok, plain)
	}
	if _, ok := Cost([]byte("[]")); ok {
		t.Error("no cost is one")
	}
	for _, x := range []struct {
		plan          Plan
		with, without float64
		dear          bool
	}{
		{Plan{Widens: true}, 4, 3, false}, {Plan{Widens: true}, 4.1, 3, true},
		{Plan{Counts: true, Widens: true}, 52, 3, false}, {Plan{Counts: true}, 54, 3, true}, {Plan{Counts: true}, 1300, 1000, false},
		{Plan{Looks: true, Counts: true}, 402, 3, false}, {Plan{Looks: true}, 404, 3, true}, {Plan{Looks: true}, 4000, 3000, false},
	} {
		if x.plan.TooDear(x.with, x.without) != x.dear {
			t.Errorf("%v more than %v", x.with, x.without)
		}
	}
}
