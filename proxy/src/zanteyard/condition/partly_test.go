package condition_test

import (
	"fmt"
	"testing"

	"zanteyard/condition"
)

// TestPartly: of what OR joins, what isn't followed is left out. Each row of which the rest holds is in the result.
func TestPartly(t *testing.T) {
	conn, all := open(t, "partly", `CREATE TABLE r (id int PRIMARY KEY, a int, b int, s text);
		INSERT INTO r SELECT i, nullif(i % 4, 3), nullif(i % 5, 4), 'x' || i % 3 FROM generate_series(1, 60) i`)
	versions := rows(t, conn, "SELECT id, a, b, s FROM r")
	for _, x := range []struct{ where, want, why string }{
		{"a = 1 OR abs(b) = 2", "a = 1", "a function"},
		{"abs(b) = 2 OR b = a OR a = 1", "a = 1", "a comparison of two columns"},
		{"a = 1 AND (b = 2 OR id IN (SELECT 3))", "a = 1 AND b = 2", "a subquery"},
		{"a = 1 OR (b = 2 AND abs(a) = 2) OR s = 'x1'", "a = 1 OR s = 'x1'", "a function"},
		{"b = 2 AND (a = 1 OR (s = 'x1' AND (abs(a) = 2 OR a IS NULL)))", "b = 2 AND (a = 1 OR s = 'x1' AND a IS NULL)", "a function"},
		{"NOT (a = 1 OR abs(b) = 2)", "", "a function"}, {"NOT (NOT (a = 1 OR abs(b) = 2))", "", "a function"},
		{"(a = 1 OR abs(b) = 2) IS NOT TRUE", "", "a function"}, {"(a = 1 OR abs(b) = 2) IS UNKNOWN", "", "a function"},
		{"a = 1 OR NOT (b = 1 OR abs(b) = 2)", "a = 1", "a function"}, {"NOT (abs(b) = 2) OR (a = 1 OR abs(b) = 3)", "a = 1", "a function"},
		{"a = 1 AND abs(b) = 2", "", "a function"}, {"abs(a) = 1 OR abs(b) = 2", "", "a function"}, {"a = 1 OR b = 2", "a = 1 OR b = 2", ""},
	} {
		text := "SELECT id FROM r WHERE " + x.where
		its, err := form(t, all, text)
		if err != nil {
			if x.want != "" || err.Error() != x.why {
				t.Errorf("%s: %v", x.where, err)
			}
			continue
		}
		if x.want == "" || (its.Partly == nil) != (x.why == "") || x.why != "" && its.Partly.Error() != x.why {
			t.Errorf("%s: %v in place of %s", x.where, its.Partly, x.why)
			continue
		}
		made, err := its.Bind(condition.Arguments{})
		if err != nil || made.String() != "r WHERE "+x.want {
			t.Fatalf("%s: %v, %v", x.where, made, err)
		}
		found := map[string]bool{}
		for _, one := range rows(t, conn, text) {
			found[one[0]] = true
		}
		held := 0
		for _, one := range versions {
			values := append([]string(nil), one...)
			for i := range values {
				if values[i] == "" {
					values[i] = "NULL"
				}
			}
			if made.Holds(row(values...)) == condition.Yes {
				if held++; !found[one[0]] {
					t.Errorf("%s: %v isn't in the result", x.where, one)
				}
			}
		}
		if held == 0 {
			t.Error(fmt.Sprint(x.where, ": it holds of nothing"))
		}
	}
}
