package plan

import (
	"strings"
	"testing"
)

// deep are texts whose trees are as deep as the text is long, without a parenthesis.
func deep(n int) map[string]string {
	return map[string]string{
		"sums":          "SELECT 1" + strings.Repeat("+1", n),
		"signs":         "SELECT " + strings.Repeat("- ", n) + "1",
		"not":           "SELECT " + strings.Repeat("NOT ", n) + "true",
		"unions":        "SELECT 1" + strings.Repeat(" UNION SELECT 1", n),
		"joins":         "SELECT 1 FROM a" + strings.Repeat(" CROSS JOIN a", n),
		"casts":         "SELECT 1" + strings.Repeat("::int", n),
		"cases":         "SELECT " + strings.Repeat("CASE WHEN ", n) + "true" + strings.Repeat(" THEN true END", n),
		"elses":         "SELECT " + strings.Repeat("CASE WHEN true THEN 1 ELSE ", n) + "1" + strings.Repeat(" END", n),
		"subscripts":    "SELECT a" + strings.Repeat("[1]", n) + " FROM a",
		"brackets":      "SELECT ARRAY" + strings.Repeat("[", n) + "1" + strings.Repeat("]", n),
		"is null":       "SELECT 1" + strings.Repeat(" IS NULL", n),
		"collations":    "SELECT ''" + strings.Repeat(" COLLATE x", n),
		"explains":      strings.Repeat("EXPLAIN ", n) + "SELECT 1",
		"names":         "SELECT a" + strings.Repeat(".a", n) + " FROM a",
		"ands and ors":  "SELECT true" + strings.Repeat(" AND true OR true", n),
		"at time zones": "SELECT now()" + strings.Repeat(" AT TIME ZONE 'x'", n),
		"operators":     "SELECT 1" + strings.Repeat(" || 1", n),
		"unclosed":      "SELECT ARRAY" + strings.Repeat("[", n),
		"statements":    strings.Repeat("SELECT 1;", n),
		"setof":         "SELECT x" + strings.Repeat("[x", n),
	}
}

func TestDeep(t *testing.T) {
	cache := NewCache(none(t))
	for _, n := range []int{100, 3000, 60000, 340000} {
		for name, text := range deep(n) {
			if len(text) > maxText {
				continue
			}
			t.Log(name, n)
			cache.Plan(text)
		}
	}
}

// TestTooDeep: what is done at each level of a tree may look at all that is below it, so a tree has few levels.
func TestTooDeep(t *testing.T) {
	cache := NewCache(none(t))
	for _, one := range []struct {
		text string
		is   bool
	}{
		{"SELECT 1 WHERE " + strings.Repeat("NOT ", 150) + "true", false},
		{"SELECT 1 WHERE " + strings.Repeat("NOT ", 250) + "true", true},
		{"SELECT 1 FROM " + strings.Repeat("(SELECT 1 FROM ", 90) + "t" + strings.Repeat(") x", 90), false},
		{"SELECT 1 FROM " + strings.Repeat("(SELECT 1 FROM ", 180) + "t" + strings.Repeat(") x", 180), true},
		{"SELECT 1 WHERE true" + strings.Repeat(" AND true", 900), false}, // that is one list
	} {
		if p, _ := cache.Plan(one.text); p.Unknown != one.is {
			t.Errorf("too deep %v: %.60s", p.Unknown, one.text)
		}
	}
}
