package plan

import "testing"

// TestListsWhoseLengthMatters: what the server accepts is parsed as the client sent it, if a shorter list means something
// else, or nothing.
func TestListsWhoseLengthMatters(t *testing.T) {
	cache := NewCache(load(t, connect(t, "lists", schema)))
	for _, text := range []string{
		"SELECT v FROM t WHERE NULLIF(1, 2) IS NULL", "SELECT v FROM t WHERE id = 3 AND nullif('a', 'b') = 'a'",
		"SELECT v FROM t WHERE (now(), now()) OVERLAPS (DATE '2001-01-01', DATE '2002-01-01')",
		"SELECT v FROM t WHERE (now(), interval '1 day') OVERLAPS ($1, $2)", "SELECT v FROM t WHERE ($1, $2) OVERLAPS ($3, $4)",
		"SELECT v FROM t WHERE id IN (1, 2, 3) AND NULLIF(v, 0) IN (1, 2)",
	} {
		for i := 0; i < 2; i++ {
			p, tokens := cache.Plan(text)
			rewritten, inserted := p.Rewrite(text, tokens)
			if p.Unknown || inserted == nil {
				t.Errorf("%s: %s, unseen %v", text, rewritten, p.Unseen)
				continue
			}
			if _, err := parse(rewritten); err != nil {
				t.Errorf("%s: %v", rewritten, err)
			}
		}
	}
	short, _ := cache.Plan("SELECT v FROM t WHERE id IN (1, 2, 3)")
	long, _ := cache.Plan("SELECT v FROM t WHERE id IN (1, 2, 3, 4, 5)")
	if short != long {
		t.Error("lists of several lengths have several plans")
	}
}

// TestSettings: set_config of a setting with a dot changes nothing that names refer to.
func TestSettings(t *testing.T) {
	cache := NewCache(load(t, connect(t, "settings", schema)))
	for _, x := range []struct {
		text    string
		changes bool
	}{
		{"SELECT set_config('app.tenant', '7', true)", false}, {"SELECT set_config('search_path', '7', true)", true},
		{"SELECT pg_catalog.set_config('a.b', $1, true), set_config($$c.d$$, 'x', false)", false},
		{"SELECT set_config('a.b', $1, true), set_config('role', 'x', false)", true}, {"SELECT set_config($1, '7', true)", true},
		{"SELECT set_config('a' || '.b', '7', true)", true}, {"SELECT set_config(E'a\\056b', '7', true)", true},
		{"SELECT set_config(name, '7', true) FROM (VALUES ('a.b')) s(name)", true},
	} {
		for i := 0; i < 2; i++ {
			p, _ := cache.Plan(x.text)
			if p.ChangesNames != x.changes || (p.Kind == Set) != x.changes {
				t.Errorf("%s: %+v", x.text, p)
			}
		}
	}
}
