package session

import (
	"strings"
	"testing"

	"zanteyard/plan"
)

// TestDearPlans: a sort whose rows the hidden columns would make too wide for the memory that it may use is left as it
// is, and counted. What costs about the same is seen.
func TestDearPlans(t *testing.T) {
	needServer(t)
	sql(t, fill)
	for _, x := range []struct {
		name string
		text string
		step step
		dear bool
	}{
		{"a sort", "SELECT v FROM sorted ORDER BY v", step{}, true},
		{"few rows, by an index", "SELECT v FROM sorted ORDER BY a, b LIMIT 10", step{}, false},
		{"few rows", "SELECT v, w FROM t WHERE id > 2 ORDER BY v", step{}, false},
		{"a join of few rows", "SELECT t.v FROM t JOIN u ON u.a = t.id ORDER BY t.w", step{}, false},
		{"a window, whose rows get the columns afterwards", "SELECT v, lag(v) OVER (ORDER BY v) FROM sorted WHERE v < 5000", step{}, false},
		{"a sort with a parameter", "", extended("SELECT v FROM sorted WHERE v > $1 ORDER BY v", nil, "99990"), true},
		{"a cursor", "BEGIN; DECLARE c CURSOR FOR SELECT v FROM sorted ORDER BY v; FETCH 2 FROM c; COMMIT", step{}, true},
		{"a parameter that can't be NULL", "", extended("SELECT v FROM t WHERE id > $1::certain ORDER BY v", nil, "18"), false},
	} {
		t.Run(x.name, func(t *testing.T) {
			its := x.step
			if x.text != "" {
				its = query(x.text)
			}
			for i := 0; i < 2; i++ { // the second connection uses what was found on the first
				p := through(t, "postgres", nil)
				plain := direct(t, "postgres")
				want := show(plain.do(its))
				until(t, "it was tried", func() bool {
					p.sink.take()
					p.sink.forget()
					if got := show(p.do(its)); got != want {
						t.Fatalf("got\n%s\nand not\n%s", got, want)
					}
					p.settle()
					return !p.sink.left("not tried") && !p.sink.left("what names refer to")
				})
				reads := 0
				for _, it := range p.sink.take() {
					reads += len(it.Reads)
				}
				if p.sink.left(plan.Dear) != x.dear || (reads > 0) == x.dear {
					t.Errorf("connection %d: %d reads are told, left out: %q", i, reads, p.sink.unseen)
				}
			}
		})
	}
}

// TestComparedOnce: what was found dear on one connection isn't explained again on the next one.
func TestComparedOnce(t *testing.T) {
	needServer(t)
	const text = "SELECT v, a FROM sorted ORDER BY v"
	calls, shared := 0, NewShared()
	explained := func() {
		p := through(t, "postgres", func(o *Options) { o.Shared = shared })
		for i := 0; i < 3; i++ {
			p.query(text)
			p.settle()
		}
		p.session.state.Lock()
		defer p.session.state.Unlock()
		for _, u := range p.session.trust.uses {
			if u.plan.Shape == text && len(u.costs) > 0 {
				calls++
			}
			if u.plan.Shape == text && (u.state != failed || u.reason != plan.Dear) {
				t.Errorf("it is %+v", u)
			}
		}
	}
	explained()
	explained()
	if calls != 1 {
		t.Errorf("its plans were compared on %d connections", calls)
	}
}

// TestNotExplainedWithoutRights: a statement whose hidden columns its user may not read isn't explained, which would be an
// error in the server's log.
func TestNotExplainedWithoutRights(t *testing.T) {
	needServer(t)
	sql(t, fill)
	errors := func() int { return strings.Count(theCluster.Log(), "permission denied") }
	before := errors()
	p := through(t, "limited", nil)
	until(t, "it was tried", func() bool {
		p.query("SELECT v FROM t ORDER BY v")
		p.settle()
		return p.sink.left("the connection's user may not read the audit's columns")
	})
	if n := errors() - before; n > 0 {
		t.Errorf("%d errors are in the server's log", n)
	}
}
