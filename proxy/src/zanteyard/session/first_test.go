package session

import (
	"context"
	"fmt"
	"sync"
	"sync/atomic"
	"testing"

	"github.com/jackc/pgconn"
	"github.com/jackc/pgproto3/v2"

	"zanteyard/own"
)

// TestFirstTransactions: of connections that were all opened before the first statement, at most 2 in 100 lose a part of
// their first transaction, whether they begin one after the other or at once, and however they send it. The same after a
// change of definitions.
func TestFirstTransactions(t *testing.T) {
	needServer(t)
	sql(t, fill)
	write := "UPDATE t SET v = v WHERE v > 150"
	bind, end := &pgproto3.Bind{}, &pgproto3.Execute{}
	for _, x := range []struct {
		name  string
		steps []step
		all   int
	}{
		{"a block", queries("BEGIN", "SELECT v FROM t WHERE id < 4", write, "COMMIT"), 2},
		{"a block by messages", []step{extended("BEGIN", nil), extended("SELECT v FROM t WHERE id < 4", nil), extended(write, nil),
			extended("COMMIT", nil)}, 2},
		{"a block begun with its first statement", []step{messages('Z', &pgproto3.Parse{Query: "BEGIN"}, bind, end,
			&pgproto3.Parse{Query: "SELECT v FROM t WHERE id < 4"}, bind, end, &pgproto3.Sync{}), query(write), query("COMMIT")}, 2},
		{"a statement", queries("SELECT v FROM t WHERE id < 5"), 1},
		{"a named one", []step{messages('Z', &pgproto3.Parse{Name: "n", Query: "SELECT v FROM t WHERE id < 4"}, &pgproto3.Sync{}),
			bound("n", nil), closed("n")}, 1},
		{"several", queries("BEGIN; SELECT v FROM t WHERE id < 4; COMMIT"), 1},
	} {
		for _, together := range []bool{false, true} {
			x, together := x, together
			t.Run(fmt.Sprintf("%s, together: %v", x.name, together), func(t *testing.T) {
				shared := NewShared()
				connect := func() *proxied { return through(t, "postgres", func(o *Options) { o.Shared = shared }) }
				var all []*proxied
				for i := 0; i < 25; i++ {
					all = append(all, connect())
				}
				for round := 0; round < 2; round++ {
					seen := make([]int, len(all))
					var wait sync.WaitGroup
					for i, p := range all {
						i, p := i, p
						run := func() {
							defer wait.Done()
							n, of := p.seenIn(1, x.steps...)
							if seen[i] = n; of != x.all {
								t.Errorf("%d statements were counted", of)
							}
						}
						if wait.Add(1); together {
							go run()
						} else {
							run()
						}
					}
					wait.Wait()
					lost := 0
					for _, n := range seen {
						if n < x.all {
							lost++
						}
					}
					t.Logf("round %d: %d of %d lost", round, lost, len(all))
					if lost*100 > len(all)*2 {
						t.Errorf("%d of %d transactions were lost: %v", lost, len(all), all[0].sink.unseen)
					}
					for _, p := range all { // as if the catalog was read again
						p.session.state.Lock()
						p.session.trust.planAnew()
						p.session.state.Unlock()
					}
				}
			})
		}
	}
}

// TestTrialsOutliveAnAudit: another audit begins on the same server. A connection's next transaction is reported to it, with
// what was tried before.
func TestTrialsOutliveAnAudit(t *testing.T) {
	needServer(t)
	sql(t, fill)
	var mark atomic.Int64
	ctx := context.Background()
	holder, err := pgconn.ConnectConfig(ctx, config())
	if err != nil {
		t.Fatal(err)
	}
	defer holder.Close(ctx)
	begins := func() {
		n, err := own.SetMark(ctx, holder)
		if err != nil {
			t.Fatal(err)
		}
		mark.Store(n)
	}
	begins()
	p := through(t, "postgres", func(o *Options) { o.Mark, o.Shared = mark.Load, nil })
	steps := append(queries("BEGIN", "SELECT v FROM t WHERE id < 4", "COMMIT"), extended("SELECT v FROM t WHERE id < 5", nil))
	before := uint64(0)
	for i := 0; i < 3; i++ {
		if seen, all := p.seenIn(1, steps...); seen != 2 || all != 2 {
			t.Errorf("%d of %d statements were seen: %v", seen, all, p.sink.unseen)
		}
		p.session.state.Lock()
		generation := p.session.trust.newest
		p.session.state.Unlock()
		if before != 0 && generation != before {
			t.Error("everything was tried again")
		}
		before = generation
		begins()
	}
}

// TestFailedInAnotherState: a plan whose first trial fails, because of what a block has done to names, is used after the
// block.
func TestFailedInAnotherState(t *testing.T) {
	needServer(t)
	sql(t, fill)
	sql(t, tenants)
	for _, before := range []string{"CREATE TEMP TABLE t (v int) ON COMMIT DROP", "SET LOCAL search_path = tenant7",
		"DO 'BEGIN CREATE TEMP TABLE t (v int) ON COMMIT DROP; END'"} {
		p := through(t, "postgres", func(o *Options) { o.Shared = NewShared() })
		p.warm("SELECT v FROM u WHERE a = 1")
		p.query("BEGIN")
		p.query(before)
		p.query("SELECT v FROM t WHERE v > 0")
		p.query("COMMIT")
		p.settle()
		p.sink.take()
		if seen, all := p.seenIn(1, query("SELECT v FROM t WHERE v > 0")); seen != 1 || all != 1 {
			t.Errorf("%s: %d of %d: %v", before, seen, all, p.sink.unseen)
		}
	}
}
