package plan

import (
	"encoding/json"
	"flag"
	"fmt"
	"math/rand"
	"strings"
	"testing"

	"github.com/jackc/pgconn"

	"zanteyard/catalog"
	"zanteyard/statements"
)

var (
	timed     = flag.Int("timed", 20, "random statements that are executed by their own text and by the rewritten one")
	timedRows = flag.Int("timed-rows", 2000, "rows of each of their tables")
)

// took is what EXPLAIN ANALYZE says of a statement: the kinds of its plan's parts, and how long it took, in milliseconds.
type took struct {
	kinds string
	time  float64
}

// executed explains a statement by executing it some times, and returns the shortest time; ok is false if it fails.
func executed(connection *pgconn.PgConn, p *Plan, text string, hidden bool) (its took, ok bool) {
	for i := 0; i < 3; i++ {
		results, err := connection.Exec(ctx(), "EXPLAIN (ANALYZE, TIMING OFF, FORMAT JSON) "+strings.TrimLeft(text, " ;")).ReadAll()
		if err != nil {
			return its, false
		}
		answer := results[0].Rows[0][0]
		var all []struct {
			Plan     *planned
			Planning float64 `json:"Planning Time"`
			Time     float64 `json:"Execution Time"`
		}
		if json.Unmarshal(answer, &all) != nil || len(all) != 1 {
			return its, false
		}
		if time := all[0].Planning + all[0].Time; i == 0 || time < its.time {
			its.time = time
		}
		if p.looksUp {
			all[0].Plan.withoutLookups()
		}
		if p.Copied {
			if all[0].Plan.rename(); hidden {
				if all[0].Plan, _ = all[0].Plan.around(); all[0].Plan == nil {
					return its, false
				}
				all[0].Plan.Place = ""
			}
		}
		var out strings.Builder
		all[0].Plan.write(&out)
		its.kinds = out.String()
	}
	return its, true
}

// TestExecutedByBoth executes random statements by both texts, as a session would use them. The plans of those that hidden
// columns only widen are of the same kind, unless the server finds a cheaper one; of all others they are. What takes more than
// a third longer is shown.
func TestExecutedByBoth(t *testing.T) {
	connection := connect(t, "timed", statements.Schema)
	run(t, connection, strings.ReplaceAll(many, "3000", fmt.Sprint(*timedRows)))
	run(t, connection, "VACUUM ANALYZE")
	run(t, connection, "SET statement_timeout = '3s'")
	cache := NewCache(load(t, connection, catalog.OnlyCertainLists))
	both, other, longer := map[string]int{}, map[string]int{}, map[string]int{}
	for seed, n := 0, 0; n < *timed && seed < 100**timed; seed++ {
		text := statements.New(rand.New(rand.NewSource(int64(seed)))).Statement()
		p, tokens := cache.Plan(text)
		if !p.adds() || p.Kind != Select || p.Inner != nil || strings.Contains(text, "$1") {
			continue
		}
		rewritten, _ := p.Rewrite(text, tokens)
		if _, ok := explain(connection, text); !ok {
			continue
		}
		if p.Compared() {
			with, without := compared(t, connection, p, rewritten, true), compared(t, connection, p, text, false)
			if p.TooDear(with.cost, without.cost) || p.ComparedByForm() && (with.form != without.form || with.form == "") {
				continue
			}
		}
		plain, ok := executed(connection, p, text, false)
		if !ok {
			continue
		}
		hidden, ok := executed(connection, p, rewritten, true)
		if !ok {
			continue
		}
		n++
		kind := "only widened"
		switch {
		case p.Copied:
			kind = "asked once more"
		case p.Counts:
			kind = "listed"
		case p.Looks:
			kind = "looked up"
		}
		both[kind]++
		if plain.kinds != hidden.kinds {
			other[kind]++
			t.Logf("another plan, %s: %q\n%s\n%s", kind, text, plain.kinds, hidden.kinds)
		}
		if 3*hidden.time > 4*plain.time && hidden.time > plain.time+1 {
			longer[kind]++
			t.Logf("%s: %.2f ms in place of %.2f: %q", kind, hidden.time, plain.time, text)
		}
	}
	t.Logf("executed %v; of these by another plan %v, and a third longer %v", both, other, longer)
	if other["asked once more"] > 0 || both["only widened"] < *timed/4 || other["only widened"]*10 > both["only widened"] {
		t.Error("too many have another plan, or too few were executed")
	}
}
