package plan

import (
	"math/rand"
	"regexp"
	"strconv"
	"strings"
	"testing"

	"github.com/jackc/pgconn"

	"zanteyard/statements"
)

// many makes the tables of statements.Schema large enough for the server to use their indexes.
const many = `
INSERT INTO a SELECT i, i % 100, 's' || i FROM generate_series(10, 3000) i;
INSERT INTO "A" SELECT * FROM a ON CONFLICT DO NOTHING;
INSERT INTO link SELECT i, i % 7 FROM generate_series(10, 3000) i;
INSERT INTO "select" SELECT i, i % 100 FROM generate_series(10, 3000) i;
INSERT INTO "returning" SELECT i, i FROM generate_series(10, 3000) i;
INSERT INTO parts SELECT i, i % 6 FROM generate_series(10, 3000) i;
CREATE INDEX ON "select" (n)`

// TestPlansOfTheServer explains random statements: rewritten as a session would use them, they read no additional table,
// and none for which an index alone was enough, except for one row by its key.
func TestPlansOfTheServer(t *testing.T) {
	connection := connect(t, "explained", statements.Schema)
	for _, sql := range []string{many, "VACUUM ANALYZE", "SET enable_seqscan TO off; SET enable_bitmapscan TO off"} {
		run(t, connection, sql)
	}
	cache := NewCache(load(t, connection))
	explained, left, used := 0, 0, 0
	for seed := 0; seed < wanted(600); seed++ {
		w := statements.New(rand.New(rand.NewSource(int64(seed))))
		text := w.Query()
		p, tokens := cache.Plan(text)
		if !p.adds() || strings.Contains(text, "$1") {
			continue
		}
		plain, ok := explain(connection, text)
		if !ok {
			continue
		}
		rewritten, _ := p.Rewrite(text, tokens)
		if p.ComparedByForm() {
			with, without := compared(t, connection, p, rewritten, true), compared(t, connection, p, text, false)
			if p.TooDear(with.cost, without.cost) || with.form != without.form || with.form == "" {
				left++
			} else {
				used++
			}
			continue
		}
		explained++
		hidden, ok := explain(connection, rewritten)
		if !ok || alone(hidden) < alone(plain) || strings.Count(hidden, "Scan") > strings.Count(plain, "Scan") {
			t.Errorf("statement %d: %s\n%s\n%s", seed, rewritten, plain, hidden)
		}
	}
	t.Logf("%d statements were explained; of those that are compared %d are used and %d left as they are", explained, used, left)
	if explained < 50 || used == 0 || left == 0 {
		t.Errorf("too few statements were explained")
	}
}

// price is what a trial learns of a statement's plan.
type price struct {
	cost float64
	form string
}

func compared(t *testing.T, connection *pgconn.PgConn, p *Plan, text string, hidden bool) price {
	t.Helper()
	answer := run(t, connection, "EXPLAIN (FORMAT JSON) "+strings.TrimLeft(text, " ;"))[0].Rows[0][0]
	cost, ok := Cost(answer)
	its := price{cost, p.Form(answer, hidden)}
	if !ok {
		t.Errorf("the plan of %s can't be read: %s", text, answer)
	}
	return its
}

func explain(connection *pgconn.PgConn, text string) (string, bool) {
	results, err := connection.Exec(ctx(), "EXPLAIN "+strings.TrimLeft(text, " ;")).ReadAll()
	if err != nil {
		return "", false
	}
	var lines []string
	for _, row := range results[0].Rows {
		lines = append(lines, string(row[0]))
	}
	return strings.Join(lines, "\n"), true
}

// alone counts the index-only scans that return more than a row.
func alone(plan string) int {
	count := 0
	for _, found := range regexp.MustCompile(`Index Only Scan.* rows=(\d+)`).FindAllStringSubmatch(plan, -1) {
		if rows, err := strconv.Atoi(found[1]); err == nil && rows > 1 {
			count++
		}
	}
	return count
}
