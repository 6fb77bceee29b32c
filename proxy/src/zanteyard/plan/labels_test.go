package plan

import (
	"context"
	"errors"
	"fmt"
	"strings"
	"testing"
	"time"

	"github.com/jackc/pgconn"

	"zanteyard/catalog"
	"zanteyard/condition"
)

const labelsSchema = `CREATE TYPE mood AS ENUM ('sad', 'happy', 'it''s'); CREATE DOMAIN moody AS mood;
	CREATE TABLE w (id int PRIMARY KEY, m mood, d moody, "The M" mood, t text); CREATE TABLE v (id int PRIMARY KEY, w int, m mood);
	CREATE INDEX ON w (m) WHERE m = 'sad'; CREATE TABLE k (m mood PRIMARY KEY, n int);
	INSERT INTO w SELECT i, 'sad', 'happy', 'sad', 'x' FROM generate_series(1, 9) i; INSERT INTO v SELECT i, i, 'happy' FROM generate_series(1, 9) i`

// TestLabelsGetTypes: a constant that is compared with an enumeration's column is sent with the column's type, and followed
// then: the server accepts it, plans the same, and refuses it if a cast would give it another meaning.
func TestLabelsGetTypes(t *testing.T) {
	connection := connect(t, fmt.Sprint("labels_", time.Now().UnixNano()), labelsSchema)
	cache := NewCache(load(t, connection, catalog.WithColumns))
	const typed = ", COALESCE("
	for _, x := range []struct {
		texts string // one with the same plan, made first; "" for none
		text  string
		sent  string // what is in the rewritten text, "" for nothing
		want  string // the condition, or why it isn't followed
	}{
		{"", "SELECT id FROM w WHERE m = 'sad'", `m = COALESCE('sad', "m")`, "w WHERE m = 'sad'"},
		{"SELECT id FROM w WHERE m = 'sad'", "SELECT id FROM w WHERE m='it''s' -- no more", `m=COALESCE('it''s', "m") --`, "w WHERE m = 'it''s'"},
		{"SELECT id FROM w WHERE m = 'sad'", "SELECT id FROM w WHERE m = E'sad'", "", "a label of an enumeration in an unknown form"},
		{"SELECT id FROM w WHERE m = 'sad'", "SELECT id FROM w WHERE m = B'01'", "", "a label of an enumeration in an unknown form"},
		{"", "SELECT t FROM w WHERE m = E'sad'", "", "an enumeration's label without a type, of which a cast may make a text"},
		{"", "SELECT id FROM w WHERE 'sad' < w.m", `COALESCE('sad', "w"."m") < w.m`, "w WHERE m > 'sad'"},
		{"", "SELECT id FROM public.w WHERE public.w.m <> 'sad'", `COALESCE('sad', "public"."w"."m")`, "w WHERE m <> 'sad'"},
		{"", `SELECT id FROM w AS "A b" WHERE "A b"."The M" = 'sad'`, `COALESCE('sad', "A b"."The M")`, `w WHERE "The M" = 'sad'`},
		{"", "SELECT id FROM w WHERE d = 'sad'", "", "an enumeration's label without a type, of which a cast may make a text"},
		{"", "SELECT id FROM w WHERE m IS DISTINCT FROM 'sad'", `FROM COALESCE('sad', "m")`, "w WHERE m IS DISTINCT FROM 'sad'"},
		{"", "SELECT id FROM w WHERE m BETWEEN 'sad' AND 'happy'", `BETWEEN COALESCE('sad', "m") AND COALESCE('happy', "m")`,
			"w WHERE m >= 'sad' AND m <= 'happy'"},
		{"", "SELECT id FROM w WHERE m BETWEEN SYMMETRIC 'happy' AND 'sad'", `SYMMETRIC COALESCE('happy', "m") AND COALESCE('sad', "m")`,
			"w WHERE m >= 'happy' AND m <= 'sad' OR m >= 'sad' AND m <= 'happy'"},
		{"SELECT id FROM w WHERE m IN ('sad', 'happy')", "SELECT id FROM w WHERE m IN ('sad')", `IN (COALESCE('sad', "m"))`, "w WHERE m IN ('sad')"},
		{"SELECT id FROM w WHERE m IN ('sad')", "SELECT id FROM w WHERE m IN ('sad', 'happy')", `IN ('sad', 'happy')`, "w WHERE m IN ('sad', 'happy')"},
		{"SELECT id FROM w WHERE m IN ('sad')", "SELECT id FROM w WHERE m NOT IN ('sad')", `NOT IN (COALESCE('sad', "m"))`, "w WHERE m NOT IN ('sad')"},
		{"", "SELECT id FROM w WHERE COALESCE('x', t) = 'x' AND m = 'sad'", "", "a function"},
		{"", "SELECT id FROM w WHERE (COALESCE('sad', m) = 'sad') OR m = 'sad'", `OR m = COALESCE('sad', "m")`, "w WHERE m = 'sad'"},
		{"", "SELECT id FROM w WHERE m = 'sad'::mood", `'sad'::mood`, "a cast that isn't followed"},
		{"", "SELECT id FROM w WHERE m = $1", `m = $1`, "an enumeration's label without a type, of which a cast may make a text"},
		{"", "SELECT id FROM w WHERE t = 'sad' AND m = 'sad'", `t = 'sad' AND m = COALESCE('sad', "m")`, "w WHERE t = 'sad' AND m = 'sad'"},
		{"", "UPDATE w SET id = 3 WHERE m = 'sad'", "", "an enumeration's label without a type, of which a cast may make a text"},
		{"", "SELECT count(*) FROM w WHERE m = 'sad'", `m = COALESCE('sad', "m")`, "w WHERE m = 'sad'"},
		{"", "SELECT n FROM k WHERE m = 'sad'", `m = COALESCE('sad', "m")`, "k WHERE m = 'sad'"}, // it isn't reported as absent
		{"", "SELECT n FROM k WHERE m = 'sad' AND n = 3", `m = COALESCE('sad', "m") AND`, "k WHERE m = 'sad' AND n = 3"},
	} {
		if x.texts != "" {
			cache.Plan(x.texts)
		}
		p, tokens := cache.Plan(x.text)
		got := p.NotFollowed
		if p.Follows() {
			_, got = asked(p, x.text, tokens, condition.Arguments{Parameters: [][]byte{[]byte("sad")}})
		}
		if got != x.want {
			t.Errorf("%s: %q, wanted %q", x.text, got, x.want)
		}
		sent, inserted := p.Rewrite(x.text, tokens)
		if cutOut(sent, inserted) != x.text || x.sent != "" && !strings.Contains(sent, x.sent) || strings.Contains(sent, typed) {
			t.Errorf("%s: %s", x.text, sent)
		}
		if x.sent != "" && !strings.Contains(x.text, "$1") {
			run(t, connection, sent)
			for _, one := range p.Trial().Statements {
				run(t, connection, one)
			}
		}
	}
}

// TestLabelsOfJoins: the same in joins, subqueries in FROM, and what NOT EXISTS found none of.
func TestLabelsOfJoins(t *testing.T) {
	connection := connect(t, fmt.Sprint("labels_of_joins_", time.Now().UnixNano()), labelsSchema)
	cache := NewCache(load(t, connection, catalog.WithColumns))
	for _, x := range []struct{ text, sent string }{
		{"SELECT w.t, v.w FROM w JOIN v ON v.w = w.id AND v.m = 'happy' WHERE w.m = 'sad'",
			`AND v.m = COALESCE('happy', "v"."m") WHERE w.m = COALESCE('sad', "w"."m")`},
		{"SELECT w.t, v.m FROM w LEFT JOIN v ON v.w = w.id AND v.m = 'sad'", `AND v.m = COALESCE('sad', "v"."m")`},
		{"SELECT s.t FROM (SELECT id, m AS n, t FROM w WHERE m = 'sad') AS s WHERE s.n < 'happy'",
			`WHERE m = COALESCE('sad', "m")) AS s WHERE s.n < COALESCE('happy', "s"."n")`},
		{"SELECT t FROM w WHERE m = 'sad' AND NOT EXISTS (SELECT 1 FROM v WHERE v.w = w.id AND v.m = 'sad')",
			`m = 'sad' AND NOT EXISTS (SELECT 1 FROM v WHERE v.w = w.id AND v.m = COALESCE('sad', "v"."m"))`},
	} {
		p, tokens := cache.Plan(x.text)
		if !p.Follows() {
			t.Errorf("%s: %s", x.text, p.NotFollowed)
			continue
		}
		sent, _ := p.Rewrite(x.text, tokens)
		if !strings.Contains(sent, x.sent) {
			t.Errorf("%s: %s", x.text, sent)
		}
		one, two := run(t, connection, x.text), run(t, connection, sent)
		if len(one[0].Rows) == 0 && !strings.Contains(x.text, "EXISTS") || len(one[0].Rows) != len(two[0].Rows) {
			t.Errorf("%s: %d rows, and %d", x.text, len(one[0].Rows), len(two[0].Rows))
		}
	}
}

// TestLabelsAndCasts: with a cast from the enumeration to text the server takes the constant for a text, and refuses the one
// that has a type. The plan is the same.
func TestLabelsAndCasts(t *testing.T) {
	connection := connect(t, fmt.Sprint("labels_casts_", time.Now().UnixNano()), labelsSchema+`; ANALYZE w;
		CREATE FUNCTION never(mood) RETURNS text LANGUAGE sql IMMUTABLE AS $$SELECT 'never'::text$$; SET enable_seqscan = off`)
	known := load(t, connection, catalog.WithColumns)
	const text = "SELECT id, t FROM w WHERE m = 'sad'"
	p, tokens := NewCache(known).Plan(text)
	sent, _ := p.Rewrite(text, tokens)
	plans := [2]string{}
	for i, one := range []string{text, strings.Replace(text, "'sad'", `COALESCE('sad', "m")`, 1)} {
		for _, row := range run(t, connection, "EXPLAIN (VERBOSE) "+one)[0].Rows {
			plans[i] += string(row[0]) + "\n"
		}
	}
	if plans[0] != plans[1] || !strings.Contains(plans[0], "w_m_idx") {
		t.Errorf("%s\n%s", plans[0], plans[1])
	}
	for _, made := range []struct {
		cast   string
		failed bool
	}{
		{"CREATE CAST (mood AS text) WITH FUNCTION never(mood) AS IMPLICIT", true}, {"CREATE CAST (mood AS varchar) WITH INOUT AS IMPLICIT", false},
		{"CREATE CAST (text AS mood) WITH INOUT AS IMPLICIT", false},
	} {
		run(t, connection, made.cast)
		_, err := connection.Exec(context.Background(), sent).ReadAll()
		var told *pgconn.PgError
		if failed := err != nil; failed != made.failed || failed && (!errors.As(err, &told) || told.Code != "42725") {
			t.Errorf("%s: %v", made.cast, err)
		}
		if rows := len(run(t, connection, text)[0].Rows); (rows == 9) == strings.Contains(made.cast, "never") {
			t.Errorf("%s: %d rows", made.cast, rows)
		}
		cast, _, _ := strings.Cut(made.cast, ")")
		run(t, connection, strings.Replace(cast, "CREATE", "DROP", 1)+")")
	}
}
