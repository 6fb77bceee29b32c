package plan

import (
	"fmt"
	"math/rand"
	"strings"
	"testing"
	"time"

	"github.com/jackc/pgconn"

	"zanteyard/catalog"
)

// shared rows: tables with many equal values of all types that have one form, NULLs, and several indexes.
const alikeRows = `
CREATE TYPE hue AS ENUM ('red', 'green', 'blue');
CREATE DOMAIN word AS text CHECK (VALUE <> '');
CREATE TABLE p (id int PRIMARY KEY, n int, b bigint, s text, v varchar(9) COLLATE "C", c char(6), f boolean, d date, h hue, u uuid,
  w word, y bytea, at timestamptz);
CREATE TABLE q (a int, b int, s text COLLATE "C", c char(6), PRIMARY KEY (b, a));
INSERT INTO p SELECT i, nullif(i % 7, 3), i % 5, chr(97 + i % 4) || repeat(' ', i % 2), chr(65 + i % 6), chr(97 + i % 3), i % 3 = 1,
  date '2020-01-01' + i % 4, (ARRAY['red', 'green', 'blue']::hue[])[1 + i % 3], ('00000000-0000-0000-0000-00000000000' || i % 4)::uuid,
  chr(97 + i % 5), decode('0' || i % 6, 'hex'), timestamptz '2020-01-01 00:00+00' + (i % 3) * interval '1 day'
  FROM generate_series(1, 400) i;
INSERT INTO q SELECT i % 40, i / 4, CASE WHEN i % 9 > 0 THEN 's' || i % 5 END, 'c' || i % 3 FROM generate_series(1, 300) i;
CREATE INDEX ON p (n, s); CREATE INDEX ON p (s); CREATE INDEX ON p (c); CREATE INDEX ON q (a); CREATE INDEX ON q (s, a);
ANALYZE p, q`

// settings make the server choose another plan.
var settings = []string{"enable_seqscan", "enable_indexscan", "enable_indexonlyscan", "enable_bitmapscan", "enable_hashagg", "enable_sort",
	"enable_incremental_sort", "enable_hashjoin", "enable_mergejoin", "enable_nestloop", "enable_material"}

// otherPlans makes the server choose other plans than before.
func otherPlans(t *testing.T, connection *pgconn.PgConn, r *rand.Rand) {
	t.Helper()
	all := []string{"SET jit TO off"} // what isn't enabled is taken to cost very much
	for _, name := range settings {
		all = append(all, fmt.Sprintf("SET %s TO %t", name, r.Intn(3) > 0))
	}
	all = append(all, fmt.Sprintf("SET work_mem TO %d", []int{64, 64, 4096}[r.Intn(3)]))
	if r.Intn(30) == 0 {
		all = append(all, "SET parallel_setup_cost TO 0; SET parallel_tuple_cost TO 0; SET min_parallel_table_scan_size TO 0")
	} else {
		all = append(all, "RESET parallel_setup_cost; RESET parallel_tuple_cost; RESET min_parallel_table_scan_size")
	}
	run(t, connection, strings.Join(all, "; "))
}

// distinctOrGrouped writes a SELECT DISTINCT, or one with GROUP BY, of which the lists are used whatever the server's plan is.
func distinctOrGrouped(r *rand.Rand) string {
	pick := func(of ...string) string { return of[r.Intn(len(of))] }
	from, columns := "p", []string{"n", "b", "s", "v", "c", "f", "d", "h", "u", "w", "y", "at", "id"}
	where := []string{"n < %d", "id BETWEEN %d AND 90", "s IN ('a', 'b ', 'c')", "NOT (b = %d)", "c = 'a'", "n IS NULL OR f", "at > '2020-01-02 00:00+00'",
		"h <> 'red'", "n IS DISTINCT FROM %d", "id = ANY (ARRAY[1, %d, 7, 11, 12])"}
	switch r.Intn(4) {
	case 0:
		from, columns = "q", []string{"a", "b", "s", "c"}
		where = []string{"a < %d", "b BETWEEN %d AND 40", "s > 's1'", "c = 'c1' OR s IS NULL"}
	case 1:
		from = pick("p", "p x") + pick(" JOIN ", " LEFT JOIN ", " RIGHT JOIN ") + "q ON q.a = " + "P.n"
		if strings.HasPrefix(from, "p x") {
			from = strings.ReplaceAll(from, "P.", "x.")
		} else {
			from = strings.ReplaceAll(from, "P.", "p.")
		}
		name := from[strings.LastIndex(from, " = ")+3 : strings.LastIndex(from, ".")]
		columns = []string{name + ".n", name + ".s", name + ".c", "q.s", "q.a", "q.c"}
		where = []string{"q.b < %d", name + ".id < %d", "q.s = 's1' AND " + name + ".id <= 30"}
	}
	r.Shuffle(len(columns), func(i, j int) { columns[i], columns[j] = columns[j], columns[i] })
	columns = columns[:1+r.Intn(3)]
	sort := append([]string(nil), columns...)
	r.Shuffle(len(sort), func(i, j int) { sort[i], sort[j] = sort[j], sort[i] })
	for i := range sort {
		sort[i] += pick("", " DESC", " NULLS FIRST", " DESC NULLS LAST")
	}
	text := "SELECT DISTINCT " + strings.Join(columns, ", ")
	if grouped := r.Intn(3) == 0; grouped {
		table := "p"
		if strings.HasPrefix(from, "q") {
			table = "q"
		}
		number := map[string]string{"p": "id", "q": "a"}[table]
		if strings.Contains(columns[0], ".") {
			number = "q.a"
		}
		text = "SELECT " + strings.Join(columns, ", ") + pick("", ", count(*)", ", sum("+number+"), max("+number+")",
			", count("+number+") FILTER (WHERE "+number+" > 3)", ", count(DISTINCT "+number+")")
		if r.Intn(3) == 0 {
			text += ", count(*) AS k"
			sort = append([]string{pick("k", "k DESC", "count(*)", "max("+number+")")}, sort...)
		}
	}
	text += " FROM " + from
	if r.Intn(5) > 0 {
		text += " WHERE " + strings.ReplaceAll(pick(where...), "%d", fmt.Sprint(r.Intn(60)))
	}
	if !strings.HasPrefix(text, "SELECT DISTINCT") {
		text += " GROUP BY " + strings.Join(columns, ", ") + pick("", "", " HAVING count(*) > 2")
	}
	return text + " ORDER BY " + strings.Join(sort, ", ")
}

// TestDistinctByAnyPlan: what is answered is the same, in the same order, though the server has one plan for the client's
// text and another one for the rewritten text, and what is listed is what is stored.
func TestDistinctByAnyPlan(t *testing.T) {
	connection := connect(t, "alike", alikeRows)
	known := load(t, connection, catalog.OnlyCertainLists)
	cache := NewCache(known)
	used, listed := 0, 0
	for seed := 0; seed < wanted(80); seed++ {
		r := rand.New(rand.NewSource(int64(seed)))
		text := distinctOrGrouped(r)
		p, tokens := cache.Plan(text)
		if why := reasons(p); p.Hidden() == 0 || why != "" && why != "a join that the server may skip" {
			t.Fatalf("statement %d isn't seen: %s: %q", seed, text, reasons(p))
		}
		rewritten, _ := p.Rewrite(text, tokens)
		otherPlans(t, connection, r)
		plain := ask(connection, text, 0)
		otherPlans(t, connection, r)
		began := time.Now()
		hidden := ask(connection, rewritten, 0)
		isSlow := time.Since(began) >= listedFor
		if plain.err != "" || hidden.err != "" {
			t.Fatalf("statement %d: %s: %s, %s: %s", seed, text, plain.err, rewritten, hidden.err)
		}
		width := len(plain.fields)
		if one, other := visible(plain.rows, width, true), visible(hidden.rows, width, true); one != other {
			t.Fatalf("statement %d: %s gives\n%s\n%s gives\n%s", seed, text, one, rewritten, other)
		}
		used++
		all := uint64(0)
		for _, row := range hidden.rows {
			n, _ := p.Aggregated(row[width:], false)
			all += n
		}
		if all <= MostListed && !isSlow {
			listed++
			versions := stored(t, connection, known, p)
			for _, row := range hidden.rows {
				told(t, p, row[width:], false, "", versions)
			}
		}
	}
	t.Logf("%d statements, of which %d list all rows", used, listed)
	if listed < used/4 || listed == used {
		t.Errorf("of %d statements %d list all rows", used, listed)
	}
}

// TestDistinctListsOnce: rows that DISTINCT makes one of have one list, also if what is listed changes from row to row, as
// when the time is over in the middle of it.
func TestDistinctListsOnce(t *testing.T) {
	connection := connect(t, "once", alikeRows)
	cache := NewCache(load(t, connection, catalog.OnlyCertainLists))
	for seed, text := range []string{
		"SELECT DISTINCT s FROM p WHERE id < 200 ORDER BY s", "SELECT DISTINCT n, c FROM p WHERE id < 250 ORDER BY c, n",
		"SELECT DISTINCT p.s, q.s AS x FROM p JOIN q ON q.a = p.n WHERE p.id < 60 AND q.b < 20 ORDER BY x, p.s",
	} {
		p, tokens := cache.Plan(text)
		rewritten, _ := p.Rewrite(text, tokens)
		from := strings.Index(rewritten, "pg_catalog.clock_timestamp()")
		changed := rewritten
		for from >= 0 {
			const end = "'::pg_catalog.interval)"
			to := from + strings.Index(changed[from:], end) + len(end)
			changed = changed[:from] + "pg_catalog.random() OPERATOR(pg_catalog.<) 0.5" + changed[to:]
			from = strings.Index(changed, "pg_catalog.clock_timestamp()")
		}
		if changed == rewritten {
			t.Fatalf("nothing is changed: %s", rewritten)
		}
		r := rand.New(rand.NewSource(int64(seed)))
		incomplete := 0
		for try := 0; try < 8; try++ {
			otherPlans(t, connection, r)
			plain, hidden := ask(connection, text, 0), ask(connection, changed, 0)
			width := len(plain.fields)
			if one, other := visible(plain.rows, width, true), visible(hidden.rows, width, true); one != other || hidden.err != "" {
				t.Fatalf("%s gives\n%s\n%s gives %s\n%s", text, one, changed, hidden.err, other)
			}
			for _, row := range hidden.rows {
				if !p.Complete(row[width:], false) {
					incomplete++
				}
			}
		}
		if incomplete == 0 {
			t.Errorf("each list has all rows: %s", changed)
		}
	}
}
