package main

import (
	"context"
	"encoding/json"
	"fmt"
	"strings"
	"testing"
	"time"

	"github.com/jackc/pgconn"
)

// total is one of the feed's totals.
type total struct {
	All, Checked, Waiting int
	InPart                map[string]int `json:"in_part"`
	NotChecked            map[string]int `json:"not_checked"`
	RolledBack            int            `json:"rolled_back"`
}

// sums are the feed's totals.
type sums struct {
	Event  string
	Totals struct {
		Transactions, Writes total
		Selects              struct {
			total
			ByCondition int `json:"by_condition"`
			FoundNoRow  int `json:"found_no_row"`
		}
		RowsRead struct {
			total
			Own int
		} `json:"rows_read"`
		RowsWritten total `json:"rows_written"`
		Others      int   `json:"other_statements"`
		Outside     struct {
			Transactions int
			RowsWritten  int `json:"rows_written"`
		} `json:"without_the_proxy"`
	}
}

func (s *sums) each() []*total {
	its := &s.Totals
	return []*total{&its.Transactions, &its.Selects.total, &its.Writes, &its.RowsRead.total, &its.RowsWritten}
}

// add adds those of another audit.
func (s *sums) add(more *sums) {
	its := more.each()
	for i, one := range s.each() {
		one.All, one.Checked, one.RolledBack = one.All+its[i].All, one.Checked+its[i].Checked, one.RolledBack+its[i].RolledBack
		one.InPart, one.NotChecked = both(one.InPart, its[i].InPart), both(one.NotChecked, its[i].NotChecked)
		one.Waiting += its[i].Waiting
	}
	s.Totals.Outside.Transactions += more.Totals.Outside.Transactions
	s.Totals.Outside.RowsWritten += more.Totals.Outside.RowsWritten
	s.Totals.Selects.ByCondition += more.Totals.Selects.ByCondition
	s.Totals.Selects.FoundNoRow += more.Totals.Selects.FoundNoRow
}

func both(one, other map[string]int) map[string]int {
	to := map[string]int{}
	for _, its := range []map[string]int{one, other} {
		for reason, n := range its {
			to[reason] += n
		}
	}
	return to
}

// decided reports whether everything is in its place.
func (s *sums) decided() bool {
	for _, one := range s.each() {
		if one.Waiting != 0 || one.All != one.Checked+all(one.InPart)+all(one.NotChecked) {
			return false
		}
	}
	return true
}

func all(its map[string]int) (sum int) {
	for _, n := range its {
		sum += n
	}
	return sum
}

// summed waits until the feed has counted something, and returns its counts.
func (p *program) summed(is func(*sums) bool) *sums {
	p.t.Helper()
	last := ""
	for end := time.After(5 * time.Minute); ; {
		select {
		case line := <-p.lines:
			it := &sums{}
			if json.Unmarshal([]byte(line), it) != nil || it.Event != "coverage" {
				continue
			}
			if last = line; is(it) {
				return it
			}
		case <-end:
			p.t.Fatalf("it isn't counted: %s", last)
		}
	}
}

// amount is what a client's statements come to, as the server counts it.
type amount struct{ transactions, undone, selects, writes, read, written int }

func (c *amount) add(more amount, times int) {
	c.transactions += times * more.transactions
	c.undone += times * more.undone
	c.selects += times * more.selects
	c.writes += times * more.writes
	c.read += times * more.read
	c.written += times * more.written
}

// kinds are statements of all kinds, with what they come to.
var kinds = []struct {
	text string
	each amount
}{
	{"SELECT 1", amount{}},
	{"SELECT relname FROM pg_catalog.pg_class LIMIT 1", amount{}},
	{"SELECT col_description(attrelid, attnum), age(now()) FROM pg_catalog.pg_attribute LIMIT 1", amount{}},
	{"BEGIN; SELECT 1; COMMIT", amount{}},
	{"SELECT v FROM counted WHERE id = 1", amount{1, 0, 1, 0, 1, 0}},
	{"SELECT v FROM counted WHERE id < 4", amount{1, 0, 1, 0, 3, 0}},
	{"SELECT v FROM counted WHERE id = 999", amount{1, 0, 1, 0, 0, 0}},
	{"SELECT v FROM counted WHERE v = -1", amount{1, 0, 1, 0, 0, 0}},
	{"SELECT count(*) FROM counted", amount{1, 0, 1, 0, 1, 0}},
	{"SELECT DISTINCT 1 FROM counted", amount{1, 0, 1, 0, 1, 0}},
	{"SELECT v FROM keyless LIMIT 1", amount{1, 0, 1, 0, 1, 0}},
	{"SELECT a.v, b.v FROM counted a JOIN counted b ON a.id < b.id AND b.id < 4", amount{1, 0, 1, 0, 3, 0}},
	{"SELECT a.v, k.v FROM counted a LEFT JOIN keyless k ON false", amount{1, 0, 1, 0, 5, 0}},
	{"BEGIN; DECLARE c CURSOR FOR SELECT v FROM counted; FETCH 2 FROM c; FETCH ALL FROM c; COMMIT", amount{1, 0, 1, 0, 5, 0}},
	{"DECLARE c CURSOR WITH HOLD FOR SELECT v FROM counted; FETCH 2 FROM c; FETCH ALL FROM c; CLOSE c", amount{3, 0, 1, 0, 5, 0}},
	{"SELECT count(v) FROM counted WHERE v < -9", amount{1, 0, 1, 0, 1, 0}},
	{"BEGIN; DECLARE c CURSOR FOR SELECT count(v) FROM counted WHERE v < -9; FETCH ALL FROM c; COMMIT", amount{1, 0, 1, 0, 1, 0}},
	{"BEGIN; DECLARE c CURSOR FOR SELECT v FROM counted WHERE v < -9; FETCH ALL FROM c; COMMIT", amount{1, 0, 1, 0, 0, 0}},
	{"BEGIN; DECLARE c CURSOR FOR SELECT DISTINCT id FROM counted; FETCH ALL FROM c; COMMIT", amount{1, 0, 1, 0, 5, 0}},
	{"PREPARE p AS SELECT v FROM counted WHERE id = $1", amount{}},
	{"EXECUTE p(2)", amount{1, 0, 1, 0, 1, 0}},
	{"DEALLOCATE p", amount{}},
	{"COPY counted TO STDOUT", amount{1, 0, 1, 0, 5, 0}},
	{"UPDATE counted SET v = v + 1 WHERE id = 2", amount{1, 0, 0, 1, 0, 1}},
	{"UPDATE counted SET v = v + 1 WHERE id = 999", amount{1, 0, 0, 1, 0, 0}},
	{"UPDATE counted SET v = v + 1", amount{1, 0, 0, 1, 0, 5}},
	{"UPDATE counted SET v = v + 1 WHERE id < 3 RETURNING id", amount{1, 0, 0, 1, 0, 2}},
	{"INSERT INTO keyless VALUES (1), (2)", amount{1, 0, 0, 1, 0, 2}},
	{"INSERT INTO counted VALUES (7, 7); DELETE FROM counted WHERE id = 7", amount{2, 0, 0, 2, 0, 2}},
	{"SELECT bump()", amount{1, 0, 1, 0, 1, 2}},
	{"BEGIN; SELECT v FROM counted WHERE id = 5; ROLLBACK", amount{0, 1, 0, 0, 0, 0}},
	{"BEGIN; UPDATE keyless SET v = 0 WHERE v = -1; ROLLBACK", amount{0, 1, 0, 0, 0, 0}},
	{"BEGIN; SELECT v FROM counted WHERE id = 3; UPDATE counted SET v = v + 1 WHERE id = 3; COMMIT", amount{1, 0, 1, 1, 1, 1}},
	{"BEGIN; SELECT v FROM counted WHERE id = 3; UPDATE counted SET v = v + 1 WHERE id < 4; COMMIT", amount{1, 0, 1, 1, 1, 3}},
	{"BEGIN; SELECT v FROM counted WHERE id = 3; SELECT v FROM counted WHERE id = 3; SELECT v FROM counted; COMMIT",
		amount{1, 0, 3, 0, 7, 0}},
	{"BEGIN; SELECT v FROM counted WHERE id = 3; SELECT v FROM counted WHERE id = 99; COMMIT", amount{1, 0, 2, 0, 1, 0}},
	{"BEGIN; SAVEPOINT s; UPDATE counted SET v = 1 WHERE id = 3; ROLLBACK TO s; SELECT v FROM counted WHERE id = 4; COMMIT",
		amount{1, 0, 1, 1, 1, 0}},
	{"SELECT 1 / (v - v) FROM counted", amount{0, 1, 0, 0, 0, 0}},
}

const kindsBegin = `CREATE TABLE counted (id int PRIMARY KEY, v int); INSERT INTO counted SELECT generate_series(1, 5), 0;
	CREATE TABLE keyless (v int); INSERT INTO keyless VALUES (0);
	CREATE FUNCTION bump() RETURNS void LANGUAGE sql AS 'UPDATE counted SET v = v + 1 WHERE id < 3'`

// TestSumsAreTheServers: whatever a client did is in one place of the totals, which add up to what the server itself
// counted: transactions of all kinds, their statements, whether they were seen or not, each row that was returned, and
// each row that was written.
func TestSumsAreTheServers(t *testing.T) {
	c := start(t)
	beside := directly(t, c)
	sql(t, beside, kindsBegin)
	server := func() (n int) {
		fmt.Sscan(sql(t, beside, `SELECT sum(n_tup_ins + n_tup_upd + n_tup_del) FROM pg_stat_user_tables`), &n)
		return n
	}
	const before = 2 + 5 + 1 // rows of the tables' beginning
	reaches := func(rows int) {
		t.Helper()
		for end := time.Now().Add(time.Minute); server() != before+rows; time.Sleep(10 * time.Millisecond) {
			if time.Now().After(end) {
				t.Fatalf("the server has written %d rows, not %d", server()-before, rows)
			}
		}
	}
	p := begin(t, c, "--aggregates")
	p.until(`["open"`)
	const others, othersRows = 3, 3 * 2
	for i := 0; i < others; i++ {
		sql(t, beside, "UPDATE counted SET v = v + 1 WHERE id < 3")
	}
	p.summed(func(it *sums) bool { return it.Totals.Outside.Transactions == others })
	conn := p.connect()
	const times = 5
	var want amount
	undoneRows := 0 // which the server counts as written
	for i := 0; i < times; i++ {
		for _, kind := range kinds {
			runAll(t, conn, kind.text)
			want.add(kind.each, 1)
			undoneRows += strings.Count(kind.text, "ROLLBACK TO")
		}
	}
	conn.Close(context.Background()) // which makes the server count
	reaches(want.written + othersRows + undoneRows)
	it := p.summed(func(it *sums) bool {
		return it.Totals.RowsWritten.All+it.Totals.Outside.RowsWritten >= want.written+othersRows && it.decided()
	})
	totals := &it.Totals
	if n := totals.RowsWritten.All + totals.Outside.RowsWritten; n != want.written+othersRows {
		t.Errorf("%d rows are counted, and %d were written", n, want.written+othersRows)
	}
	for _, one := range []struct {
		what      string
		got, want int
	}{
		{"transactions", totals.Transactions.All, want.transactions}, {"rolled back", totals.Transactions.RolledBack, want.undone},
		{"SELECTs", totals.Selects.All, want.selects}, {"writes", totals.Writes.All, want.writes},
		{"rows read", totals.RowsRead.All, want.read}, {"others", totals.Outside.Transactions, others},
		{"their rows", totals.Outside.RowsWritten, othersRows}, {"SELECTs without a row", totals.Selects.FoundNoRow, 3 * times},
		{"other statements", totals.Others, 0},
	} {
		if one.got != one.want {
			t.Errorf("%s: %d are counted of %d", one.what, one.got, one.want)
		}
	}
	for reason, least := range map[string]int{
		"no statement of it was seen": 3 * times, "it read and wrote no row": 1, "its writes couldn't be told apart": times,
	} {
		if totals.Transactions.NotChecked[reason] < least {
			t.Errorf("%s: of %d at least there are %d: %v", reason, least, totals.Transactions.NotChecked[reason],
				totals.Transactions.NotChecked)
		}
	}
	for _, one := range it.each() {
		if one.Checked == 0 || one.Checked == one.All {
			t.Errorf("%+v of %+v", one, totals)
		}
	}
	if n := totals.RowsWritten.NotChecked["in a table without a key, or one that isn't audited"]; n != 2*times {
		t.Errorf("%d rows have no key of %d", n, 2*times)
	}
	fmt.Fprintln(p.say, `{"command":"stop"}`)
	p.until("stopped")
}

// runAll runs statements one by one; an error is part of those that divide.
func runAll(t *testing.T, conn *pgconn.PgConn, text string) {
	t.Helper()
	for _, one := range strings.Split(text, "; ") {
		if _, err := conn.Exec(context.Background(), one).ReadAll(); err != nil && !strings.Contains(one, "/") {
			t.Fatalf("%s: %v", one, err)
		}
	}
}
