package main

import (
	"encoding/json"
	"fmt"
	"strings"
	"testing"
	"time"
)

// counted is what the feed reports of what was left out.
type counted struct {
	Event  string
	Unseen []struct {
		Shape, Reason string
		Count         int
	}
	Writes struct {
		Left map[string]int `json:"left_out"`
	}
}

// leftOut waits until this many of something are counted.
func (p *program) leftOut(what string, least int) {
	p.t.Helper()
	last := ""
	for end := time.After(time.Minute); ; {
		select {
		case line := <-p.lines:
			var it counted
			if json.Unmarshal([]byte(line), &it) != nil || it.Event != "coverage" {
				continue
			}
			last = line
			n := it.Writes.Left[what]
			for _, one := range it.Unseen {
				if strings.Contains(one.Shape+": "+one.Reason, what) {
					n += one.Count
				}
			}
			if n >= least {
				return
			}
		case <-end:
			p.t.Errorf("%s isn't counted %d times: %s", what, least, last)
			return
		}
	}
}

// TestWhatTheLogLacksIsCounted: writes that can't be told from the log are counted by the table's name and the reason.
func TestWhatTheLogLacksIsCounted(t *testing.T) {
	c := start(t)
	beside := directly(t, c)
	sql(t, beside, `CREATE TABLE deferred (id int PRIMARY KEY DEFERRABLE, v int); INSERT INTO deferred VALUES (1, 0);
		CREATE TABLE apart (a text PRIMARY KEY, v int); ALTER TABLE apart ALTER a SET STORAGE EXTERNAL;
		INSERT INTO apart VALUES (repeat('a', 2300), 0);
		CREATE TABLE emptied (id int PRIMARY KEY); INSERT INTO emptied VALUES (1);
		CREATE TABLE many (id int PRIMARY KEY);
		CREATE MATERIALIZED VIEW seen AS SELECT id, count(*) AS n FROM account GROUP BY id; CREATE UNIQUE INDEX ON seen (id)`)
	p := begin(t, c)
	p.until(`["open"`)
	conn := p.connect()
	for i := 0; i < 3; i++ {
		sql(t, conn, fmt.Sprintf("INSERT INTO deferred VALUES (%d, 0)", i+2))
		sql(t, conn, "SELECT v FROM deferred WHERE id = 1")
		sql(t, conn, "UPDATE apart SET v = v + 1")
		sql(t, conn, "TRUNCATE emptied")
		sql(t, conn, "UPDATE account SET balance = balance + 1; INSERT INTO account SELECT max(id) + 1, 0 FROM account")
		sql(t, conn, "REFRESH MATERIALIZED VIEW CONCURRENTLY seen")
	}
	sql(t, conn, "INSERT INTO many SELECT generate_series(1, 66000)")
	p.leftOut("public.deferred: its primary key is deferrable", 3)
	sql(t, conn, "SELECT v FROM deferred WHERE id = 1")
	p.leftOut("SELECT v FROM deferred WHERE id = ?: its primary key is deferrable", 1)
	p.leftOut("public.apart: the log doesn't have the row's key", 3)
	p.leftOut("public.emptied: TRUNCATE", 3)
	p.leftOut("public.seen: the table has no primary key", 3)
	p.leftOut("more than 65,536 rows of one transaction", 66000-65536)
	sql(t, beside, "CREATE TABLE brief (id int PRIMARY KEY); INSERT INTO brief VALUES (1); DROP TABLE brief")
	p.leftOut("public.brief: a table that isn't known yet", 1)
	fmt.Fprintln(p.say, `{"command":"stop"}`)
	p.until("stopped")
}
