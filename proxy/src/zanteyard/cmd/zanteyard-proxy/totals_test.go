package main

import (
	"bytes"
	"context"
	"flag"
	"fmt"
	"io"
	"regexp"
	"strings"
	"testing"

	"github.com/jackc/pgconn"
)

// client runs what a kind of transaction consists of. Errors are what the server answers, and part of it.
type client struct {
	t    *testing.T
	conn *pgconn.PgConn
}

func (c client) answered(what string, err error) {
	if _, is := err.(*pgconn.PgError); err != nil && !is {
		c.t.Fatalf("%s: %v", what, err)
	}
}

// simple sends each text as a Query of its own.
func (c client) simple(texts ...string) {
	for _, text := range texts {
		_, err := c.conn.Exec(context.Background(), text).ReadAll()
		c.answered(text, err)
	}
}

// extended sends a text with parameters.
func (c client) extended(text string, values ...string) {
	c.answered(text, c.conn.ExecParams(context.Background(), text, parameters(values), nil, nil, nil).Read().Err)
}

func parameters(values []string) (all [][]byte) {
	for _, value := range values {
		all = append(all, []byte(value))
	}
	return all
}

// pipeline sends texts with one Sync after the last.
func (c client) pipeline(texts ...string) {
	batch := &pgconn.Batch{}
	for _, text := range texts {
		batch.ExecParams(text, nil, nil, nil, nil)
	}
	_, err := c.conn.ExecBatch(context.Background(), batch).ReadAll()
	c.answered(strings.Join(texts, "; "), err)
}

func (c client) named(name, text string, values ...string) {
	if _, err := c.conn.Prepare(context.Background(), name, text, nil); err != nil {
		c.t.Fatal(err)
	}
	for i := 0; i < 2; i++ {
		c.answered(text, c.conn.ExecPrepared(context.Background(), name, parameters(values), nil, nil).Read().Err)
	}
	c.simple("DEALLOCATE " + name)
}

func (c client) copyIn(text, rows string) {
	_, err := c.conn.CopyFrom(context.Background(), bytes.NewReader([]byte(rows)), text)
	c.answered(text, err)
}

func (c client) copyOut(text string) {
	_, err := c.conn.CopyTo(context.Background(), io.Discard, text)
	c.answered(text, err)
}

// way is what clients do, with what it comes to each time, except the rows that are written: the slot says that.
type way struct {
	name string
	each amount
	run  func(c client, turn int)
}

const countedRows = `
	CREATE TABLE counted (id int PRIMARY KEY, v int); INSERT INTO counted SELECT generate_series(1, 9), 0;
	CREATE TABLE parts (id int, counted int REFERENCES counted ON DELETE CASCADE, PRIMARY KEY (id, counted));
	CREATE TABLE keyless (v int);
	CREATE UNLOGGED TABLE unlogged (id int PRIMARY KEY);
	CREATE TABLE noted (id int PRIMARY KEY, n int); INSERT INTO noted VALUES (1, 0);
	CREATE TABLE watched (id int PRIMARY KEY, v int); INSERT INTO watched VALUES (1, 0);
	CREATE FUNCTION note() RETURNS trigger LANGUAGE plpgsql AS 'BEGIN UPDATE noted SET n = n + 1; RETURN NEW; END';
	CREATE TRIGGER note AFTER UPDATE ON watched FOR EACH ROW EXECUTE FUNCTION note();
	CREATE FUNCTION bump() RETURNS void LANGUAGE sql AS 'UPDATE counted SET v = v + 1 WHERE id < 3';
	CREATE PROCEDURE twice() LANGUAGE plpgsql AS 'BEGIN UPDATE counted SET v = v + 1 WHERE id = 1; COMMIT;
		UPDATE counted SET v = v + 1 WHERE id = 2; END'`

var ways = []way{
	{"nothing", amount{0, 0, 0, 0, 0, 0}, func(c client, _ int) {
		c.simple("SELECT 1", "SET application_name = 'a'", "SHOW timezone", "BEGIN", "SELECT 2", "COMMIT", "BEGIN", "ROLLBACK")
		c.pipeline("SELECT 1", "SELECT 2")
	}},
	{"SELECTs", amount{5, 0, 5, 0, 3, 0}, func(c client, _ int) {
		c.simple("SELECT v FROM counted WHERE id = 1", "SELECT v FROM counted WHERE v = -1", "SELECT count(*) FROM counted")
		c.extended("SELECT v FROM counted WHERE id = $1::int", "2")
		c.extended("SELECT v FROM counted WHERE id = $1::int", "999")
	}},
	{"writes", amount{6, 0, 0, 6, 0, 0}, func(c client, turn int) {
		c.simple("UPDATE counted SET v = v + 1 WHERE id = 2", "UPDATE counted SET v = v + 1 WHERE id = 999",
			"UPDATE counted SET v = v + 1", "INSERT INTO keyless VALUES (1), (2)")
		c.extended("INSERT INTO counted VALUES ($1::int, 0) ON CONFLICT (id) DO UPDATE SET v = counted.v + 1", fmt.Sprint(turn%2+8))
		c.extended("UPDATE counted SET v = v + 1 WHERE id = $1::int RETURNING v", "3")
	}},
	{"a block", amount{1, 0, 1, 3, 1, 0}, func(c client, _ int) {
		c.simple("BEGIN", "SELECT v FROM counted WHERE id = 3", "UPDATE counted SET v = 1 WHERE id = 3",
			"UPDATE counted SET v = 2 WHERE id = 3", "UPDATE counted SET v = v + 1 WHERE id < 6", "COMMIT")
	}},
	{"undone", amount{0, 4, 0, 0, 0, 0}, func(c client, _ int) {
		c.simple("BEGIN", "SELECT v FROM counted WHERE id = 5", "ROLLBACK")
		c.simple("BEGIN", "UPDATE counted SET v = 0", "ABORT")
		c.simple("BEGIN", "UPDATE counted SET v = 9 WHERE id = 1", "SELECT 1 / 0", "COMMIT")
		c.simple("SELECT 1 / (v - v) FROM counted")
	}},
	{"savepoints", amount{2, 0, 1, 3, 1, 0}, func(c client, _ int) {
		c.simple("BEGIN", "UPDATE counted SET v = 1 WHERE id = 1", "SAVEPOINT a", "UPDATE counted SET v = 2 WHERE id = 2",
			"ROLLBACK TO a", "SAVEPOINT b", "UPDATE counted SET v = 3 WHERE id = 3", "RELEASE b", "COMMIT")
		c.simple("BEGIN", "SAVEPOINT a", "SELECT 1 / (v - v) FROM counted", "ROLLBACK TO a", "SELECT v FROM counted WHERE id = 1",
			"COMMIT")
	}},
	{"several in a text", amount{4, 1, 3, 3, 11, 0}, func(c client, _ int) {
		c.simple("UPDATE counted SET v = 1 WHERE id = 1; UPDATE counted SET v = 2 WHERE id = 2; SELECT v FROM counted",
			"BEGIN; UPDATE counted SET v = 1 WHERE id = 1; COMMIT; SELECT v FROM counted WHERE id = 2",
			"SELECT v FROM counted WHERE id = 2; SELECT 1 / 0",
			"BEGIN; SELECT v FROM counted WHERE id = 4; COMMIT AND CHAIN; SELECT 1; COMMIT")
	}},
	{"pipelines", amount{1, 1, 1, 2, 1, 0}, func(c client, _ int) {
		c.pipeline("SELECT v FROM counted WHERE id = 1", "UPDATE counted SET v = v + 1 WHERE id = 1", "INSERT INTO keyless VALUES (3)")
		c.pipeline("UPDATE counted SET v = v + 1 WHERE id = 1", "SELECT 1 / 0", "UPDATE counted SET v = v + 1 WHERE id = 2")
	}},
	{"prepared", amount{6, 0, 3, 3, 3, 0}, func(c client, _ int) {
		c.named("read", "SELECT v FROM counted WHERE id = $1::int", "4")
		c.named("written", "UPDATE counted SET v = v + 1 WHERE id = $1::int", "4")
		c.simple("PREPARE one (int) AS SELECT v FROM counted WHERE id = $1", "EXECUTE one(1)", "DEALLOCATE one",
			"PREPARE other (int) AS UPDATE counted SET v = v + 1 WHERE id = $1", "EXECUTE other(1)", "DEALLOCATE other")
	}},
	{"cursors", amount{3, 0, 2, 0, 6, 0}, func(c client, _ int) {
		c.simple("BEGIN", "DECLARE few CURSOR FOR SELECT v FROM counted ORDER BY id", "FETCH 2 FROM few", "MOVE 2 IN few",
			"FETCH 2 FROM few", "CLOSE few", "COMMIT", "BEGIN", "DECLARE held CURSOR WITH HOLD FOR SELECT v FROM counted", "COMMIT",
			"FETCH 2 FROM held", "CLOSE held")
	}},
	{"COPY", amount{3, 1, 1, 2, 9, 0}, func(c client, turn int) {
		c.copyIn("COPY parts FROM STDIN", fmt.Sprintf("%d\t1\n%d\t2\n", turn*10+1, turn*10+2))
		c.copyIn("COPY keyless FROM STDIN", "7\n8\n")
		c.copyIn("COPY counted FROM STDIN", "1\t1\n")
		c.copyOut("COPY counted TO STDOUT")
	}},
	{"functions", amount{4, 0, 3, 1, 3, 0}, func(c client, _ int) {
		c.simple("SELECT bump()", "DO $$BEGIN UPDATE counted SET v = v + 1 WHERE id = 5; END$$",
			"UPDATE watched SET v = v + 1 WHERE id = 1", "BEGIN", "SELECT bump()", "SELECT v FROM counted WHERE id = 1", "COMMIT")
	}},
	{"other tables", amount{4, 0, 1, 2, 1, 0}, func(c client, turn int) {
		c.simple("CREATE TEMP TABLE IF NOT EXISTS mine (id int PRIMARY KEY)", fmt.Sprintf("INSERT INTO mine VALUES (%d)", turn),
			"SELECT id FROM mine LIMIT 1", fmt.Sprintf("INSERT INTO unlogged VALUES (%d)", turn))
	}},
	{"keys", amount{3, 0, 0, 3, 0, 0}, func(c client, turn int) {
		c.simple(fmt.Sprintf("INSERT INTO counted VALUES (%d, 0)", 100+turn),
			fmt.Sprintf("UPDATE counted SET id = %d WHERE id = %d", 200+turn, 100+turn),
			fmt.Sprintf("INSERT INTO parts VALUES (%d, %d)", turn, 200+turn))
	}},
	{"cascades", amount{2, 0, 0, 3, 0, 0}, func(c client, turn int) {
		c.simple(fmt.Sprintf("DELETE FROM counted WHERE id = %d", 200+turn), "BEGIN", "INSERT INTO counted VALUES (300, 0)",
			"DELETE FROM counted WHERE id = 300", "COMMIT")
	}},
	// What becomes of a prepared one is known if it is committed: one that is rolled back stays among those that aren't
	// checked, since its outcome is unknown.
	{"in two phases", amount{2, 0, 0, 2, 0, 0}, func(c client, turn int) {
		c.simple("BEGIN", "UPDATE counted SET v = v + 1 WHERE id = 6", fmt.Sprintf("PREPARE TRANSACTION 'kept %d'", turn),
			fmt.Sprintf("COMMIT PREPARED 'kept %d'", turn), "BEGIN", "UPDATE counted SET v = v + 1 WHERE id = 7",
			fmt.Sprintf("PREPARE TRANSACTION 'not %d'", turn), fmt.Sprintf("ROLLBACK PREPARED 'not %d'", turn))
	}},
	{"definitions", amount{3, 0, 0, 0, 0, 0}, func(c client, turn int) {
		c.simple("ALTER TABLE keyless ADD COLUMN IF NOT EXISTS w int", "CREATE INDEX few ON keyless (v)", "DROP INDEX few")
	}},
	{"levels", amount{2, 0, 4, 2, 2, 0}, func(c client, _ int) {
		for _, level := range []string{"REPEATABLE READ", "SERIALIZABLE"} {
			c.simple("BEGIN ISOLATION LEVEL "+level, "SELECT v FROM counted WHERE id = 1", "SELECT v FROM counted WHERE id = 999",
				"UPDATE counted SET v = v + 1 WHERE id = 1", "COMMIT")
		}
	}},
}

// changed matches a change in what test_decoding says, with the table and its row's text.
var changed = regexp.MustCompile(`^table public\.(\w+): (?:INSERT|UPDATE|DELETE):(?: old-key: (.*) new-tuple:)? (.*)$`)

// written counts the rows of the server's log, each row of a transaction once.
func written(t *testing.T, conn *pgconn.PgConn) int {
	t.Helper()
	results, err := conn.Exec(context.Background(),
		"SELECT xid, data FROM pg_logical_slot_peek_changes('beside', NULL, NULL)").ReadAll()
	if err != nil {
		t.Fatal(err)
	}
	id := regexp.MustCompile(`\bid\[integer\]:\d+( counted\[integer\]:\d+)?`)
	rows, keyless := map[string]bool{}, 0
	for _, row := range results[0].Rows {
		it := changed.FindStringSubmatch(string(row[1]))
		switch {
		case it == nil:
		case it[1] == "keyless":
			keyless++
		default:
			for _, text := range it[2:] {
				if key := id.FindString(text); key != "" {
					rows[fmt.Sprintf("%s %s %s", row[0], it[1], key)] = true
				}
			}
		}
	}
	return len(rows) + keyless
}

var only = flag.String("way", "", "the only `name` of a way for TestTotalsOfAllWays, to find which one is counted wrongly")

// TestTotalsOfAllWays: each transaction of a client is in one place of the totals, with its statements and the rows that
// it got, and each row that the server's log has, in whatever way the client sends them, from the audit's first moment.
func TestTotalsOfAllWays(t *testing.T) {
	c := start(t, "max_prepared_transactions=10")
	beside := directly(t, c)
	sql(t, beside, countedRows)
	sql(t, beside, "SELECT pg_create_logical_replication_slot('beside', 'test_decoding')")
	defer sql(t, beside, "SELECT pg_drop_replication_slot('beside')")
	p := begin(t, c, "--between", "100ms")
	p.until(`["open"`)
	var want amount
	for _, its := range ways {
		if *only != "" && its.name != *only {
			continue
		}
		conn := p.connect()
		for turn := 0; turn < 4; turn++ {
			its.run(client{t, conn}, turn)
			want.add(its.each, 1)
		}
		conn.Close(context.Background())
	}
	want.written = written(t, beside)
	var got amount
	it := p.summed(func(it *sums) bool {
		its := &it.Totals
		got = amount{its.Transactions.All, its.Transactions.RolledBack, its.Selects.All, its.Writes.All, its.RowsRead.All,
			its.RowsWritten.All}
		isThere := got.transactions+got.undone >= want.transactions+want.undone && got.written >= want.written
		return isThere && it.decided()
	})
	if got != want || it.Totals.Outside.Transactions+it.Totals.Outside.RowsWritten > 0 {
		t.Errorf("counted are %+v, and there were %+v: %+v", got, want, it.Totals)
	}
	fmt.Fprintln(p.say, `{"command":"stop"}`)
	p.until("stopped")
}
