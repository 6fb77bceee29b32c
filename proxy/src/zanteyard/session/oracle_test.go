package session

import (
	"bytes"
	"fmt"
	"strings"
	"testing"

	"github.com/jackc/pgproto3/v2"

	"zanteyard/wire"
)

// exchange is a list of a client's steps on one connection.
type exchange struct {
	name  string
	user  string // postgres if ""
	steps []step
	sees  int  // at least this many reads are reported once everything is tried
	once  bool // it is run only once, since it leaves something on the connection
}

func queries(texts ...string) []step {
	var all []step
	for _, text := range texts {
		all = append(all, query(text))
	}
	return all
}

// extended runs one statement as drivers do: all messages, then a Sync.
func extended(text string, formats []int16, parameters ...string) step {
	var values [][]byte
	for _, p := range parameters {
		values = append(values, []byte(p))
	}
	return messages('Z', &pgproto3.Parse{Query: text}, &pgproto3.Bind{Parameters: values, ResultFormatCodes: formats},
		&pgproto3.Describe{ObjectType: 'P'}, &pgproto3.Execute{}, &pgproto3.Sync{})
}

func named(name, text string, types ...uint32) step {
	return messages('Z', &pgproto3.Parse{Name: name, Query: text, ParameterOIDs: types},
		&pgproto3.Describe{ObjectType: 'S', Name: name}, &pgproto3.Sync{})
}

func bound(name string, formats []int16, parameters ...string) step {
	var values [][]byte
	for _, p := range parameters {
		values = append(values, []byte(p))
	}
	return messages('Z', &pgproto3.Bind{PreparedStatement: name, Parameters: values, ResultFormatCodes: formats},
		&pgproto3.Describe{ObjectType: 'P'}, &pgproto3.Execute{}, &pgproto3.Sync{})
}

// binaryBound has an int parameter in binary format.
func binaryBound(name string, parameter byte) step {
	return messages('Z', &pgproto3.Bind{PreparedStatement: name, ParameterFormatCodes: []int16{1},
		Parameters: [][]byte{{0, 0, 0, parameter}}}, &pgproto3.Execute{}, &pgproto3.Sync{})
}

func closed(name string) step {
	return messages('Z', &pgproto3.Close{ObjectType: 'S', Name: name}, &pgproto3.Sync{})
}

func join(all ...[]step) []step {
	var to []step
	for _, s := range all {
		to = append(to, s...)
	}
	return to
}

// TestSame runs each exchange directly and through a session, several times on one connection: with nothing tried, with
// everything possible tried before a run, and with everything possible tried before each step. Every byte that the
// client gets must be the same.
func TestSame(t *testing.T) {
	needServer(t)
	for _, x := range exchanges() {
		x := x
		t.Run(x.name, func(t *testing.T) { exchangeSame(t, x, 3) })
	}
}

// exchangeSame compares the answers with the server's direct answers, several times.
func exchangeSame(t *testing.T, x exchange, runs int) {
	user := x.user
	if user == "" {
		user = "postgres"
	}
	if x.once {
		runs = 1
	}
	d := direct(t, user)
	p := through(t, user, nil)
	for run := 0; run < runs; run++ {
		sql(t, fill)
		var wanted [][][]byte
		for _, s := range x.steps {
			wanted = append(wanted, d.do(s))
		}
		sql(t, fill)
		p.sink.take()
		for i, s := range x.steps {
			got := p.do(s)
			if run == runs-1 && !x.once && s.until == 'Z' {
				p.settle()
			}
			if x.once {
				mask(got)
				mask(wanted[i])
			}
			if !same(got, wanted[i]) {
				t.Fatalf("run %d, step %d, sent %q\ngot\n%swanted\n%s", run, i, s.send, show(got), show(wanted[i]))
			}
		}
		p.settle()
	}
	seen := 0
	for _, tx := range p.sink.take() {
		seen += len(tx.Reads)
	}
	if seen < x.sees {
		t.Errorf("%d reads were seen in place of at least %d; left out: %q", seen, x.sees, p.sink.unseen)
	}
}

func same(a, b [][]byte) bool {
	if len(a) != len(b) {
		return false
	}
	for i := range a {
		if !bytes.Equal(a[i], b[i]) {
			return false
		}
	}
	return true
}

// mask removes the identifiers of tables from descriptions: those of tables that the exchange makes differ.
func mask(all [][]byte) {
	for _, m := range all {
		if m[0] != 'T' {
			continue
		}
		_, ends, _ := wire.Columns(m, nil, nil)
		for _, end := range ends {
			copy(m[end-18:end-14], []byte{0, 0, 0, 0})
		}
	}
}

func exchanges() []exchange {
	return append(append(simpleExchanges(), extendedExchanges()...), copyExchanges()...)
}

func simpleExchanges() []exchange {
	return []exchange{
		{name: "select by key", steps: queries("SELECT * FROM t WHERE id = 3"), sees: 1},
		{name: "select with comments", sees: 1,
			steps: queries("/* a */ SELECT /* FROM x */ v -- from\n FROM t /* ; */ WHERE id = 3 -- end")},
		{name: "no row", steps: queries("SELECT * FROM t WHERE id = 300")},
		{name: "many rows", steps: queries("SELECT id, w FROM t ORDER BY 1", "SELECT w, id FROM t ORDER BY 2 DESC LIMIT 3"),
			sees: 23},
		{name: "a join", steps: queries("SELECT t.v, u.v FROM t JOIN u ON t.id = u.a WHERE u.b > 'b3' ORDER BY 1, 2"),
			sees: 5},
		{name: "an outer join", steps: queries("SELECT t.v, u.b, u.v FROM t LEFT JOIN u ON t.id = u.a ORDER BY 1, 2"),
			sees: 20},
		{name: "aggregates", steps: queries("SELECT count(*) FROM t", "SELECT v % 2, sum(v) FROM t GROUP BY 1 ORDER BY 1",
			"SELECT DISTINCT v % 3 FROM t ORDER BY 1", "SELECT id FROM t UNION SELECT a FROM u ORDER BY 1")},
		{name: "subqueries", steps: queries("SELECT id FROM t WHERE v = (SELECT max(v) FROM t)",
			"SELECT id FROM t WHERE EXISTS (SELECT 1 FROM u WHERE a = t.id) ORDER BY id",
			"WITH x AS (SELECT id FROM t WHERE id < 4) SELECT * FROM x ORDER BY 1",
			"SELECT * FROM (SELECT id, v FROM t) s WHERE id = 2")},
		{name: "windows", steps: queries("SELECT id, row_number() OVER (ORDER BY v DESC) FROM t ORDER BY 2 LIMIT 3")},
		{name: "writes", steps: queries("UPDATE t SET v = v + 1 WHERE id = 4", "INSERT INTO t VALUES (100, 1, 'x')",
			"DELETE FROM t WHERE id = 100", "UPDATE t SET v = 0 WHERE id > 10", "UPDATE t SET v = 1 WHERE id = 400")},
		{name: "writes returning", steps: queries("UPDATE t SET v = v + 1 WHERE id = 4 RETURNING v",
			"INSERT INTO serials (v) VALUES (1) RETURNING id", "DELETE FROM t WHERE id = 5 RETURNING *",
			"INSERT INTO t VALUES (4, 0, 'y') ON CONFLICT (id) DO UPDATE SET w = excluded.w RETURNING w, v",
			"INSERT INTO t VALUES (4, 0, 'y') ON CONFLICT DO NOTHING RETURNING *",
			"UPDATE t SET v = u.v FROM u WHERE u.a = t.id AND u.b = 'b5' RETURNING t.id, u.b")},
		{name: "a block", sees: 2, steps: queries("BEGIN", "SELECT v FROM t WHERE id = 1", "UPDATE t SET v = 5 WHERE id = 1",
			"SELECT v FROM t WHERE id = 1", "COMMIT")},
		{name: "a serializable block", sees: 1, steps: queries("BEGIN ISOLATION LEVEL SERIALIZABLE",
			"SELECT v FROM t WHERE id = 1",
			"SELECT v FROM t WHERE id = 1000", "SELECT bump(3)", "COMMIT", "SHOW transaction_isolation")},
		{name: "a block that fails", steps: queries("BEGIN", "SELECT v FROM t WHERE id = 1", "SELECT 1 / 0",
			"SELECT v FROM t",
			"COMMIT", "SELECT 1")},
		{name: "savepoints", sees: 2, steps: queries("BEGIN", "SAVEPOINT a", "UPDATE t SET v = 5 WHERE id = 1",
			"SELECT v FROM t WHERE id = 1",
			"ROLLBACK TO a", "SELECT v FROM t WHERE id = 1", "SELECT nothing FROM t", "ROLLBACK TO a", "RELEASE a", "COMMIT")},
		{name: "chains", steps: queries("BEGIN", "UPDATE t SET v = 5 WHERE id = 1", "COMMIT AND CHAIN",
			"SELECT v FROM t WHERE id = 1",
			"ROLLBACK AND CHAIN", "SELECT 1", "ROLLBACK", "COMMIT", "ROLLBACK")},
		{name: "several statements", steps: queries("SELECT v FROM t WHERE id = 1; SELECT v FROM t WHERE id = 2",
			"BEGIN; UPDATE t SET v = 7 WHERE id = 1; SELECT v FROM t WHERE id = 1; COMMIT",
			"UPDATE t SET v = 8 WHERE id = 1; SELECT 1 / 0; SELECT 2", "SELECT v FROM t WHERE id = 1", "", ";", " ; ; ",
			"/* nothing */")},
		{name: "several statements that fail", sees: 4, steps: queries(
			"SELECT v FROM t WHERE id = 1; SELECT 'ü', v FROM t WHERE id = 2; SELECT v, nothere FROM t",
			"SELECT v FROM t WHERE id = 1; SELECT 'ü', v FROM t WHERE nothere = 2; SELECT v FROM t",
			"BEGIN; SELECT v FROM t WHERE id = 1; SELECT v / 0 FROM t WHERE id = 2; SELECT v FROM t", "ROLLBACK",
			"SELECT v FROM t WHERE id = 1; SELECT v FROM t WHERE id = 2; SELECT v FROM t WHERE 'x' +")},
		{name: "several statements with cursors", sees: 4, steps: queries(
			"BEGIN; DECLARE c CURSOR FOR SELECT id, w FROM t ORDER BY id; FETCH 2 FROM c; FETCH 1 FROM c",
			"FETCH 1 FROM c; CLOSE c; DECLARE c CURSOR FOR SELECT 1; FETCH 1 FROM c; COMMIT; SELECT 1")},
		{name: "several statements that write", sees: 1, steps: queries(
			"UPDATE t SET v = 1 WHERE id = 1; INSERT INTO t VALUES (90, 1, 'x'); "+
				"DELETE FROM t WHERE id = 90 RETURNING *; SELECT 1",
			"INSERT INTO part VALUES (30, 1) RETURNING id; SELECT v FROM t WHERE id = 1; "+
				"UPDATE t SET v = 2 WHERE id = 1 RETURNING v")},
		{name: "several statements that change names", once: true, steps: queries(
			"SELECT v FROM t WHERE id = 1", "SELECT v FROM t WHERE id = 1", "SELECT v FROM t WHERE id = 1",
			"SELECT v FROM t WHERE id = 1; CREATE TEMP TABLE t (v int); SELECT v FROM t; DROP TABLE t; "+
				"SELECT v FROM t WHERE id = 1",
			"SELECT v FROM t WHERE id = 1; SET search_path TO pg_catalog; SELECT v FROM t",
			"SELECT v FROM public.t WHERE id = 1; RESET search_path")},
		{name: "errors", steps: queries("SELCT 1", "SELECT * FROM nothere", "SELECT nothere FROM t",
			"SELECT v, nothere FROM t WHERE id = 1",
			"SELECT v FROM t WHERE nothere = 1", "SELECT v FROM t WHERE id = 'x'", "SELECT v / 0 FROM t",
			"SELECT v FROM t WHERE id = 1 +",
			"INSERT INTO t VALUES (1, 2, 'x')", "INSERT INTO t (nothere) VALUES (1)", "UPDATE t SET nothere = 1 WHERE id = 1",
			"UPDATE t SET v = nothere WHERE id = 1", "DELETE FROM t WHERE nothere",
			"UPDATE t SET v = 'é' + 'ü' WHERE id = nothere",
			"SELECT 'üüüü', v FROM t WHERE 'é' = nothere")},
		{name: "views, functions, procedures", steps: queries("SELECT * FROM seen WHERE id = 2", "SELECT bump(2)",
			"SELECT * FROM generate_series(1, 3)",
			"CALL twice(3)", "SELECT loud(id) FROM t WHERE id < 3 ORDER BY id", "SELECT v, loud(id) FROM t WHERE id = 5",
			"DO $$BEGIN PERFORM bump(1); END$$", "SELECT v FROM t WHERE id IN (1, 2, 3) ORDER BY id")},
		{name: "partitions", sees: 3, steps: queries("SELECT * FROM part WHERE id = 120",
			"SELECT v FROM part WHERE id < 50 ORDER BY id",
			"INSERT INTO part VALUES (7, 7)", "INSERT INTO part VALUES (700, 7) RETURNING *",
			"UPDATE part SET v = 1 WHERE id = 7",
			"UPDATE part SET id = 107 WHERE id = 7", "UPDATE part SET v = 2 WHERE id = 700 RETURNING v",
			"DELETE FROM part WHERE id = 107",
			"INSERT INTO part VALUES (5000, 1)")},
		{name: "no key, two keys", sees: 3, steps: queries("SELECT * FROM keyless", "INSERT INTO keyless VALUES (3, 3)",
			"DELETE FROM keyless WHERE a = 3",
			"SELECT * FROM u WHERE a = 1 AND b = 'b1'", "SELECT * FROM u WHERE a = 2 ORDER BY b",
			"SELECT t.* FROM keyless JOIN t ON t.id = a ORDER BY 1")},
		{name: "locks", sees: 2, steps: queries("SELECT v FROM t WHERE id = 1 FOR UPDATE",
			"SELECT v FROM t WHERE id = 1 FOR SHARE NOWAIT")},
		{name: "cursors", sees: 12, steps: queries("BEGIN", "DECLARE c CURSOR FOR SELECT id, w FROM t ORDER BY id",
			"FETCH 2 FROM c", "FETCH NEXT FROM c",
			"MOVE 2 FROM c", "FETCH FORWARD 3 FROM c", "FETCH ALL FROM c", "FETCH 1 FROM c", "CLOSE c", "FETCH c", "ROLLBACK",
			"BEGIN", "DECLARE c SCROLL CURSOR FOR SELECT v FROM t WHERE id < 5 ORDER BY id", "FETCH LAST FROM c",
			"FETCH PRIOR FROM c", "FETCH ABSOLUTE 1 FROM c",
			"UPDATE t SET v = 1 WHERE id = 1", "COMMIT", "FETCH c")},
		{name: "cursors to update by", sees: 1, steps: queries("BEGIN",
			"DECLARE c CURSOR FOR SELECT id, v FROM t WHERE id = 3 FOR UPDATE", "FETCH c",
			"UPDATE t SET v = 9 WHERE CURRENT OF c", "CLOSE ALL", "COMMIT")},
		{name: "cursors that stay", sees: 4, steps: queries("BEGIN",
			"DECLARE h CURSOR WITH HOLD FOR SELECT id, v FROM t ORDER BY id", "FETCH c", "ROLLBACK",
			"BEGIN", "DECLARE h CURSOR WITH HOLD FOR SELECT id, v FROM t ORDER BY id", "COMMIT", "FETCH 2 FROM h", "CLOSE h",
			"BEGIN", "DECLARE b BINARY CURSOR FOR SELECT id FROM t ORDER BY id", "FETCH 2 FROM b", "COMMIT")},
		{name: "cursors that stay, moved", sees: 20, steps: queries(
			`DECLARE "h" SCROLL CURSOR WITH HOLD FOR SELECT id, v, w FROM t ORDER BY id`, `FETCH 2 FROM "h"`, "MOVE 3 FROM h",
			"FETCH PRIOR FROM h", "FETCH LAST FROM h", "FETCH ABSOLUTE 4 FROM h", "FETCH RELATIVE -2 FROM h", "FETCH BACKWARD ALL FROM h",
			"UPDATE t SET v = 7 WHERE id = 3", "FETCH 3 FROM h", "BEGIN", "FETCH 1 FROM h", "SELECT 1 / 0", "FETCH 1 FROM h", "ROLLBACK",
			"FETCH 1 FROM h", "BEGIN", "SAVEPOINT s", "FETCH 1 FROM h", "ROLLBACK TO s", "FETCH 1 FROM h", "COMMIT", "FETCH ALL FROM h",
			"FETCH 1 FROM h", "DEALLOCATE ALL", "FETCH FIRST FROM h", "DISCARD ALL", "FETCH 1 FROM h")},
		{name: "cursors' names", sees: 1, steps: queries(`FETCH ""`, `CLOSE ""`, `MOVE ""`, `DECLARE "" CURSOR WITH HOLD FOR SELECT id, v FROM t`,
			`DECLARE "ALL" SCROLL CURSOR WITH HOLD FOR SELECT id, v FROM t ORDER BY id`, `FETCH "ALL"`, `FETCH 1 FROM "all"`, `FETCH 2 FROM "ALL"`,
			`MOVE "ALL"`, `FETCH U&"\0041LL"`, `FETCH 1 FROM U&"!0041LL" UESCAPE '!'`, `CLOSE "all"`, `FETCH "ALL"`, `CLOSE "ALL"`, `FETCH "ALL"`)},
		{name: "cursors that stay, binary", sees: 3, steps: queries(
			"DECLARE h BINARY NO SCROLL CURSOR WITH HOLD FOR SELECT id, w FROM t WHERE id > 3 ORDER BY id", "FETCH 2 FROM h",
			"FETCH FORWARD 3 FROM h; FETCH 1 FROM h", "FETCH PRIOR FROM h", "CLOSE ALL", "FETCH h")},
		{name: "cursors that stay, and that don't", sees: 2, steps: queries("BEGIN",
			"DECLARE h CURSOR WITH HOLD FOR SELECT id, v FROM t ORDER BY id", "DECLARE c CURSOR FOR SELECT v FROM t ORDER BY id", "FETCH 1 FROM h",
			"FETCH 1 FROM c", "COMMIT", "FETCH 1 FROM c", "FETCH 1 FROM h", "CLOSE h", "BEGIN", "SAVEPOINT s",
			"DECLARE h CURSOR WITH HOLD FOR SELECT w FROM t ORDER BY id", "ROLLBACK TO s", "FETCH h", "ROLLBACK", "FETCH h",
			"DECLARE h CURSOR WITH HOLD FOR SELECT 10 / (id - 20) FROM t ORDER BY id", "FETCH h",
			"BEGIN", "DECLARE h CURSOR WITH HOLD FOR SELECT 10 / (id - 20) FROM t ORDER BY id", "FETCH 1 FROM h", "COMMIT", "FETCH h",
			"DECLARE h CURSOR WITHOUT HOLD FOR SELECT v FROM t", "DECLARE h CURSOR WITH HOLD FOR SELECT v FROM t FOR UPDATE")},
		{name: "cursors and savepoints", sees: 1, steps: queries("BEGIN",
			"DECLARE c CURSOR FOR SELECT id, w FROM t ORDER BY id", "FETCH c", "SAVEPOINT s",
			"CLOSE c", "DECLARE c CURSOR FOR SELECT count(*) FROM t", "FETCH c", "ROLLBACK TO s", "FETCH c", "SELECT 1 / 0",
			"CLOSE c", "ROLLBACK TO s",
			"DECLARE c CURSOR FOR SELECT 1", "ROLLBACK TO s", "FETCH 2 FROM c", "COMMIT")},
		{name: "SQL's PREPARE", sees: 2, steps: queries("PREPARE p (int) AS SELECT id, v FROM t WHERE id = $1",
			"EXECUTE p (3)",
			"/* x */ execute p (4) -- y", "EXPLAIN (COSTS OFF, VERBOSE) EXECUTE p (3)", "EXECUTE p ('ü')", "EXECUTE p (nothere)",
			"BEGIN", "EXECUTE p (5)", "SELECT 1 / 0", "EXECUTE p (5)", "ROLLBACK", "CREATE TEMP TABLE made AS EXECUTE p (3)",
			"SELECT count(*) FROM made", "DROP TABLE made", "DEALLOCATE p", "EXECUTE p (3)",
			"PREPARE p AS UPDATE t SET v = 1 WHERE id = 2", "EXECUTE p", "EXECUTE p", "PREPARE p AS SELECT 1",
			"PREPARE \"P q\" AS UPDATE t SET v = 2 WHERE id = 2 RETURNING v, w", "EXECUTE \"P q\"", "EXECUTE \"P q\"",
			"PREPARE r AS SELECT count(*) FROM t", "EXECUTE r", "DEALLOCATE ALL", "EXECUTE p")},
		{name: "SQL's PREPARE, then a setting", once: true, steps: queries("PREPARE p AS SELECT v FROM t WHERE id = 1",
			"EXECUTE p",
			"EXECUTE p", "EXECUTE p", "CREATE TEMP TABLE t (v int)", "EXECUTE p", "EXECUTE p", "DROP TABLE t", "EXECUTE p",
			"EXECUTE p")},
		{name: "settings", steps: queries("SET search_path TO public", "SELECT v FROM t WHERE id = 1",
			"SET LOCAL statement_timeout = 0",
			"SET TIME ZONE 'UTC'", "SET application_name TO 'x'", "SHOW search_path", "RESET search_path",
			"SELECT v FROM t WHERE id = 1", "RESET ALL")},
		{name: "prepared transactions", steps: queries("BEGIN", "UPDATE t SET v = 1 WHERE id = 1",
			"PREPARE TRANSACTION 'x'", "SELECT v FROM t WHERE id = 2",
			"COMMIT PREPARED 'x'", "SELECT v FROM t WHERE id = 1")},
		{name: "DISCARD ALL", sees: 1, steps: queries("SELECT v FROM t WHERE id = 1", "DISCARD ALL",
			"SELECT v FROM t WHERE id = 1",
			"BEGIN", "SELECT bump(1)", "COMMIT", "BEGIN", "SELECT v FROM t WHERE id = 2", "DISCARD ALL", "COMMIT",
			"DISCARD TEMP")},
		{name: "LISTEN", steps: []step{query("LISTEN a"), {encoded(&pgproto3.Query{String: "NOTIFY b"}), 'Z', 1},
			query("UNLISTEN *")}},
		{name: "EXPLAIN", steps: queries("EXPLAIN (COSTS OFF, VERBOSE) SELECT v FROM t WHERE id = 1",
			"EXPLAIN (COSTS OFF) UPDATE t SET v = 1 WHERE id = 1")},
		{name: "column rights", user: "limited", steps: queries("SELECT v FROM t", "SELECT v FROM t", "SELECT * FROM t",
			"UPDATE t SET v = 1 WHERE id = 1",
			"SELECT v FROM u WHERE a = 1 AND b = 'b1'", "UPDATE u SET v = 3 WHERE a = 1 AND b = 'b1'",
			"INSERT INTO u VALUES (1, 'z', 1)")},
		{name: "roles", steps: queries("SELECT v FROM t WHERE id = 1", "SET ROLE limited", "SELECT v FROM t",
			"SELECT v FROM t", "BEGIN", "SELECT v FROM t",
			"RESET ROLE", "SELECT v FROM t WHERE id = 2", "SET LOCAL ROLE limited", "SELECT v FROM t", "COMMIT",
			"SELECT v FROM t WHERE id = 2")},
		{name: "temporary tables", once: true, steps: queries("SELECT v FROM t WHERE id = 1",
			"SELECT v FROM t WHERE id = 1", "CREATE TEMP TABLE t (v int)", "SELECT v FROM t",
			"INSERT INTO t VALUES (3)", "SELECT v FROM t", "BEGIN", "SELECT v FROM t", "DROP TABLE t",
			"SELECT v FROM t WHERE id = 1", "COMMIT", "SELECT v FROM t WHERE id = 1")},
		{name: "temporary tables by a function", once: true, steps: queries("SELECT v FROM t WHERE id = 1",
			"SELECT v FROM t WHERE id = 1", "BEGIN",
			"DO $$BEGIN CREATE TEMP TABLE t (v int); END$$", "SELECT v FROM t", "COMMIT", "SELECT v FROM t", "SELECT v FROM t")},
		{name: "settings by a function", once: true, steps: queries("CREATE SCHEMA other", "CREATE TABLE other.t (v int)",
			"SELECT v FROM t WHERE id = 1",
			"SELECT v FROM t WHERE id = 1", "BEGIN", "SELECT set_config('search_path', 'other', false)", "SELECT v FROM t",
			"COMMIT", "SELECT v FROM t", "SELECT v FROM t",
			"DROP SCHEMA public", "DROP SCHEMA other CASCADE")},
		{name: "wide", steps: queries("SELECT "+strings.Repeat("v, ", 1660)+"v FROM t WHERE id = 1",
			"SELECT "+strings.Repeat("v, ", 1700)+"v FROM t WHERE id = 1")},
		{name: "literals", sees: 2, steps: queries(`SELECT v FROM t WHERE w = 'it''s' OR id = 1`,
			`SELECT v FROM t WHERE w = E'a\'b' OR id = 1`, `SELECT v, $$from t$$ FROM t WHERE id = 2`,
			`SELECT v AS "from" FROM t WHERE id = 2`, `SELECT U&'\0041', v FROM t WHERE id = 1`)},
	}
}

func extendedExchanges() []exchange {
	binary := []int16{1}
	return []exchange{
		{name: "unnamed", sees: 1, steps: []step{extended("SELECT v, w FROM t WHERE id = $1", nil, "3")}},
		{name: "unnamed, binary", sees: 1, steps: []step{extended("SELECT v, w FROM t WHERE id = $1", binary, "3")}},
		{name: "unnamed, both formats", sees: 1, steps: []step{extended("SELECT v, w FROM t WHERE id = $1", []int16{1, 0},
			"3")}},
		{name: "two keys, binary", sees: 1, steps: []step{extended("SELECT v FROM u WHERE a = $1 AND b = $2", binary, "1",
			"b1")}},
		{name: "bad formats", steps: []step{extended("SELECT v FROM t WHERE id = $1", []int16{1, 0, 1}, "3"),
			extended("UPDATE t SET v = $1 WHERE id = 3", []int16{1, 0}, "3")}},
		{name: "writes", steps: []step{extended("UPDATE t SET v = $1 WHERE id = 3", nil, "5"),
			extended("UPDATE t SET v = $1 WHERE id = 3 RETURNING w", binary, "5"),
			extended("INSERT INTO t VALUES ($1, 0, 'x')", nil, "77"), extended("DELETE FROM t WHERE id = $1", nil, "77"),
			extended("", nil)}},
		{name: "named", sees: 3, steps: []step{named("p1", "SELECT v FROM t WHERE id = $1"), bound("p1", nil, "1"),
			bound("p1", binary, "2"), bound("p1", nil, "3"), closed("p1")}},
		{name: "named twice", sees: 1, steps: []step{named("p1", "SELECT v FROM t WHERE id = $1"), named("p1",
			"SELECT w FROM t WHERE id = $1"), bound("p1", nil, "1"), closed("p1"),
			named("p1", "SELECT w FROM t WHERE id = $1"), bound("p1", nil, "1"), closed("p1"), closed("p1"), bound("p1", nil,
				"1")}},
		{name: "named, given up by SQL", sees: 1, steps: join([]step{named("p1", "SELECT v FROM t WHERE id = $1"),
			bound("p1", nil, "1")}, queries("DEALLOCATE p1"),
			[]step{bound("p1", nil, "1"), named("p1", "SELECT w FROM t WHERE id = $1"), bound("p1", nil, "1")},
			queries("DO $$BEGIN EXECUTE 'DEALLOCATE p1'; END$$"),
			[]step{named("p1", "SELECT id FROM t WHERE id = $1"), bound("p1", nil, "4")}, queries("DISCARD ALL"),
			[]step{bound("p1", nil, "1")})},
		{name: "named, run by SQL", steps: join([]step{named("p1", "SELECT v FROM t WHERE id = $1", 23), bound("p1", nil,
			"1")}, queries("EXECUTE p1 (2)", "EXECUTE p1 (2)"), []step{closed("p1")})},
		{name: "named, definitions change", sees: 1, steps: join(queries("INSERT INTO changing VALUES (1, 1, 1), (2, 2, 2)"),
			[]step{named("p1", "SELECT v + 0 FROM changing WHERE id = $1"), named("p2", "SELECT 'one' FROM changing WHERE w = $1"),
				bound("p1", nil, "1"), bound("p2", nil, "1"), bound("p1", binary, "1"), binaryBound("p2", 1)},
			queries("ALTER TABLE changing ADD x int"), []step{bound("p1", nil, "1"), bound("p2", nil, "1"), bound("p1", nil, "1")},
			queries("ALTER TABLE changing ALTER w TYPE bigint"), []step{bound("p1", nil, "1"), binaryBound("p2", 1),
				bound("p2", nil, "2"), binaryBound("p2", 2)}, queries("ALTER TABLE changing ALTER v TYPE bigint"),
			[]step{bound("p1", nil, "1"), bound("p2", nil, "1"), bound("p1", binary, "1"), binaryBound("p2", 1), closed("p1"),
				named("p1", "SELECT v + 0 FROM changing WHERE id = $1"), bound("p1", nil, "1"), bound("p1", binary, "1"),
				closed("p1"), closed("p2")}, queries("ALTER TABLE changing ALTER v TYPE int, ALTER w TYPE int, DROP x",
				"DELETE FROM changing"))},
		{name: "prepared by SQL, bound", steps: join(queries("PREPARE p2 (int) AS SELECT v FROM t WHERE id = $1"),
			[]step{bound("p2", nil, "1"), bound("p2", binary, "1")}, queries("DEALLOCATE p2"))},
		{name: "unnamed stays", sees: 2, steps: []step{
			messages('Z', &pgproto3.Parse{Query: "SELECT v FROM t WHERE id = $1"}, &pgproto3.Describe{ObjectType: 'S'},
				&pgproto3.Sync{}),
			bound("", nil, "1"), bound("", binary, "2"), query("SELECT 1"), bound("", nil, "1")}},
		{name: "unnamed, then a setting", steps: join([]step{messages('Z',
			&pgproto3.Parse{Query: "SELECT v FROM t WHERE id = $1"}, &pgproto3.Sync{}),
			bound("", nil, "1"), messages('Z', &pgproto3.Parse{Name: "s", Query: "SET search_path TO public"},
				&pgproto3.Bind{PreparedStatement: "s"}, &pgproto3.Execute{},
				&pgproto3.Bind{Parameters: [][]byte{[]byte("1")}, ResultFormatCodes: []int16{1}},
				&pgproto3.Describe{ObjectType: 'P'}, &pgproto3.Execute{}, &pgproto3.Sync{}), closed("s")})},
		{name: "row limits", sees: 20, steps: []step{query("BEGIN"), messages('Z',
			&pgproto3.Parse{Query: "SELECT id, v FROM t ORDER BY id"},
			&pgproto3.Bind{DestinationPortal: "c"}, &pgproto3.Execute{Portal: "c", MaxRows: 3}, &pgproto3.Sync{}),
			messages('Z', &pgproto3.Execute{Portal: "c", MaxRows: 2}, &pgproto3.Describe{ObjectType: 'P', Name: "c"},
				&pgproto3.Sync{}),
			messages('Z', &pgproto3.Execute{Portal: "c"}, &pgproto3.Sync{}), messages('Z', &pgproto3.Close{ObjectType: 'P',
				Name: "c"}, &pgproto3.Sync{}),
			messages('Z', &pgproto3.Execute{Portal: "c"}, &pgproto3.Sync{}), query("COMMIT")}},
		{name: "row limits of writes", steps: []step{messages('Z',
			&pgproto3.Parse{Query: "UPDATE t SET v = v + 1 WHERE id = 2"},
			&pgproto3.Bind{}, &pgproto3.Execute{MaxRows: 1}, &pgproto3.Sync{}),
			messages('Z', &pgproto3.Parse{Query: "UPDATE t SET v = v + 1 WHERE id = 2 RETURNING v"}, &pgproto3.Bind{},
				&pgproto3.Execute{MaxRows: 1}, &pgproto3.Execute{MaxRows: 1}, &pgproto3.Sync{})}},
		{name: "pipelines", sees: 4, steps: []step{messages('Z', &pgproto3.Parse{Query: "SELECT v FROM t WHERE id = $1"},
			&pgproto3.Bind{Parameters: [][]byte{[]byte("1")}}, &pgproto3.Execute{},
			&pgproto3.Bind{Parameters: [][]byte{[]byte("2")}}, &pgproto3.Execute{}, &pgproto3.Parse{Name: "q",
				Query: "UPDATE t SET v = 1 WHERE id = 1"}, &pgproto3.Bind{PreparedStatement: "q"},
			&pgproto3.Execute{}, &pgproto3.Sync{}),
			{encoded(&pgproto3.Bind{PreparedStatement: "q"}, &pgproto3.Execute{}, &pgproto3.Sync{},
				&pgproto3.Parse{Query: "SELECT v FROM t WHERE id = 3"}, &pgproto3.Bind{},
				&pgproto3.Describe{ObjectType: 'P'}, &pgproto3.Execute{}, &pgproto3.Sync{},
				&pgproto3.Query{String: "SELECT v FROM t WHERE id = 4"}), 'Z', 3}, closed("q")}},
		{name: "pipelines that fail", sees: 1, steps: []step{
			{encoded(&pgproto3.Parse{Query: "SELECT v FROM t WHERE id = 1"}, &pgproto3.Bind{}, &pgproto3.Execute{},
				&pgproto3.Parse{Query: "SELECT 1 / 0"}, &pgproto3.Bind{}, &pgproto3.Execute{},
				&pgproto3.Parse{Name: "r", Query: "SELECT 2"}, &pgproto3.Close{ObjectType: 'S', Name: "r"},
				&pgproto3.Query{String: "SELECT 3"}, &pgproto3.Sync{}, &pgproto3.Bind{}, &pgproto3.Execute{}, &pgproto3.Sync{}),
				'Z', 2},
			named("r", "SELECT v FROM t WHERE id = 2"), bound("r", nil), closed("r"),
			{encoded(&pgproto3.Parse{Query: "SELECT nothere"}, &pgproto3.Bind{}, &pgproto3.Sync{}, &pgproto3.Bind{},
				&pgproto3.Sync{}), 'Z', 2}}},
		{name: "a pipeline that fails before it is sent whole", sees: 1, steps: []step{
			messages('E', &pgproto3.Parse{Query: "SELECT 1 / 0"}, &pgproto3.Bind{}, &pgproto3.Execute{}, &pgproto3.Flush{}),
			{encoded(&pgproto3.Parse{Name: "s", Query: "SELECT 2"}, &pgproto3.Bind{PreparedStatement: "s"}, &pgproto3.Execute{},
				&pgproto3.Query{String: "SELECT 3"}, &pgproto3.Close{ObjectType: 'S', Name: "s"}), 0, 0},
			messages('Z', &pgproto3.Parse{Query: "SELECT v FROM t WHERE id = 1"}, &pgproto3.Bind{}, &pgproto3.Execute{},
				&pgproto3.Sync{}),
			query("SELECT v FROM t WHERE id = 1"), bound("s", nil)}},
		{name: "a Query in a pipeline that fails, and what is sent behind it", steps: []step{
			messages('E', &pgproto3.Parse{Query: "SELECT nothere"}, &pgproto3.Query{String: "SELECT w, v, w FROM t WHERE id = 9"}),
			messages('Z', &pgproto3.Parse{Query: "UPDATE t SET v = 7 WHERE id = 9"}, &pgproto3.Bind{}, &pgproto3.Execute{},
				&pgproto3.Sync{}), query("SELECT w, v, w FROM t WHERE id = 9")}},
		{name: "a malformed Flush", sees: 1, steps: []step{{append([]byte{'H', 0, 0, 0, 5, 0},
			encoded(&pgproto3.Query{String: "SELECT 1"}, &pgproto3.Sync{}, &pgproto3.Query{String: "SELECT v FROM t WHERE id = 1"},
				&pgproto3.Parse{Query: "SELECT 2"}, &pgproto3.Sync{})...), 'Z', 3}, query("SELECT 3")}},
		{name: "a block in a pipeline", sees: 2, steps: []step{
			messages('Z', &pgproto3.Parse{Query: "BEGIN"}, &pgproto3.Bind{}, &pgproto3.Execute{},
				&pgproto3.Parse{Query: "SELECT v FROM t WHERE id = 1"}, &pgproto3.Bind{}, &pgproto3.Execute{},
				&pgproto3.Parse{Query: "UPDATE t SET v = 2 WHERE id = 1"}, &pgproto3.Bind{}, &pgproto3.Execute{},
				&pgproto3.Parse{Query: "COMMIT"}, &pgproto3.Bind{}, &pgproto3.Execute{},
				&pgproto3.Parse{Query: "SELECT v FROM t WHERE id = 1"}, &pgproto3.Bind{}, &pgproto3.Execute{}, &pgproto3.Sync{})}},
		{name: "COMMIT by messages", steps: []step{query("BEGIN"), extended("SELECT bump(3)", nil), extended("COMMIT", nil),
			named("c", "COMMIT"), query("BEGIN"), query("SELECT bump(3)"), bound("c", nil),
			query("BEGIN"), query("SELECT bump(3)"), messages('Z', &pgproto3.Parse{Query: "COMMIT nothing"}, &pgproto3.Bind{},
				&pgproto3.Execute{}, &pgproto3.Sync{}), query("COMMIT"), closed("c")}},
		{name: "Flush", sees: 1, steps: []step{messages('1', &pgproto3.Parse{Query: "SELECT v FROM t WHERE id = 1"},
			&pgproto3.Flush{}), messages('2', &pgproto3.Bind{}, &pgproto3.Flush{}),
			messages('C', &pgproto3.Execute{}, &pgproto3.Flush{}), messages('Z', &pgproto3.Sync{})}},
		{name: "cursors by messages", sees: 6, steps: []step{query("BEGIN"),
			extended("DECLARE c CURSOR FOR SELECT id, w FROM t ORDER BY id", nil), extended("FETCH 2 FROM c", nil),
			extended("FETCH 2 FROM c", binary),
			extended("FETCH 2 FROM c", []int16{1, 0}), named("f", "FETCH 1 FROM c"), bound("f", nil), closed("f"),
			query("COMMIT")}},
		{name: "FunctionCall", steps: []step{{functionCall(), 'Z', 1}}},
		{name: "unknown statements and portals", steps: []step{bound("nothere", nil), messages('Z',
			&pgproto3.Execute{Portal: "nothere"}, &pgproto3.Sync{}),
			messages('Z', &pgproto3.Describe{ObjectType: 'S', Name: "nothere"}, &pgproto3.Sync{}), messages('Z',
				&pgproto3.Describe{ObjectType: 'P', Name: "nothere"}, &pgproto3.Sync{}),
			messages('Z', &pgproto3.Sync{}), {encoded(&pgproto3.Sync{}, &pgproto3.Sync{}), 'Z', 2}}},
	}
}

// functionCall calls int4pl(1, 2).
func functionCall() []byte {
	body := []byte{0, 0, 0, 177, 0, 1, 0, 1, 0, 2, 0, 0, 0, 4, 0, 0, 0, 1, 0, 0, 0, 4, 0, 0, 0, 2, 0, 1}
	return append([]byte{'F', 0, 0, 0, byte(len(body) + 4)}, body...)
}

func copyExchanges() []exchange {
	var rows []pgproto3.FrontendMessage
	for i := 0; i < 50; i++ {
		rows = append(rows, &pgproto3.CopyData{Data: []byte(fmt.Sprintf("%d\t%s\n", 1000+i, strings.Repeat("x", 5000)))})
	}
	data := encoded(rows...)
	done := func(tail ...pgproto3.FrontendMessage) []byte {
		return append(append([]byte(nil), data...), encoded(tail...)...)
	}
	begin := encoded(&pgproto3.Parse{Query: "COPY big FROM STDIN"}, &pgproto3.Bind{},
		&pgproto3.Describe{ObjectType: 'P'}, &pgproto3.Execute{}, &pgproto3.Sync{})
	return []exchange{
		{name: "COPY to the client", steps: queries("COPY t TO STDOUT",
			"COPY (SELECT id FROM t ORDER BY id) TO STDOUT (FORMAT binary)", "SELECT v FROM t WHERE id = 1"), sees: 1},
		{name: "COPY from the client", sees: 1, steps: []step{{encoded(&pgproto3.Query{String: "COPY big FROM STDIN"}), 'G',
			1}, {done(&pgproto3.CopyDone{}), 'Z', 1}, query("SELECT id FROM big WHERE id = 1001")}},
		{name: "COPY that fails", sees: 1, steps: []step{{encoded(&pgproto3.Query{String: "COPY big FROM STDIN"}), 'G', 1},
			{done(&pgproto3.CopyFail{Message: "no"}), 'Z', 1},
			{encoded(&pgproto3.Query{String: "COPY big FROM STDIN"}), 'G', 1},
			{append(encoded(&pgproto3.CopyData{Data: []byte("bad\n")}), done(&pgproto3.CopyDone{})...), 'Z', 1},
			query("SELECT v FROM t WHERE id = 1")}},
		{name: "COPY by messages", sees: 1, steps: []step{{begin, 'G', 1}, {done(&pgproto3.CopyDone{}, &pgproto3.Sync{}),
			'Z', 1}, query("SELECT id FROM big WHERE id = 1001")}},
		{name: "COPY by messages, that fails", sees: 1, steps: []step{{begin, 'G', 1},
			{done(&pgproto3.CopyFail{Message: "no"}, &pgproto3.Sync{}), 'Z', 1}, query("SELECT v FROM t WHERE id = 1")}},
		{name: "COPY in a block", sees: 1, steps: []step{query("BEGIN"),
			{encoded(&pgproto3.Query{String: "COPY big FROM STDIN"}), 'G', 1}, {done(&pgproto3.CopyDone{}), 'Z', 1},
			query("SELECT id FROM big WHERE id = 1001"), query("COMMIT")}},
		{name: "COPY sent at once", steps: []step{{append(encoded(&pgproto3.Query{String: "COPY big FROM STDIN"}),
			done(&pgproto3.CopyDone{})...), 'Z', 1}, query("SELECT v FROM t WHERE id = 1")}, sees: 1},
		{name: "a long row", sees: 1, steps: []step{extended("INSERT INTO big VALUES (1, $1)", nil, strings.Repeat("a",
			3<<20)), query("SELECT id, body FROM big WHERE id = 1"),
			extended("SELECT body, id FROM big WHERE id = 1", []int16{1, 0}), query("SELECT length(body) FROM big")}},
		{name: "a long statement", steps: []step{query("SELECT length('" + strings.Repeat("a", 3<<20) + "')"),
			extended("SELECT length('"+strings.Repeat("a", 3<<20)+"')", nil),
			named("l", "SELECT length('"+strings.Repeat("a", 3<<20)+"')"), bound("l", nil), closed("l")}},
		{name: "a long parameter", steps: []step{extended("SELECT v, length($1) FROM t WHERE id = 1", []int16{1, 0},
			strings.Repeat("a", 3<<20)), extended("SELECT v, length($1) FROM t WHERE id = 1", []int16{1, 0},
			strings.Repeat("a", 3000))}},
	}
}
