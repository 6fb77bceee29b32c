package session

import (
	"context"
	"fmt"
	"sort"
	"strings"
	"sync"
	"testing"
	"time"

	"github.com/jackc/pgproto3/v2"

	"zanteyard/catalog"
	"zanteyard/condition"
	"zanteyard/definitions"
	"zanteyard/record"
)

var (
	following     *definitions.Definitions
	followingOnce sync.Once
)

// asking connects through a session that follows conditions.
func throughAsking(t *testing.T) *proxied {
	t.Helper()
	followingOnce.Do(func() {
		alone(t)
		var err error
		following, err = definitions.Open(context.Background(), config(), time.Hour, func(string) {}, catalog.WithColumns)
		if err != nil {
			t.Fatal(err)
		}
	})
	return through(t, "postgres", func(o *Options) {
		o.Plans, o.Generation, o.Shared = following, following.Generation, NewShared()
	})
}

const besideNone = "a join of no rows, beside which others could stand"

func shownAsk(one record.Ask) string {
	if one.Why != "" {
		return "not: " + one.Why
	}
	var found []string
	for _, key := range one.Found {
		found = append(found, strings.ReplaceAll(string(key), "\x00", "/"))
	}
	sort.Strings(found) // an UPDATE moves rows
	text := one.Condition.String() + ": " + strings.Join(found, ",")
	if one.Wrote {
		text += " wrote"
	}
	if its := one.Condition.(*condition.Condition); its.Checked() {
		text += fmt.Sprint(" checked, relies on ", len(one.Relies))
	}
	for _, its := range one.Given {
		text += " beside " + string(its.Key)
	}
	return text
}

// TestAsks: what SELECTs asked for by a condition, with the rows that they got, is reported with their transaction.
func TestAsks(t *testing.T) {
	needServer(t)
	alone(t)
	sql(t, fill)
	p := throughAsking(t)
	texts := []string{"UPDATE t SET w = 'z' WHERE v < 20", "DELETE FROM t WHERE v = -7", "SELECT v FROM t WHERE v < 30", "SELECT v FROM t WHERE v < 40 LIMIT 2", "UPDATE t SET w = 'x' WHERE id = 20",
		"SELECT v FROM t WHERE v < 10 AND id = 3", "SELECT count(*) FROM t WHERE v < 30", "SELECT DISTINCT v FROM t", "SELECT v / 20, sum(v) FROM t WHERE v < 40 GROUP BY v / 20 ORDER BY v / 20",
		"SELECT v FROM part WHERE v = 6", "SELECT t.v, u.v FROM t JOIN u ON u.a = t.id WHERE t.v < 30 AND u.v > 2",
		"SELECT t.v, u.v FROM t LEFT JOIN u ON u.a = t.id AND u.v > 100 WHERE t.v < 30", "SELECT t.v, u.v FROM t JOIN u ON u.a = t.id WHERE t.v < 0",
		"SELECT count(*), sum(u.v) FROM t JOIN u ON u.a = t.id WHERE t.v < 30 AND u.v > 2",
		"SELECT v FROM t WHERE v < 30 AND EXISTS (SELECT 1 FROM u WHERE u.v > 2)", "SELECT v FROM t WHERE v < 30 AND NOT EXISTS (SELECT 1 FROM u WHERE u.v > 99)",
		"SELECT v FROM t WHERE v < 30 AND NOT EXISTS (SELECT 1 FROM u WHERE u.a = t.id AND u.v > 99)", "SELECT count(*) FROM t WHERE v < 30 AND NOT EXISTS (SELECT 1 FROM u WHERE u.v > 99)"}
	for i := 0; i < 2; i++ {
		p.warm(texts...)
	}
	for _, x := range []struct {
		name   string
		texts  []string
		want   string
		shows  bool
		parsed []pgproto3.FrontendMessage
	}{
		{name: "one", texts: []string{"SELECT v FROM t WHERE v < 30"}, want: "t WHERE v < 30: 1,2"},
		{name: "nothing found", texts: []string{"BEGIN", "SELECT v FROM t WHERE v < 10 AND id = 3", "COMMIT"}, want: "t WHERE v < 10 AND id = 3: "},
		{name: "with its snapshot", texts: []string{"BEGIN ISOLATION LEVEL REPEATABLE READ", "SELECT v FROM t WHERE v < -5", "COMMIT"},
			want: "t WHERE v < -5: ", shows: true},
		{name: "a partitioned table", texts: []string{"SELECT v FROM part WHERE v = 6"}, want: "part WHERE v = 6: 120"},
		{name: "limits", texts: []string{"BEGIN", "SELECT v FROM t WHERE v < 40 LIMIT 2", "SELECT v FROM t WHERE v < 20 LIMIT 2", "COMMIT"},
			want: "t WHERE v < 20: 1"}, // the first one might have returned any two
		{name: "limits by the key", texts: []string{"BEGIN", "SELECT v FROM t WHERE v < 40 ORDER BY id LIMIT 2", "SELECT v FROM t WHERE v < 40 ORDER BY t.id DESC LIMIT 1",
			"SELECT a, b FROM u WHERE v > 2 ORDER BY a, v LIMIT 2 OFFSET 0", "SELECT v FROM t WHERE v < 20 ORDER BY id LIMIT 2", "COMMIT"},
			want: "t WHERE v < 40 AND id < 2: 1,2; t WHERE v < 40 AND id > 3: 3; u WHERE v > 2 AND a < 0: 0/b4,0/b8; t WHERE v < 20: 1"},
		{name: "limits by others", texts: []string{"BEGIN", "SELECT v FROM t WHERE v < 40 ORDER BY v, id LIMIT 2", "SELECT v AS id FROM t ORDER BY id LIMIT 2",
			"SELECT v FROM t WHERE v < 40 ORDER BY id LIMIT 1 FOR UPDATE", "SELECT b FROM u ORDER BY b LIMIT 1", "SELECT v FROM t ORDER BY id LIMIT 2 OFFSET 1",
			"SELECT v, row_number() OVER () FROM t LIMIT 1", "COMMIT"}, want: "not: LIMIT; not: LIMIT; not: LIMIT; not: LIMIT; not: OFFSET; not: LIMIT"},
		{name: "a limit of none", texts: []string{"BEGIN", "SELECT v FROM t WHERE v < 40 ORDER BY v LIMIT 0", "SELECT v FROM t WHERE v < 20", "COMMIT"}, want: "t WHERE v < 20: 1"},
		{name: "limits of a join", texts: []string{"BEGIN", "SELECT t.v, u.v FROM t JOIN u ON u.a = t.id WHERE t.v < 30 AND u.v > 2 LIMIT 2",
			"SELECT t.v, u.v FROM t JOIN u ON u.a = t.id WHERE t.v < 30 AND u.v > 2 ORDER BY u.a DESC, u.v LIMIT 3",
			"SELECT t.v, u.v FROM t LEFT JOIN u ON u.a = t.id WHERE t.v < 30 ORDER BY t.id LIMIT 5", "COMMIT"},
			want: "u WHERE v > 2 AND a IN (1, 2) AND a > 1: 1/b5,2/b10,2/b6; t WHERE v < 30 AND id < 2: 1,2; not: LIMIT"},
		{name: "a subquery in FROM", texts: []string{"SELECT s.v FROM (SELECT * FROM t WHERE v < 30) AS s WHERE s.id > 1"}, want: "t WHERE v < 30 AND id > 1: 2"},
		{name: "a part of WITH", texts: []string{"WITH s AS (SELECT id, v AS y FROM t WHERE v < 30) SELECT one.y, s.id FROM s AS one JOIN s ON s.id = one.id"},
			want: ""}, // by whole keys
		{name: "a subquery that finds none", texts: []string{"SELECT * FROM (SELECT id, v FROM t WHERE v < 0) AS s"}, want: "t WHERE v < 0: "},
		{name: "beside a row", texts: []string{"BEGIN", "SELECT v FROM t WHERE id = 1",
			"SELECT u.v FROM (SELECT id FROM t WHERE id = 1) AS s JOIN u ON u.a = s.id AND u.v > 100", "COMMIT"}, want: "u WHERE v > 100 AND a IN (1):  beside 1"},
		{name: "beside one that nobody has read", texts: []string{"BEGIN", "SELECT v FROM t WHERE id = 2",
			"SELECT u.v FROM (SELECT id FROM t WHERE id = 1) AS s JOIN u ON u.a = s.id AND u.v > 100",
			"SELECT u.v FROM (SELECT id FROM t WHERE id = 2 AND v < 5) AS s JOIN u ON u.a = s.id AND u.v > 100",
			"SELECT u.v FROM (SELECT id FROM t WHERE id = 2) AS s JOIN u ON u.a = s.id AND u.v > 100 AND 1 = 2",
			"SELECT u.v FROM (SELECT id FROM t WHERE id = 2 LIMIT 1) AS s JOIN u ON u.a = s.id AND u.v > 100", "COMMIT"},
			want: "not: " + besideNone + "; not: " + besideNone + "; not: " + besideNone + "; not: " + besideNone},
		{name: "beside one by a parameter", parsed: []pgproto3.FrontendMessage{
			&pgproto3.Parse{Query: "BEGIN"}, &pgproto3.Bind{}, &pgproto3.Execute{},
			&pgproto3.Parse{Query: "SELECT v FROM t WHERE id = 1"}, &pgproto3.Bind{}, &pgproto3.Execute{},
			&pgproto3.Parse{Query: "SELECT u.v FROM t JOIN u ON u.a = t.id AND u.v > $1 WHERE t.id = $2"},
			&pgproto3.Bind{Parameters: [][]byte{[]byte("100"), []byte("1")}}, &pgproto3.Execute{},
			&pgproto3.Parse{Query: "COMMIT"}, &pgproto3.Bind{}, &pgproto3.Execute{}, &pgproto3.Sync{}},
			want: "u WHERE v > 100 AND a IN (1):  beside 1"},
		{name: "after a write", texts: []string{"BEGIN", "SELECT v FROM t WHERE v < 30", "UPDATE t SET w = 'x' WHERE id = 20",
			"SELECT v FROM t WHERE v < 20", "COMMIT"}, want: "t WHERE v < 30: 1,2; t WHERE v < 20: 1 wrote"},
		{name: "a write that is undone", texts: []string{"BEGIN", "SELECT v FROM t WHERE v < 30", "SAVEPOINT a",
			"UPDATE t SET w = 'x' WHERE id = 20", "SELECT v FROM t WHERE v < 20", "ROLLBACK TO a", "SELECT v FROM t WHERE v < 10", "COMMIT"},
			want: "t WHERE v < 30: 1,2; not: asked after a write that ROLLBACK TO may have undone; t WHERE v < 10:  wrote"},
		{name: "an end that isn't known", texts: []string{"BEGIN", "SELECT v FROM t WHERE v < 30", "UPDATE t SET w = 'x' WHERE id = 20",
			"PREPARE TRANSACTION 'asks'", "ROLLBACK PREPARED 'asks'"}, want: "not: a transaction whose end isn't known"},
		{name: "an UPDATE", texts: []string{"BEGIN", "UPDATE t SET w = 'z' WHERE v < 20", "COMMIT"}, want: "t WHERE v < 20:  wrote"},
		{name: "one by itself", texts: []string{"UPDATE t SET w = 'z' WHERE v < 20"}, want: "t WHERE v < 20:  wrote"},
		{name: "a DELETE of nothing", texts: []string{"DELETE FROM t WHERE v = -7"}, want: "t WHERE v = -7: "},
		{name: "an UPDATE of a row by its key", texts: []string{"UPDATE t SET w = 'z' WHERE id = 1"}, want: ""},
		{name: "an UPDATE of no row by its key", texts: []string{"BEGIN", "UPDATE t SET w = 'z' WHERE id = 1 AND v = -7", "COMMIT"},
			want: "t WHERE id = 1 AND v = -7: "},
		{name: "two of no row by their keys, of which the second one comes before the first one's answer", parsed: []pgproto3.FrontendMessage{
			&pgproto3.Parse{Query: "UPDATE t SET w = 'z' WHERE id = $1 AND v = $2"}, &pgproto3.Bind{Parameters: [][]byte{[]byte("1"), []byte("-7")}},
			&pgproto3.Execute{}, &pgproto3.Bind{Parameters: [][]byte{[]byte("2"), []byte("-8")}}, &pgproto3.Execute{}, &pgproto3.Sync{}},
			want: "t WHERE id = 1 AND v = -7: ; t WHERE id = 2 AND v = -8: "},
		{name: "the server's own tables", texts: []string{"BEGIN", "SELECT v FROM t WHERE v < 30", "SELECT relname FROM pg_class WHERE relname = 't' LIMIT 1",
			"COMMIT"}, want: "t WHERE v < 30: 1,2"},
		{name: "an UPDATE with a function", texts: []string{"BEGIN", "UPDATE t SET w = 'z' WHERE abs(v) = 99", "COMMIT"}, want: "not: a function"},
		{name: "one with parameters", parsed: []pgproto3.FrontendMessage{&pgproto3.Parse{Query: "UPDATE t SET w = 'z' WHERE v IN ($1, $2)"},
			&pgproto3.Bind{Parameters: [][]byte{[]byte("-8"), []byte("-9")}}, &pgproto3.Execute{}, &pgproto3.Sync{}}, want: "t WHERE v IN (-8, -9): "},
		{name: "one in a pipeline", texts: []string{"BEGIN", "UPDATE t SET w = 'z' WHERE v < 20; SELECT v FROM t WHERE v < 30", "COMMIT"},
			want: "t WHERE v < 20:  wrote; t WHERE v < 30: 1,2 wrote"},
		{name: "what isn't followed", texts: []string{"BEGIN", "SELECT v FROM t WHERE abs(v) = 3", "SELECT v FROM t WHERE v < 30", "COMMIT"},
			want: "not: a function; t WHERE v < 30: 1,2"},
		{name: "DISTINCT without an order", texts: []string{"SELECT DISTINCT v FROM t WHERE v < 30"}, want: "t WHERE v < 30: 1,2"},
		{name: "DISTINCT of a join", texts: []string{"SELECT DISTINCT u.v FROM t JOIN u ON u.a = t.id WHERE t.v < 30 AND u.v > 2"},
			want: "u WHERE v > 2 AND a IN (1, 2): 1/b5,1/b9,2/b10,2/b6"},
		{name: "a part of a condition", texts: []string{"SELECT v FROM t WHERE v < 30 AND (v = 10 OR abs(v) = 20)"},
			want: "t WHERE v < 30 AND v = 10: 1,2; not: a function"},
		{name: "the server's own tables", texts: []string{"SELECT c.relname FROM pg_class c JOIN pg_namespace n ON n.oid = c.relnamespace WHERE n.nspname = 'x'"}},
		{name: "HAVING", texts: []string{"SELECT v / 20, sum(v) FROM t WHERE v < 40 GROUP BY v / 20 HAVING sum(v) > 20"}, want: "t WHERE v < 40: 1,2,3"},
		{name: "an aggregate", texts: []string{"SELECT count(*) FROM t WHERE v < 30"}, want: "t WHERE v < 30: 1,2"},
		{name: "one of no rows", texts: []string{"SELECT count(*) FROM t WHERE v < -9"}, want: "t WHERE v < -9: "},
		{name: "one of no rows in binary", parsed: []pgproto3.FrontendMessage{&pgproto3.Parse{Query: "SELECT count(*) FROM t WHERE v < $1"},
			&pgproto3.Bind{Parameters: [][]byte{[]byte("-9")}, ResultFormatCodes: []int16{1}}, &pgproto3.Execute{}, &pgproto3.Sync{}},
			want: "t WHERE v < -9: "},
		{name: "DISTINCT", texts: []string{"SELECT DISTINCT v FROM t WHERE v < 30 ORDER BY v"}, want: "t WHERE v < 30: 1,2"},
		{name: "a row by its key", texts: []string{"SELECT v FROM t WHERE v < 30 AND id = 1 LIMIT 1"}, want: ""},
		{name: "a join", texts: []string{"SELECT t.v, u.v FROM t JOIN u ON u.a = t.id WHERE t.v < 30 AND u.v > 2"},
			want: "u WHERE v > 2 AND a IN (1, 2): 1/b5,1/b9,2/b10,2/b6"},
		{name: "an outer join", texts: []string{"SELECT t.v, u.v FROM t LEFT JOIN u ON u.a = t.id AND u.v > 100 WHERE t.v < 30"},
			want: "t WHERE v < 30: 1,2; u WHERE v > 100 AND a IN (1, 2): "},
		{name: "beside columns that aren't in a key", texts: []string{"BEGIN", "SELECT t.v, u.v FROM t LEFT JOIN u ON u.a < t.v AND u.v > 100 WHERE t.v < 30",
			"SELECT t.v, u.v FROM t LEFT JOIN u ON u.b = t.w WHERE t.v < 30", "SELECT u.v, p.v FROM u LEFT JOIN part AS p ON p.v > u.v WHERE u.a = 1 AND u.b > 'b2'", "COMMIT"},
			want: "t WHERE v < 30: 1,2; u WHERE v > 100 AND (a < 10 OR a < 20): ; t WHERE v < 30: 1,2; u WHERE b IN ('z', 'row 2'): ; " +
				"not: an order of texts by a language's rules; part WHERE v > 5 OR v > 9: 120,140,160,180"},
		{name: "an outer join of nothing", texts: []string{"SELECT t.v, u.v FROM t LEFT JOIN u ON u.a = t.id AND u.v > 100 WHERE t.v < 0"},
			want: "t WHERE v < 0: ; not: a join of no rows, beside which others could stand"},
		{name: "a join of no rows", texts: []string{"SELECT t.v, u.v FROM t JOIN u ON u.a = t.id WHERE t.v < 0"},
			want: "not: a join of no rows, beside which others could stand"},
		{name: "a join of no rows by a foreign key", texts: []string{"SELECT child.id, v FROM child JOIN t ON t.id = child.parent WHERE child.id > 90"},
			want: "child WHERE id > 90 AND parent IS NOT NULL:  checked, relies on 1"},
		{name: "one by a whole key", texts: []string{"SELECT child.id, v FROM child JOIN t ON t.id = child.parent WHERE child.id = 90"},
			want: "child WHERE id = 90 AND parent IS NOT NULL:  checked, relies on 1"},
		{name: "one that returns rows", texts: []string{"SELECT child.id, v FROM child JOIN t ON t.id = child.parent WHERE child.id > 3"},
			want: "child WHERE id > 3 AND parent IN (4, 5): 4,5"},
		{name: "one with a condition on what is referred to", texts: []string{"SELECT child.id, v FROM child JOIN t ON t.id = child.parent AND t.v > 90 WHERE child.id > 90"},
			want: "not: " + besideNone},
		{name: "one beside a row, which has been read", texts: []string{"BEGIN", "SELECT v FROM t WHERE id = 1",
			"SELECT c.id, t.v FROM child c JOIN t ON t.id = c.parent AND t.id = 1 WHERE c.id > 90", "COMMIT"}, want: "child WHERE id > 90 AND parent IN (1):  beside 1"},
		{name: "one after a write", texts: []string{"BEGIN", "UPDATE t SET w = 'x' WHERE id = 20",
			"SELECT child.id, v FROM child JOIN t ON t.id = child.parent WHERE child.id > 90", "COMMIT"},
			want: "child WHERE id > 90 AND parent IS NOT NULL:  wrote checked, relies on 1"},
		{name: "one with parameters", parsed: []pgproto3.FrontendMessage{
			&pgproto3.Parse{Query: "SELECT t.v FROM child c JOIN t ON t.id = c.parent WHERE c.id > $1 AND c.id < $2 AND c.parent <> 7 LIMIT 5"},
			&pgproto3.Bind{Parameters: [][]byte{{0, 0, 0, 90}, {0, 0, 0, 99}}, ParameterFormatCodes: []int16{1}}, &pgproto3.Execute{}, &pgproto3.Sync{}},
			want: "child WHERE id > 90 AND id < 99 AND parent <> 7 AND parent IS NOT NULL:  checked, relies on 1"},
		{name: "an aggregate of one", texts: []string{"SELECT count(*) FROM child JOIN t ON t.id = child.parent WHERE child.id > 90"},
			want: "not: an aggregate of no rows, which doesn't show its table"},
		{name: "an aggregate of a join", texts: []string{"SELECT count(*), sum(u.v) FROM t JOIN u ON u.a = t.id WHERE t.v < 30 AND u.v > 2"},
			want: "u WHERE v > 2 AND a IN (1, 2): 1/b5,1/b9,2/b10,2/b6"},
		{name: "one of no rows in a join", texts: []string{"SELECT count(*), sum(u.v) FROM t JOIN u ON u.a = t.id WHERE t.v < 0 AND u.v > 2"},
			want: "not: an aggregate of no rows, which doesn't show its table"},
		{name: "a join with parameters", parsed: []pgproto3.FrontendMessage{
			&pgproto3.Parse{Query: "SELECT t.v, u.v FROM t JOIN u ON u.a = t.id WHERE t.v < $1 AND u.v > $2 LIMIT 10"},
			&pgproto3.Bind{Parameters: [][]byte{[]byte("30"), []byte("2")}, ResultFormatCodes: []int16{1}}, &pgproto3.Execute{},
			&pgproto3.Bind{DestinationPortal: "x", Parameters: [][]byte{[]byte("20"), []byte("5")}}, &pgproto3.Execute{Portal: "x"}, &pgproto3.Sync{}},
			want: "u WHERE v > 2 AND a IN (1, 2): 1/b5,1/b9,2/b10,2/b6; u WHERE v > 5 AND a IN (1): 1/b9"},
		{name: "a subquery that found rows", texts: []string{"SELECT v FROM t WHERE v < 30 AND EXISTS (SELECT 1 FROM u WHERE u.v > 2)"}, want: "t WHERE v < 30: 1,2"},
		{name: "one that found none", texts: []string{"SELECT v FROM t WHERE v < 30 AND EXISTS (SELECT 1 FROM u WHERE u.v > 99)"},
			want: "not: a join of no rows, beside which others could stand"},
		{name: "NOT EXISTS", texts: []string{"SELECT v FROM t WHERE v < 30 AND NOT EXISTS (SELECT 1 FROM u WHERE u.v > 99)"},
			want: "t WHERE v < 30: 1,2; u WHERE v > 99: "},
		{name: "NOT EXISTS and a limit", texts: []string{"SELECT v FROM t WHERE v < 30 AND NOT EXISTS (SELECT 1 FROM u WHERE u.v > 99) LIMIT 1"},
			want: "not: LIMIT; u WHERE v > 99: "},
		{name: "NOT EXISTS beside rows", texts: []string{"SELECT v FROM t WHERE v < 30 AND NOT EXISTS (SELECT 1 FROM u WHERE u.a = t.id AND u.v > 99)"},
			want: "not: a subquery; u WHERE v > 99 AND a IN (1, 2): "},
		{name: "an aggregate with NOT EXISTS", texts: []string{"SELECT count(*) FROM t WHERE v < 30 AND NOT EXISTS (SELECT 1 FROM u WHERE u.v > 99)"},
			want: "t WHERE v < 30: 1,2; u WHERE v > 99: "},
		{name: "an aggregate without NOT EXISTS", texts: []string{"SELECT count(*) FROM t WHERE v < 30 AND NOT EXISTS (SELECT 1 FROM u WHERE u.v > 2)"},
			want: "not: an aggregate of no rows, which doesn't show its table"},
		{name: "NOT EXISTS without FROM", texts: []string{"SELECT 1 WHERE NOT EXISTS (SELECT 1 FROM u WHERE u.v > 99)"}, want: "u WHERE v > 99: "},
		{name: "EXISTS without FROM", texts: []string{"SELECT 1 WHERE NOT EXISTS (SELECT 1 FROM u WHERE u.v > 2)"},
			want: "not: a subquery that may have found rows"},
		{name: "an aggregate without FROM", texts: []string{"SELECT count(*) WHERE NOT EXISTS (SELECT 1 FROM u WHERE u.v > 2)"}},
		{name: "an INSERT unless there is a row", texts: []string{"BEGIN", "INSERT INTO t (id, v) SELECT 900, 1000 WHERE NOT EXISTS (SELECT 1 FROM t WHERE v = 1000)",
			"DELETE FROM t WHERE id = 900", "COMMIT"}, want: "t WHERE v = 1000: "},
		{name: "one that is undone", texts: []string{"BEGIN", "SAVEPOINT a", "INSERT INTO t (id, v) SELECT 900, 1000 WHERE NOT EXISTS (SELECT 1 FROM t WHERE v = 1000)",
			"UPDATE t SET w = 'z' WHERE v < 20 AND NOT EXISTS (SELECT 1 FROM u WHERE u.v > 99)", "ROLLBACK TO a", "COMMIT"},
			want: "t WHERE v = 1000: ; not: asked after a write that ROLLBACK TO may have undone; not: asked after a write that ROLLBACK TO may have undone"},
		{name: "an INSERT of nothing", texts: []string{"BEGIN", "INSERT INTO t (id, v) SELECT 900, 1000 WHERE NOT EXISTS (SELECT 1 FROM t WHERE v = 10)",
			"COMMIT"}, want: "not: a subquery that may have found rows"},
		{name: "an INSERT of a row that is there", texts: []string{"BEGIN",
			"INSERT INTO t (id, v) SELECT 1, 1000 WHERE NOT EXISTS (SELECT 1 FROM t WHERE v = 1000) ON CONFLICT DO NOTHING", "COMMIT"},
			want: "not: a subquery that may have found rows"},
		{name: "an INSERT of an aggregate", texts: []string{"BEGIN",
			"INSERT INTO t (id, v) SELECT 900 + count(*), 1000 WHERE NOT EXISTS (SELECT 1 FROM t WHERE v = 10)", "DELETE FROM t WHERE id = 900", "COMMIT"}},
		{name: "an INSERT with parameters", parsed: []pgproto3.FrontendMessage{
			&pgproto3.Parse{Query: "INSERT INTO t (id, v) SELECT $1::int, $2::int WHERE NOT EXISTS (SELECT 1 FROM t WHERE v = $2 LIMIT 1)"},
			&pgproto3.Bind{Parameters: [][]byte{[]byte("901"), []byte("1001")}}, &pgproto3.Execute{}, &pgproto3.Parse{Query: "DELETE FROM t WHERE id = 901"},
			&pgproto3.Bind{}, &pgproto3.Execute{}, &pgproto3.Sync{}}, want: "not: a parameter without a type, which may get it in several places"},
		{name: "an INSERT with typed parameters", parsed: []pgproto3.FrontendMessage{
			&pgproto3.Parse{Query: "INSERT INTO t (id, v) SELECT $1, $2 WHERE NOT EXISTS (SELECT 1 FROM t WHERE v = $2 LIMIT 1)", ParameterOIDs: []uint32{23, 23}},
			&pgproto3.Bind{Parameters: [][]byte{[]byte("901"), []byte("1001")}}, &pgproto3.Execute{}, &pgproto3.Parse{Query: "DELETE FROM t WHERE id = 901"},
			&pgproto3.Bind{}, &pgproto3.Execute{}, &pgproto3.Sync{}}, want: "t WHERE v = 1001: "},
		{name: "an UPDATE unless there is a row", texts: []string{"BEGIN", "UPDATE t SET w = 'z' WHERE v < 20 AND NOT EXISTS (SELECT 1 FROM u WHERE u.v > 99)", "COMMIT"},
			want: "t WHERE v < 20:  wrote; u WHERE v > 99: "},
		{name: "an UPDATE by a key unless there is a row", texts: []string{"BEGIN", "UPDATE t SET w = 'z' WHERE id = 1 AND NOT EXISTS (SELECT 1 FROM u WHERE u.v > 99)", "COMMIT"},
			want: "u WHERE v > 99: "},
		{name: "an UPDATE of nothing since there is a row", texts: []string{"BEGIN", "UPDATE t SET w = 'z' WHERE v < 20 AND NOT EXISTS (SELECT 1 FROM u WHERE u.v > 2)", "COMMIT"},
			want: "not: a join of no rows, beside which others could stand; not: a subquery that may have found rows"},
		{name: "a DELETE unless there is a row beside it", texts: []string{"BEGIN", "DELETE FROM t WHERE v = -7 AND NOT EXISTS (SELECT 1 FROM u WHERE u.a = t.id)", "COMMIT"},
			want: "not: a subquery"},
		{name: "a failure", texts: []string{"BEGIN", "SELECT v FROM t WHERE v < 30", "SELECT 1/0", "COMMIT"}, want: "t WHERE v < 30: 1,2"},
		{name: "several statements", texts: []string{"SELECT v FROM t WHERE v < 30; SELECT v FROM t WHERE v < 20"}, want: "t WHERE v < 30: 1,2; t WHERE v < 20: 1"},
		{name: "a cursor", texts: []string{"BEGIN", "DECLARE c CURSOR FOR SELECT v FROM t WHERE v < 30", "FETCH ALL FROM c", "COMMIT"},
			want: "not: a cursor, or SQL's PREPARE"},
		{name: "parameters as text", parsed: []pgproto3.FrontendMessage{&pgproto3.Parse{Query: "SELECT v FROM t WHERE v < $1"},
			&pgproto3.Bind{Parameters: [][]byte{[]byte("30")}}, &pgproto3.Execute{}, &pgproto3.Sync{}}, want: "t WHERE v < 30: 1,2"},
		{name: "parameters in binary", parsed: []pgproto3.FrontendMessage{&pgproto3.Parse{Query: "SELECT v FROM t WHERE v < $1"},
			&pgproto3.Bind{ParameterFormatCodes: []int16{1}, Parameters: [][]byte{{0, 0, 0, 20}}}, &pgproto3.Execute{}, &pgproto3.Sync{}},
			want: "t WHERE v < 20: 1"},
		{name: "in parts", parsed: []pgproto3.FrontendMessage{&pgproto3.Parse{Query: "SELECT v FROM t WHERE v < $1"},
			&pgproto3.Bind{Parameters: [][]byte{[]byte("40")}}, &pgproto3.Execute{MaxRows: 1}, &pgproto3.Execute{MaxRows: 1}, &pgproto3.Execute{},
			&pgproto3.Sync{}}, want: "t WHERE v < 40: 1,2,3"},
		{name: "a part", parsed: []pgproto3.FrontendMessage{&pgproto3.Parse{Query: "SELECT v FROM t WHERE v < $1"},
			&pgproto3.Bind{Parameters: [][]byte{[]byte("40")}}, &pgproto3.Execute{MaxRows: 1}, &pgproto3.Sync{}}, want: ""},
	} {
		t.Run(x.name, func(t *testing.T) {
			run := func() {
				for _, text := range x.texts {
					p.query(text)
				}
				if x.parsed != nil {
					p.do(messages('Z', x.parsed...))
				}
			}
			for i := 0; i < 2; i++ { // so that all is tried
				run()
				p.settle()
			}
			p.sink.take()
			sent := time.Now()
			run()
			var got []string
			shows := false
			for _, it := range p.sink.take() {
				shows = shows || it.Snapshot != ""
				for _, one := range it.Asks {
					got = append(got, shownAsk(one))
					if one.Why == "" && (one.From.Before(sent) || one.Identity == 0 || one.Columns == 0) {
						t.Errorf("%+v", one)
					}
				}
			}
			if text := strings.Join(got, "; "); text != x.want || shows != x.shows {
				t.Errorf("%q, wanted %q; its snapshot is known: %v", text, x.want, shows)
			}
		})
	}
}

// TestManyAsks: what is kept of one transaction is bounded, and the rest is counted.
func TestManyAsks(t *testing.T) {
	needServer(t)
	sql(t, fill+"; DELETE FROM t; INSERT INTO t SELECT i, i FROM generate_series(1, 5000) i")
	defer sql(t, fill)
	p := throughAsking(t)
	p.warm("SELECT id FROM t WHERE v > 1")
	p.query("BEGIN")
	for i := 0; i < mostConditions+5; i++ {
		p.query(fmt.Sprint("SELECT id FROM t WHERE v > ", i*100))
	}
	p.query("COMMIT")
	its := p.sink.take()
	p.warm("SELECT sum(v) FROM t WHERE v > 4900")
	for want, text := range map[string]string{"": "SELECT sum(v) FROM t WHERE v > 4800", tooManyFound: "SELECT sum(v) FROM t WHERE v > 4700"} {
		p.query(text)
		if of := p.sink.take(); len(of) != 1 || len(of[0].Asks) != 1 || of[0].Asks[0].Why != want || len(of[0].Asks[0].Found) != 200*btoi(want == "") {
			t.Errorf("%s: %+v", text, of)
		}
	}
	if len(its) != 1 || len(its[0].Asks) != mostConditions+1 {
		t.Fatalf("%d transactions", len(its))
	}
	for i, one := range its[0].Asks {
		want := ""
		switch {
		case i < 10:
			want = tooManyFound
		case i == mostConditions:
			want = tooManyAsks
		}
		if one.Why != want {
			t.Errorf("%d: %q", i, one.Why)
		}
	}
}

func btoi(is bool) int {
	if is {
		return 1
	}
	return 0
}
