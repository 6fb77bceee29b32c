package session

import (
	"fmt"
	"reflect"
	"testing"

	"github.com/jackc/pgproto3/v2"

	"zanteyard/record"
)

// madeOf returns each statement of a transaction with the keys of the reads that it made, and of the row that it found
// absent.
func madeOf(it record.Transaction) []string {
	var all []string
	for _, one := range it.Statements {
		text := fmt.Sprint(one.Text, " ", keysOf(it.Reads[one.From:one.To]))
		if one.Absent > 0 {
			text += " without " + string(it.Absent[one.Absent-1].Key)
		}
		all = append(all, text)
	}
	return all
}

// TestStatementsReads: which statement made which read, for separate statements.
func TestStatementsReads(t *testing.T) {
	needServer(t)
	for _, x := range []struct {
		name  string
		texts []string
		want  []string
	}{
		{"one after the other",
			[]string{"BEGIN", "SELECT v FROM t WHERE id = 1", "SELECT v FROM t WHERE id < 4 ORDER BY id", "COMMIT"},
			[]string{"BEGIN []", "SELECT v FROM t WHERE id = 1 [1]", "SELECT v FROM t WHERE id < 4 ORDER BY id [2 3]",
				"COMMIT []"}},
		{"several in one query", []string{"BEGIN; SELECT v FROM t WHERE id = 5 /*file='a.py'*/; SELECT v FROM t WHERE id = 6;" +
			" UPDATE t SET v = 1 WHERE id = 6; COMMIT"},
			[]string{"BEGIN []", "SELECT v FROM t WHERE id = 5 /*file='a.py'*/ [5]", "SELECT v FROM t WHERE id = 6 [6]",
				"UPDATE t SET v = 1 WHERE id = 6 []", "COMMIT []"}},
		{"a cursor", []string{"BEGIN", "DECLARE c CURSOR FOR SELECT v, w FROM t ORDER BY id", "FETCH 2 FROM c",
			"SELECT v FROM t WHERE id = 9", "FETCH 1 FROM c", "COMMIT"},
			[]string{"BEGIN []", "DECLARE c CURSOR FOR SELECT v, w FROM t ORDER BY id []", "FETCH 2 FROM c [1 2]",
				"SELECT v FROM t WHERE id = 9 [9]", "FETCH 1 FROM c [3]", "COMMIT []"}},
		{"COPY gives no row that is seen", []string{"BEGIN", "SELECT v FROM t WHERE id = 1",
			"COPY (SELECT v FROM t) TO STDOUT", "SELECT v FROM t WHERE id = 2", "COMMIT"},
			[]string{"BEGIN []", "SELECT v FROM t WHERE id = 1 [1]", "COPY (SELECT v FROM t) TO STDOUT []",
				"SELECT v FROM t WHERE id = 2 [2]", "COMMIT []"}},
		{"an error, and a savepoint", []string{"BEGIN", "SAVEPOINT a",
			"SELECT v, 1 / (v - 20) FROM t WHERE id < 3 ORDER BY id", "ROLLBACK TO a", "SELECT v FROM t WHERE id = 4", "COMMIT"},
			[]string{"BEGIN []", "SAVEPOINT a []", "ROLLBACK TO a []", "SELECT v FROM t WHERE id = 4 [4]", "COMMIT []"}},
		{"rows that aren't there", []string{"BEGIN ISOLATION LEVEL SERIALIZABLE", "SELECT v FROM t WHERE id = 1000",
			"SELECT v FROM t WHERE id = 3", "SELECT v FROM u WHERE a = 1 AND b = 'none'", "COMMIT"},
			[]string{"BEGIN ISOLATION LEVEL SERIALIZABLE []", "SELECT v FROM t WHERE id = 1000 [] without 1000",
				"SELECT v FROM t WHERE id = 3 [3]", "SELECT v FROM u WHERE a = 1 AND b = 'none' [] without 1\x00none",
				"COMMIT []"}},
	} {
		x := x
		t.Run(x.name, func(t *testing.T) {
			sql(t, fill)
			p := through(t, "postgres", nil)
			p.warm(x.texts...)
			sql(t, fill)
			for _, text := range x.texts {
				p.query(text)
			}
			p.settle()
			got := p.sink.take()
			if len(got) != 1 || !reflect.DeepEqual(madeOf(got[0]), x.want) {
				t.Fatalf("told as %+v\n%q", got, madeOf(got[0]))
			}
		})
	}
}

// TestPortalsReads: which statement made which read, for pipelines and for portals that are run in pieces.
func TestPortalsReads(t *testing.T) {
	needServer(t)
	const all, one = "SELECT v FROM t WHERE id < $1 ORDER BY id", "SELECT v FROM t WHERE id = $1"
	parse := []pgproto3.FrontendMessage{&pgproto3.Parse{Name: "all", Query: all, ParameterOIDs: []uint32{23}},
		&pgproto3.Parse{Name: "one", Query: one, ParameterOIDs: []uint32{23}}}
	bind := func(portal, statement, value string) *pgproto3.Bind {
		return &pgproto3.Bind{DestinationPortal: portal, PreparedStatement: statement, Parameters: [][]byte{[]byte(value)}}
	}
	run := func(portal string, rows uint32) *pgproto3.Execute {
		return &pgproto3.Execute{Portal: portal, MaxRows: rows}
	}
	for _, x := range []struct {
		name  string
		sends []pgproto3.FrontendMessage
		want  []string
	}{
		{"a pipeline", []pgproto3.FrontendMessage{bind("", "all", "3"), run("", 0), bind("", "one", "7"), run("", 0),
			bind("", "one", "8"), run("", 0)},
			[]string{all + " [1 2]", one + " [7]", one + " [8]"}},
		{"pieces", []pgproto3.FrontendMessage{bind("", "all", "6"), run("", 2), run("", 2), run("", 2)},
			[]string{all + " [1 2 3 4 5]"}},
		{"pieces of two portals by turns", []pgproto3.FrontendMessage{bind("a", "all", "5"), bind("b", "one", "9"), run("a", 2),
			run("b", 0), run("a", 1), bind("b2", "one", "3"), run("b2", 0), run("a", 0)},
			[]string{all + " [1 2]", one + " [9]", all + " [3]", one + " []", all + " [4]"}},
		{"not all rows are wanted", []pgproto3.FrontendMessage{bind("a", "all", "6"), run("a", 2), &pgproto3.Close{
			ObjectType: 'P', Name: "a"}, bind("", "one", "9"), run("", 0)},
			[]string{all + " [1 2]", one + " [9]"}},
		{"a portal of the same name", []pgproto3.FrontendMessage{bind("", "all", "6"), run("", 2), bind("", "one", "9"),
			run("", 0)}, []string{all + " [1 2]", one + " [9]"}},
	} {
		x := x
		t.Run(x.name, func(t *testing.T) {
			sql(t, fill)
			p := through(t, "postgres", nil)
			p.send(encoded(append(parse, &pgproto3.Sync{})...))
			p.until('Z')
			var got []record.Transaction
			for i := 0; i < 3; i++ { // tried by then
				got = nil
				p.query("BEGIN")
				p.send(encoded(append(append([]pgproto3.FrontendMessage{}, x.sends...), &pgproto3.Sync{})...))
				p.until('Z')
				p.query("COMMIT")
				p.settle()
				got = p.sink.take()
			}
			want := append(append([]string{"BEGIN []"}, x.want...), "COMMIT []")
			if len(got) != 1 || !reflect.DeepEqual(madeOf(got[0]), want) {
				t.Fatalf("told as %+v", got)
			}
		})
	}
}
