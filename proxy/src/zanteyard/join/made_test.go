package join

import (
	"reflect"
	"testing"

	"zanteyard/record"
)

// TestReadsByStatement: each offered read is reported with the statement that made it, by the bounds that the session
// gave; none if no statement is known to have made it, as for a write's read.
func TestReadsByStatement(t *testing.T) {
	statements := []record.Statement{{Text: "0"}, {Text: "1", From: 0, To: 2}, {Text: "2", From: 3, To: 4, Absent: 1},
		{Text: "3", From: 4, To: 5}, {Text: "4", From: 5, To: 5, Absent: 2}}
	for _, x := range []struct {
		name string
		its  record.Transaction
		want []KeyRead
	}{
		{"by its bounds", record.Transaction{Reads: []record.Read{read("b", 7), read("a", 7), read("c", 7), read("d", 7)}},
			[]KeyRead{{Key: 1, Initial: true, By: 2}, {Key: 2, Initial: true, By: 2}, {Key: 3, Initial: true},
				{Key: 4, Initial: true, By: 3}}},
		{"the first of two that are one to the auditor", record.Transaction{Reads: []record.Read{read("a", 7), read("b", 7),
			read("b", 8), read("a", 9), read("c", 7)}},
			[]KeyRead{{Key: 1, Initial: true, By: 2}, {Key: 2, Initial: true, By: 2}, {Key: 3, Initial: true, By: 4}}},
		{"rows that weren't there", record.Transaction{Level: record.Serializable, Snapshot: "1100:1100:",
			Absent: []record.Absence{absent("x"), absent("y"), absent("z")}, Reads: []record.Read{read("w", 7)}},
			[]KeyRead{{Key: 1, Initial: true, By: 2}, {Key: 2, Initial: true, By: 3}, {Key: 3, Initial: true, By: 5},
				{Key: 4, Initial: true}}},
		{"a write's read", record.Transaction{Number: 1001, Reads: []record.Read{read("a", 7)}},
			[]KeyRead{{Key: 1, Initial: true, By: 2}, {Key: 2, Initial: true}}},
	} {
		b := newBench(t, Options{Sessions: 2})
		b.connect(1)
		if x.its.Number != 0 {
			b.commit(uint32(x.its.Number), "a", "w")
		}
		x.its.Statements = statements
		b.tell(1, 0, x.its)
		b.settle()
		var it Description
		b.core.describe(b.core.sessions[0].kept[0], &it)
		if !reflect.DeepEqual(it.Reads, x.want) {
			t.Errorf("%s: %+v, and not %+v", x.name, it.Reads, x.want)
		}
	}
}

// TestReadsWithoutStatements: if statements' texts were dropped, or aren't kept, no read has one.
func TestReadsWithoutStatements(t *testing.T) {
	for _, texts := range []int{1, 1 << 20} {
		b := newBench(t, Options{Sessions: 2, Texts: texts})
		b.connect(1)
		b.tell(1, 0, record.Transaction{Reads: []record.Read{read("a", 7)},
			Statements: []record.Statement{{Text: "0", From: 0, To: 1}}})
		b.settle()
		var it Description
		b.core.describe(b.core.sessions[0].kept[0], &it)
		if want := map[bool]int{true: 1}[texts > 1]; len(it.Reads) != 1 || it.Reads[0].By != want {
			t.Errorf("room for %d bytes: %+v", texts, it.Reads)
		}
	}
}

// TestApplicationOfATransaction: a transaction is described with the application_name that it had, which may not be its
// connection's first one.
func TestApplicationOfATransaction(t *testing.T) {
	for _, x := range []struct{ later, want string }{{"", "first"}, {"orders", "orders"}} {
		b := newBench(t, Options{Sessions: 2})
		b.core.enter(record.Connection{Number: 1, ApplicationName: "first"})
		b.tell(1, 0, record.Transaction{Reads: []record.Read{read("a", 7)}, Application: x.later})
		b.settle()
		var it Description
		b.core.describe(b.core.sessions[0].kept[0], &it)
		if it.From.ApplicationName != x.want || it.From.Number != 1 {
			t.Errorf("%+v, wanted %q", it.From, x.want)
		}
	}
}
