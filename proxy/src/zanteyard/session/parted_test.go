package session

import (
	"reflect"
	"testing"

	"github.com/jackc/pgproto3/v2"

	"zanteyard/record"
)

// pipeline runs statements with one Sync at the end.
func pipeline(texts ...string) step {
	var all []pgproto3.FrontendMessage
	for _, text := range texts {
		all = append(all, &pgproto3.Parse{Query: text}, &pgproto3.Bind{}, &pgproto3.Describe{ObjectType: 'P'}, &pgproto3.Execute{})
	}
	return messages('Z', append(all, &pgproto3.Sync{})...)
}

// TestParted: a procedure that commits ends the transaction of a pipeline, and others begin. What follows it isn't told
// as part of what precedes it.
func TestParted(t *testing.T) {
	needServer(t)
	const read, other, write = "SELECT v FROM t WHERE id = 3", "SELECT v FROM t WHERE id = 5", "UPDATE t SET v = 7 WHERE id = 4"
	type want struct {
		reads   []string
		wrote   bool
		outcome record.Outcome
	}
	for _, x := range []struct {
		name  string
		texts []string
		block bool // BEGIN before, COMMIT after
		wants []want
		left  bool
	}{
		{"a procedure that commits", []string{read, "CALL twice(3)", read}, false, []want{{reads: []string{"3"}}}, true},
		{"after a write", []string{write, read, "CALL twice(3)", read}, false, []want{{reads: []string{"3"}, wrote: true}}, true},
		{"a write after it", []string{read, "CALL twice(3)", write}, false, []want{{reads: []string{"3"}}}, false},
		{"an error after it", []string{write, read, "CALL twice(3)", "SELECT 1 / (v - v) FROM t"}, false,
			[]want{{reads: []string{"3"}, wrote: true, outcome: record.Unclear}}, false},
		{"an error after it, and nothing written", []string{read, "CALL twice(3)", "SELECT 1 / (v - v) FROM t"}, false,
			[]want{{reads: []string{"3"}, outcome: record.Aborted}}, false},
		{"DO", []string{read, "DO 'BEGIN COMMIT; END'", read}, false, []want{{reads: []string{"3"}}}, false},
		{"a procedure alone", []string{"CALL twice(3)"}, false, []want{{}}, false},
		{"blocks after it", []string{read, "CALL twice(3)", "BEGIN", read, "COMMIT", other}, false,
			[]want{{reads: []string{"3"}}, {reads: []string{"5"}}}, true},
		{"in a block it can't commit", []string{read, "CALL once(3)", other}, true, []want{{reads: []string{"3", "5"}, wrote: true}}, false},
		{"a block of the pipeline", []string{"BEGIN", read, "CALL once(3)", other, "COMMIT"}, false,
			[]want{{reads: []string{"3", "5"}}}, false},
	} {
		t.Run(x.name, func(t *testing.T) {
			sql(t, fill)
			p := through(t, "postgres", nil)
			for i := 0; i < 2; i++ {
				for _, text := range []string{read, other, write} {
					p.do(extended(text, nil))
				}
				p.settle()
			}
			p.sink.take()
			if x.block {
				p.query("BEGIN")
			}
			p.do(pipeline(x.texts...))
			if x.block {
				p.query("COMMIT")
			}
			p.settle()
			var got []want
			for _, it := range p.sink.take() {
				got = append(got, want{keysOf(it.Reads), it.Number != 0, it.Outcome})
			}
			if !reflect.DeepEqual(got, x.wants) {
				t.Errorf("told: %+v", got)
			}
			if p.sink.left(afterPart) != x.left {
				t.Errorf("left out: %q", p.sink.unseen)
			}
		})
	}
}
