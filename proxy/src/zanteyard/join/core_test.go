package join

import (
	"strings"
	"testing"
	"time"

	"zanteyard/record"
)

// Each case is a short story; what is offered is compared with lines that were worked out by hand.
func TestStories(t *testing.T) {
	for _, one := range []struct {
		name  string
		story func(b *bench)
		want  []string
		left  string // a reason that must be counted
	}{
		{"a write reads the version before, a read its version", func(b *bench) {
			b.connect(1, 2)
			b.commit(1001, "a")
			b.commit(1002, "a")
			b.tell(1, 0, record.Transaction{Number: 1001})
			b.tell(2, 0, record.Transaction{Number: 1002, Reads: []record.Read{read("a", 1001), read("b", 7)}})
			b.settle()
		}, []string{`["offer",0,0,[[[[1,"init"]],[1]]]]`, `["offer",1,0,[[[[1,0,0],[2,"init"]],[1]]]]`}, ""},
		{"somebody else's write is folded into its reader's read", func(b *bench) {
			b.connect(1, 2)
			b.commit(1001, "a")
			b.commit(1002, "a")
			b.commit(1003, "a")
			b.tell(1, 0, record.Transaction{Number: 1001})
			b.tell(2, 0, record.Transaction{Reads: []record.Read{read("a", 1002)}})
			b.tell(1, 1, record.Transaction{Number: 1003})
			b.settle()
		}, []string{`["offer",0,0,[[[[1,"init"]],[1]]]]`, `["offer",0,1,[[[[1,0,0]],[1]]]]`, `["offer",1,0,[[[[1,0,0]],[]]]]`},
			byOthers},
		{"a transaction that is told late has its reads alone", func(b *bench) {
			b.connect(1, 2)
			b.commit(1001, "a")
			b.settle()
			b.tell(1, 0, record.Transaction{Number: 1001, Reads: []record.Read{read("b", 5), read("a", 1001)}})
			b.tell(2, 0, record.Transaction{Reads: []record.Read{read("a", 1001)}})
			b.settle()
		}, []string{`["offer",0,0,[[[[1,"init"]],[]]]]`, `["offer",1,0,[[[[2,"init"]],[]]]]`}, tooLate},
		{"a reader is told before its writer, and the slot tells both later", func(b *bench) {
			b.connect(1, 2)
			b.tell(2, 0, record.Transaction{Reads: []record.Read{read("a", 1001)}})
			b.core.step(b.now)
			b.core.flush()
			if len(b.lines) != 1 {
				b.t.Error("it was offered before the slot had told what it read")
			}
			b.commit(1001, "a")
			b.tell(1, 0, record.Transaction{Number: 1001})
			b.settle()
		}, []string{`["offer",0,0,[[[[1,"init"]],[1]]]]`, `["offer",1,0,[[[[1,0,0]],[]]]]`}, ""},
		{"own writes aren't read", func(b *bench) {
			b.connect(1)
			b.commit(1001, "a")
			b.tell(1, 0, record.Transaction{Number: 1001, Versions: []uint32{1002}, Reads: []record.Read{
				read("a", 1001), read("a", 1002), read("a", 5)}})
			b.settle()
		}, []string{`["offer",0,0,[[[[1,"init"]],[1]]]]`}, ""},
		{"a lost update has two reads of one row", func(b *bench) {
			b.connect(1, 2)
			b.commit(1001, "a")
			b.commit(1002, "a")
			b.tell(1, 0, record.Transaction{Number: 1001, Reads: []record.Read{read("a", 5)}})
			b.tell(2, 0, record.Transaction{Number: 1002, Reads: []record.Read{read("a", 5)}})
			b.settle()
		}, []string{`["offer",0,0,[[[[1,"init"]],[1]]]]`, `["offer",1,0,[[[[1,"init"],[1,0,0]],[1]]]]`}, ""},
		{"an unknown version is left out", func(b *bench) {
			b.connect(1)
			b.commit(1001, "a")
			b.tell(1, 0, record.Transaction{Reads: []record.Read{read("b", 1001), read("c", 1005), read("d", 2)}})
			b.settle()
		}, []string{`["offer",0,0,[[[[1,"init"]],[]]]]`}, versionUnknown},
		{"what was over when the audit began is how the rows were at first", func(b *bench) {
			b.connect(1, 2)
			b.commit(990, "a")
			b.commit(1001, "a")
			b.tell(1, 0, record.Transaction{Number: 990, Reads: []record.Read{read("a", 5)}})
			b.tell(2, 0, record.Transaction{Number: 1001, Reads: []record.Read{read("a", 991)}})
			b.settle()
		}, []string{`["offer",1,0,[[[[1,"init"]],[1]]]]`}, betweenAudits},
		{"the same, and the slot tells it later", func(b *bench) {
			b.connect(1, 2)
			b.tell(1, 0, record.Transaction{Number: 990, Reads: []record.Read{read("a", 5)}})
			b.commit(990, "a")
			b.commit(1001, "a")
			b.tell(2, 0, record.Transaction{Number: 1001, Reads: []record.Read{read("a", 991)}})
			b.settle()
		}, []string{`["offer",1,0,[[[[1,"init"]],[1]]]]`}, betweenAudits},
		{"a subtransaction that RETURNING told", func(b *bench) {
			b.connect(1, 2)
			b.commit(1001, "a")
			b.tell(1, 0, record.Transaction{Number: 1001, Versions: []uint32{1002}})
			b.tell(2, 0, record.Transaction{Reads: []record.Read{read("a", 1002)}})
			b.settle()
		}, []string{`["offer",0,0,[[[[1,"init"]],[1]]]]`, `["offer",1,0,[[[[1,0,0]],[]]]]`}, ""},
		{"a subtransaction that nobody told", func(b *bench) {
			b.connect(1, 2)
			b.commit(1001, "a")
			b.tell(1, 0, record.Transaction{Number: 1001})
			b.tell(2, 0, record.Transaction{Reads: []record.Read{read("a", 1002)}})
			b.settle()
		}, []string{`["offer",0,0,[[[[1,"init"]],[1]]]]`, `["offer",1,0,[[[],[]]]]`}, subUnknown},
		{"rows that weren't there, by the snapshot", func(b *bench) {
			b.connect(1, 2)
			b.commit(1001, "-a", "b")
			b.commit(1003, "+a")
			b.tell(1, 0, record.Transaction{Number: 1001})
			b.tell(2, 0, record.Transaction{Level: record.Serializable, Snapshot: "1001:1004:1003",
				Absent: []record.Absence{absent("a"), absent("b"), absent("c")}})
			b.settle()
		}, []string{`["offer",0,0,[[[[1,"init"],[2,"init"]],[1,2]]]]`, `["offer",1,0,[[[[1,0,0],[3,"init"],[4,"init"]],[]]]]`}, absentUnknown},
		{"absent rows at read committed are left out", func(b *bench) {
			b.connect(1)
			b.tell(1, 0, record.Transaction{Level: record.ReadCommitted, Snapshot: "1001:1004:", Absent: []record.Absence{absent("a")}})
			b.settle()
		}, []string{`["offer",0,0,[[[],[]]]]`}, absentAtLevel},
		{"an absent row that the transaction wrote is left out", func(b *bench) {
			b.connect(1)
			b.commit(1001, "-a")
			b.tell(1, 0, record.Transaction{Number: 1001, Level: record.Serializable, Snapshot: "1001:1001:",
				Absent: []record.Absence{absent("a")}})
			b.settle()
		}, []string{`["offer",0,0,[[[[1,"init"]],[1]]]]`}, absentOwn},
		{"an absent row that was asked for after a write which is undone is left out", func(b *bench) {
			b.connect(1)
			b.commit(1001, "b")
			gone := absent("a")
			gone.Wrote, gone.Undone = true, true
			b.tell(1, 0, record.Transaction{Number: 1001, Level: record.Serializable, Snapshot: "1001:1001:",
				Absent: []record.Absence{gone}})
			b.settle()
		}, []string{`["offer",0,0,[[[[1,"init"]],[1]]]]`}, absentUndone},
		{"an absent row is left out if an operator was made meanwhile", func(b *bench) {
			b.connect(1)
			b.core.questions.remade = b.now
			b.tell(1, 0, record.Transaction{Level: record.Serializable, Snapshot: "1001:1001:", Absent: []record.Absence{absent("a")}})
			b.settle()
		}, []string{`["offer",0,0,[[[],[]]]]`}, absentMeant},
		{"aborted and empty transactions take no number", func(b *bench) {
			b.connect(1)
			b.commit(1001, "a")
			b.tell(1, 0, record.Transaction{Number: 1000, Outcome: record.Aborted, Reads: []record.Read{read("a", 5)}})
			b.tell(1, 1, record.Transaction{})
			b.tell(1, 2, record.Transaction{Number: 1001})
			b.settle()
		}, []string{`["offer",0,0,[[[[1,"init"]],[1]]]]`}, ""},
		{"an unclear commit is the slot's word", func(b *bench) {
			b.connect(1, 2)
			b.commit(1001, "a")
			b.tell(1, 0, record.Transaction{Number: 1001, Outcome: record.Unclear})
			b.tell(2, 0, record.Transaction{Number: 1002, Outcome: record.Unclear, Reads: []record.Read{read("a", 5)}})
			b.settle()
		}, []string{`["offer",0,0,[[[[1,"init"]],[1]]]]`}, isUnclear},
		{"without a number the reads are offered alone", func(b *bench) {
			b.connect(1)
			b.commit(1001, "a")
			b.tell(1, 0, record.Transaction{MayHaveWritten: true, Reads: []record.Read{read("a", 1001), read("b", 3)}})
			b.settle()
		}, []string{`["offer",0,0,[[[[1,"init"],[2,"init"]],[]]]]`}, noNumber},
		{"what isn't in the slot wrote nothing", func(b *bench) {
			b.connect(1)
			b.tell(1, 0, record.Transaction{Number: 1001, Reads: []record.Read{read("a", 3)}})
			b.settle()
		}, []string{`["offer",0,0,[[[[1,"init"]],[]]]]`}, ""},
		{"a commit without any row counts apart from others'", func(b *bench) {
			b.connect(1)
			b.commit(1001, "a")
			b.place += 100
			b.core.commit(record.Commit{Number: 1002, LSN: b.place, Bare: true}) // somebody else's
			b.place += 100
			b.core.commit(record.Commit{Number: 1003, LSN: b.place, Bare: true}) // a session reports it
			b.tell(1, 0, record.Transaction{Number: 1001})
			b.tell(1, 1, record.Transaction{Number: 1003, Reads: []record.Read{read("a", 1001)}})
			b.settle()
			if n := b.core.counts; n.bare != 1 || len(n.folded) != 0 {
				b.t.Errorf("counted are %d and %v", n.bare, n.folded)
			}
		}, []string{`["offer",0,0,[[[[1,"init"]],[1]],[[[1,0,0]],[]]]]`}, ""},
		{"a partition's row is its root's", func(b *bench) {
			b.connect(1)
			b.core.commit(record.Commit{Number: 1001, LSN: 200, Writes: []record.Write{{Relation: 10, Key: "a"}}})
			b.place = 200
			b.tell(1, 0, record.Transaction{Number: 1001, Reads: []record.Read{{Relation: 11, Key: "a", Version: 5}}})
			b.settle()
		}, []string{`["offer",0,0,[[[[1,"init"]],[1]]]]`}, ""},
		{"an emptied table's rows were deleted by somebody else", func(b *bench) {
			b.connect(1)
			b.commit(1001, "a")
			b.tell(1, 0, record.Transaction{Number: 1001})
			b.place += 100
			b.core.commit(record.Commit{Number: 1002, LSN: b.place, Emptied: []record.Relation{1}})
			b.tell(1, 1, record.Transaction{Level: record.Serializable, Snapshot: "1003:1003:", Absent: []record.Absence{absent("a")}})
			b.settle()
		}, []string{`["offer",0,0,[[[[1,"init"]],[1]],[[[1,0,0],[2,"init"]],[]]]]`}, byOthers},
	} {
		t.Run(one.name, func(t *testing.T) {
			b := newBench(t, Options{Late: time.Second})
			one.story(b)
			if got := strings.Join(b.lines[1:], "\n"); got != strings.Join(one.want, "\n") {
				t.Errorf("offered:\n%s\nwanted:\n%s", got, strings.Join(one.want, "\n"))
			}
			n := b.core.counts
			if one.left != "" && n.folded[one.left]+n.leftReads[one.left]+n.leftWrites[one.left] == 0 {
				t.Errorf("%q isn't counted: %v %v %v", one.left, n.folded, n.leftReads, n.leftWrites)
			}
		})
	}
}
