package join

import (
	"fmt"
	"math/rand"
	"strings"
	"testing"
	"time"

	"zanteyard/record"
)

// Snapshot isolation by its definition, over all orders of begins and commits (Berenson et al. 1995): each connection's
// own order is kept, a read returns the last version that was committed before its reader began, and of two writers of
// a row one committed before the other began.

// events are those of such an order up to one place in it.
type events struct {
	begun, over []bool
	last        map[int]int // the last committed version of each key, as the transaction's place
	tried       map[string]bool
}

// keepsSnapshot reports whether PostgreSQL at repeatable read could have made this: by the definition, except that a
// transaction which inserts a deleted row again needn't have begun after the deletion was committed. Each row's
// versions have the order in which the slot reports them.
func (p past) keepsSnapshot() bool {
	before := map[[2]int]int{}
	for key := 0; key < p.keys; key++ {
		last := -1
		for _, v := range p.versions(key) {
			before[[2]int{v, key}] = last
			last = v
		}
	}
	e := &events{begun: make([]bool, len(p.txns)), over: make([]bool, len(p.txns)), last: map[int]int{}, tried: map[string]bool{}}
	for key := 0; key < p.keys; key++ {
		e.last[key] = -1
	}
	begins := func(i int) bool {
		for j := 0; j < i; j++ {
			if !e.over[j] && p.txns[j].connection == p.txns[i].connection {
				return false
			}
		}
		for _, read := range p.txns[i].reads {
			if read[1] != i && e.last[read[0]] != read[1] {
				return false
			}
		}
		for _, key := range p.txns[i].writes {
			if !p.inserts(i, key) && e.last[key] != before[[2]int{i, key}] {
				return false
			}
		}
		return true
	}
	commits := func(i int) bool {
		for _, key := range p.txns[i].writes {
			if e.last[key] != before[[2]int{i, key}] {
				return false
			}
		}
		return true
	}
	return e.search(begins, commits, func(i int) []int { return p.txns[i].writes })
}

// search tries every order of events from here on.
func (e *events) search(begins, commits func(int) bool, writes func(int) []int) bool {
	at := fmt.Sprint(e.begun, e.over, e.last)
	if e.tried[at] {
		return false
	}
	e.tried[at] = true
	all := true
	for i := range e.begun {
		all = all && e.over[i]
		switch {
		case e.over[i]:
		case !e.begun[i] && begins(i):
			e.begun[i] = true
			if e.search(begins, commits, writes) {
				return true
			}
			e.begun[i] = false
		case e.begun[i] && commits(i):
			was := map[int]int{}
			for _, key := range writes(i) {
				was[key], e.last[key] = e.last[key], i
			}
			e.over[i] = true
			if e.search(begins, commits, writes) {
				return true
			}
			e.over[i] = false
			for key, v := range was {
				e.last[key] = v
			}
		}
	}
	return all
}

// keepsSnapshot is the same for what was offered, with the definition unchanged and no order of versions.
func (m *model) keepsSnapshot() bool {
	var its []modelTxn
	var sessions []int
	place := map[[2]int64]int{{-1, -1}: -1}
	for s := range m.sessions {
		for n, t := range m.sessions[s].its {
			place[[2]int64{int64(s), int64(n)}] = len(its)
			its, sessions = append(its, t), append(sessions, s)
		}
	}
	e := &events{begun: make([]bool, len(its)), over: make([]bool, len(its)), last: map[int]int{}, tried: map[string]bool{}}
	for _, t := range its {
		for _, key := range t.writes {
			e.last[int(key)] = -1
		}
	}
	last := func(key int64) int {
		if v, is := e.last[int(key)]; is {
			return v
		}
		return -1
	}
	begins := func(i int) bool {
		if i > 0 && sessions[i-1] == sessions[i] && !e.over[i-1] {
			return false
		}
		for _, read := range its[i].reads {
			if last(read[0]) != place[[2]int64{read[1], read[2]}] {
				return false
			}
		}
		for j := range its {
			if e.begun[j] && !e.over[j] && share(its[i].writes, its[j].writes) {
				return false
			}
		}
		return true
	}
	writes := func(i int) (keys []int) {
		for _, key := range its[i].writes {
			keys = append(keys, int(key))
		}
		return keys
	}
	return e.search(begins, func(int) bool { return true }, writes)
}

func share(one, other []int64) bool {
	for _, a := range one {
		for _, b := range other {
			if a == b {
				return true
			}
		}
	}
	return false
}

// snapshotPast is what a store at snapshot isolation may have made, with rows inserted again as PostgreSQL permits.
// spoils makes some reads return another version, and some writers miss that somebody has written since they began.
func snapshotPast(r *rand.Rand, spoils bool) past {
	p := past{keys: 1 + r.Intn(3)}
	deleted := map[[2]int]bool{}
	last := make([]int, p.keys)
	for key := range last {
		last[key] = -1
		p.there = append(p.there, r.Intn(2) == 0)
		deleted[[2]int{-1, key}] = !p.there[key]
	}
	began := make([]int, 4) // how many had committed when each connection's next one began
	for n := 2 + r.Intn(5); len(p.txns) < n; {
		c := r.Intn(4)
		t := pastTxn{connection: c, deletes: map[int]bool{}}
		seen := func(key int) int {
			its := p.versions(key)
			for len(its) > 0 && its[len(its)-1] >= began[c] {
				its = its[:len(its)-1]
			}
			if spoils && r.Intn(3) == 0 {
				its = p.versions(key)
			}
			if len(its) == 0 {
				return -1
			}
			return its[len(its)-1]
		}
		for key := range last {
			if r.Intn(3) > 0 {
				t.reads = append(t.reads, [2]int{key, seen(key)})
			}
			isGone := deleted[[2]int{last[key], key}]
			if r.Intn(2) == 0 && (isGone || seen(key) == last[key] || spoils && r.Intn(2) == 0) {
				t.writes = append(t.writes, key)
				t.deletes[key] = r.Intn(3) == 0
			}
		}
		for _, key := range t.writes {
			last[key] = len(p.txns)
			deleted[[2]int{last[key], key}] = t.deletes[key]
		}
		p.txns = append(p.txns, t)
		began[c] = len(p.txns)
		if c = r.Intn(4); r.Intn(2) == 0 {
			began[c] = len(p.txns) // as if it had begun just now
		}
	}
	return p
}

// What PostgreSQL may do at repeatable read keeps snapshot isolation in what is offered of it, however the joiner comes
// to leave a part out.
func TestFoldingMakesUpNoBrokenSnapshot(t *testing.T) {
	r := rand.New(rand.NewSource(20261127))
	var kept, broken, missed, skewed, madeUp int
	for n := 0; n < *histories; n++ {
		p := snapshotPast(r, n%2 == 1)
		whole := p.keepsSnapshot()
		for way := 0; way < 4; way++ {
			b := fold(t, p, r, Options{Snapshot: true})
			offered := b.model.keepsSnapshot()
			switch {
			case whole && !offered:
				t.Fatalf("history %d keeps snapshot isolation, and what was offered of it doesn't:\n%s\n%v", n, p, b.lines)
			case whole:
				kept++
				if !b.model.explained() {
					skewed++
				}
				if !foldAs(t, p, r, Options{Snapshot: true}, true).model.keepsSnapshot() {
					madeUp++
				}
			case offered:
				missed++
			default:
				broken++
			}
		}
	}
	t.Logf("kept %d, of these not serializable %d; broken and found %d, broken and missed %d; made up if an insertion were "+
		"a read of the deletion before it %d", kept, skewed, broken, missed, madeUp)
	if kept < *histories || broken < *histories/20 || skewed < *histories/20 || madeUp < *histories/20 {
		t.Error("too few are of one kind")
	}
}

// A row that is inserted again makes no violation, but would if its insert were a read of what precedes it. The reader
// of the row that was there before comes before its deletion, and of the place between both rows after that.
func TestInsertedAgain(t *testing.T) {
	for _, snapshot := range []bool{false, true} {
		b := newBench(t, Options{Snapshot: snapshot})
		b.connect(1, 2, 3)
		began := b.now
		b.commit(1001, "x", "+k")
		b.tell(2, 0, transaction(1001))
		b.commit(1002, "-k")
		b.tell(2, 1, transaction(1002))
		b.commit(1003, "+k")
		late := transaction(1003)
		late.Began, late.Reads = began, append(late.Reads, read("x", 7))
		b.tell(1, 0, late)
		b.tell(3, 0, record.Transaction{Reads: []record.Read{read("k", 1001)}})
		b.settle()
		if !b.model.explained() || !b.model.keepsSnapshot() {
			t.Errorf("asked about snapshots: %v, and it isn't explained:\n%v", snapshot, b.lines)
		}
		b.tell(3, 1, record.Transaction{Level: record.RepeatableRead, Snapshot: "1003:1003:", Absent: []record.Absence{absent("k")}})
		b.tell(3, 2, record.Transaction{Reads: []record.Read{read("k", 1003)}})
		b.settle()
		// Who found no row comes after the deletion and before the insertion. Now there is a cycle, which snapshots permit.
		if b.model.explained() || !b.model.keepsSnapshot() {
			t.Errorf("asked about snapshots: %v, and it is explained, or not by snapshots:\n%v", snapshot, b.lines)
		}
		want := `["offer",0,0,[[[[1,"init"],[2,"init"]],[1]]]] ` +
			`["offer",1,0,[[[[2,"init"],[3,"init"]],[2,3]],[[[3,1,0]],[3]]]] ` +
			`["offer",2,0,[[[[3,1,0]],[]]]] ["offer",2,1,[[[[1,"init"],[3,1,1]],[]],[[[1,0,0]],[]]]]`
		if got := strings.Join(b.lines[1:], " "); got != want {
			t.Errorf("offered %s\nand not %s", got, want)
		}
	}
}

// What is known of a key's earlier rows is forgotten with time, and to make room. From then on a read that may be of one
// of them is left out, and no write is taken for one of theirs.
func TestRowsBeforeAreForgotten(t *testing.T) {
	old := record.Transaction{Began: time.Unix(990, 0), Reads: []record.Read{read("k", 7)}}
	none := record.Transaction{Level: record.RepeatableRead, Snapshot: "1001:1001:", Absent: []record.Absence{absent("k")}}
	for _, x := range []struct {
		name  string
		story func(b *bench)
		want  string // the reads of the first connection's transaction
	}{
		{"of a row that was there before the audit, deleted and forgotten", func(b *bench) {
			b.commit(1001, "-k")
			b.commit(1002, "m", "n", "o")
			b.tell(1, 0, old)
		}, `[]`},
		{"of the same, and the key has another row", func(b *bench) {
			b.commit(1001, "-k")
			b.commit(1002, "m", "n", "o")
			b.commit(1003, "+k")
			b.tell(1, 0, old)
		}, `[]`},
		{"of a row that was there before the audit, by one who began long after all that is forgotten", func(b *bench) {
			b.commit(1001, "-m")
			b.commit(1002, "n", "o", "p")
			b.later(visible + time.Second)
			b.tell(1, 0, record.Transaction{Reads: old.Reads})
		}, `[[1,"init"]]`},
		{"of a row of which the deletion isn't known", func(b *bench) {
			b.tell(2, 0, record.Transaction{Reads: old.Reads})
			b.settle()
			b.commit(1001, "+k") // after a TRUNCATE, say
			b.tell(1, 0, old)
		}, `[[1,"init"]]`}, // it is still the one that the first reader found
		{"of an earlier row, whose successor has an old version", func(b *bench) {
			b.commit(1001, "-k")
			b.commit(1002, "+k")
			b.settle()
			b.later(30 * time.Second)
			b.core.forget()
			b.tell(1, 0, record.Transaction{Level: record.RepeatableRead, Snapshot: "1001:1001:", Reads: old.Reads, Absent: none.Absent})
		}, `[]`},
		{"of no row, before an unknown number of others", func(b *bench) {
			b.commit(1001, "+k")
			b.commit(1002, "m", "n", "o")
			b.tell(1, 0, none)
		}, `[]`},
		{"of no row, after a deletion", func(b *bench) {
			b.commit(1001, "-k")
			b.tell(2, 0, transaction(1001))
			b.tell(1, 0, record.Transaction{Level: record.RepeatableRead, Snapshot: "1002:1002:", Absent: none.Absent})
		}, `[[1,1,0],[2,"init"]]`},
		{"of a table whose rows were forgotten", func(b *bench) {
			b.commit(1001, "-k")
			b.core.forgetTables(map[record.Relation]bool{1: true})
			b.tell(1, 0, old)
		}, `[]`},
		{"of a row that may be among those of which too many were written", func(b *bench) {
			b.commitDropping(1001, 1)
			b.tell(1, 0, old)
		}, `[]`},
		{"of a row that was updated after an insertion that isn't known", func(b *bench) {
			b.commit(1001, "-k")
			b.commitDropping(1002, 1)
			b.commit(1003, "k")
			b.tell(2, 0, transaction(1001))
			b.tell(1, 0, transaction(1003))
		}, `[[1,"init"]]`},
	} {
		b := newBench(t, Options{Late: time.Second, Rows: 3})
		b.later(time.Second)
		b.connect(1, 2)
		x.story(b)
		b.settle()
		if text := strings.Join(b.lines, " "); !strings.Contains(text, `["offer",0,0,[[`+x.want+`,[`) {
			t.Errorf("%s: offered %s", x.name, text)
		}
	}
}

func transaction(number uint64) record.Transaction {
	return record.Transaction{Number: number, Level: record.RepeatableRead}
}

// Sessions are handed on and fences made as in TestHandingOnMakesUpNothing, over a store that keeps only snapshot
// isolation: what was offered keeps it too, with the sessions and the fences.
func TestHandingOnMakesUpNoBrokenSnapshot(t *testing.T) {
	var handed, cuts, skewed uint64
	for seed := int64(0); seed < int64(*worlds); seed++ {
		w := newWorld(t, seed, "")
		w.snapshot = true
		w.live1(12)
		if path := w.model.cycle(true); path != nil {
			t.Fatalf("seed %d: what was committed keeps snapshot isolation, and what was offered doesn't:\n%s", seed, path)
		}
		if w.model.cycle(false) != nil {
			skewed++
		}
		handed += w.core.counts.handed
		cuts += uint64(w.cuts)
	}
	t.Logf("handed on %d times, %d cuts; %d of %d lives aren't serializable", handed, cuts, skewed, *worlds)
	if handed < uint64(*worlds) || cuts < uint64(*worlds) || skewed < uint64(*worlds)/2 {
		t.Error("that is too little to find anything")
	}
}

// Each joiner that is made wrong on purpose breaks what the store keeps.
func TestWrongJoinersOfSnapshots(t *testing.T) {
	for _, one := range []fault{byTheClock, spanning, late, early, wrongOrder, hasty, fetched} {
		findWrong(t, one, true)
	}
}
