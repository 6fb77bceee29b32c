package join

import (
	"fmt"
	"math/rand"
	"strings"
	"testing"
	"time"

	"zanteyard/record"
)

// load drives a core as a busy server would: 32 connections, transactions of three reads and two writes, a step after
// every 50 of them, and a cut after every 1,000.
type load struct {
	core  *core
	now   time.Time
	r     *rand.Rand
	last  []uint32 // the last writer of each key
	keys  []record.Key
	next  uint32
	place uint64
	at    [33]uint64
	bytes int
	asks  func(*record.Transaction, *record.Commit) // nil if none does
}

func newLoad(keys int) *load {
	l := &load{now: time.Unix(1000, 0), r: rand.New(rand.NewSource(1)), last: make([]uint32, keys), next: base}
	l.core = newCore(Options{First: 32}, plainTables{}, base, func(line []byte) { l.bytes += len(line) }, l.now)
	for i := range l.last {
		l.last[i] = 5
		l.keys = append(l.keys, record.Key(fmt.Sprintf("%d", i)))
	}
	for number := uint64(1); number <= 32; number++ {
		l.core.enter(record.Connection{Number: number})
	}
	return l
}

func (l *load) transaction() {
	l.next++
	l.place += 300
	connection := 1 + l.next%32
	it := record.Transaction{Connection: uint64(connection), Place: l.at[connection], Number: uint64(l.next), Began: l.now,
		Level: record.Serializable}
	l.at[connection]++
	commit := record.Commit{Number: l.next, LSN: l.place, Start: l.place - 50}
	for i := 0; i < 3; i++ {
		k := l.r.Intn(len(l.keys))
		it.Reads = append(it.Reads, record.Read{Relation: 1, Key: l.keys[k], Version: l.last[k]})
		if i < 2 {
			commit.Writes = append(commit.Writes, record.Write{Relation: 1, Key: l.keys[k]})
			l.last[k] = l.next
		}
	}
	it.Statements = []record.Statement{{Text: "SELECT balance FROM accounts WHERE id = $1", At: l.now}}
	if l.asks != nil {
		l.asks(&it, &commit)
	}
	l.now = l.now.Add(100 * time.Microsecond)
	it.Ended = l.now
	l.core.now = l.now
	l.core.commit(commit)
	l.core.advance(commit.LSN)
	l.core.tell(it)
	if l.next%50 == 0 {
		if batch, wanted := l.core.wantsPlace(); wanted {
			l.core.placed(batch, Place{At: l.place}, l.now)
		}
		l.core.step(l.now)
		l.core.flush()
	}
	if l.next%1000 == 0 {
		marks := make([]uint64, len(l.core.sessions))
		for i, s := range l.core.sessions {
			marks[i] = s.written
		}
		l.core.fenced = l.core.commits
		l.core.cut(marks)
	}
}

func BenchmarkJoiner(b *testing.B) {
	for _, keys := range []int{1000, 100_000} {
		b.Run(fmt.Sprint(keys, " keys"), func(b *testing.B) {
			l := newLoad(keys)
			b.ReportAllocs()
			b.ResetTimer()
			for i := 0; i < b.N; i++ {
				l.transaction()
			}
			b.StopTimer()
			if n := l.core.counts; n.folded[noRoom] > 0 || int(n.offered) < b.N-100 {
				b.Fatalf("offered %d of %d, folded %v", n.offered, b.N, n.folded)
			}
		})
	}
}

// Memory doesn't grow with the number of transactions that went through.
func TestMemoryIsBounded(t *testing.T) {
	l := newLoad(20_000)
	l.core.rows.most = 5_000
	sizes := func() [6]int {
		c := l.core
		n := 0
		for _, s := range c.sessions {
			n += len(s.kept) + len(s.waiting)
		}
		return [6]int{len(c.rows.by), c.rows.written.len(), len(c.rows.read) + len(c.rows.many), len(c.writers) + len(c.late), n, c.texts}
	}
	var at [2][6]int
	for i := range at {
		for n := 0; n < 20_000; n++ {
			l.transaction()
		}
		at[i] = sizes()
	}
	for i := range at[0] {
		if at[1][i] > at[0][i]*5/4+500 {
			t.Errorf("of the numbers %v those at %d have grown: %v", at[0], i, at[1])
		}
	}
	if len(l.core.rows.by) > 5_000+3*4096 {
		t.Errorf("%d rows are kept", len(l.core.rows.by))
	}
	if reasons := l.core.counts.leftReads; reasons[versionUnknown] == 0 {
		t.Errorf("no row was forgotten: %v", reasons)
	}
	var text strings.Builder
	fmt.Fprint(&text, at)
	t.Log(text.String())
}

// A row that only others write has a long list of versions between two cuts: reading it takes no longer because of
// that.
func TestHotRow(t *testing.T) {
	b := newBench(t, Options{Late: time.Millisecond, Stale: time.Hour})
	b.connect(1)
	for n := uint32(0); n < 20_000; n++ {
		b.commit(1001+n, "a")
		if n%2 == 0 {
			b.later(10 * time.Millisecond)
			b.tell(1, uint64(n), record.Transaction{Reads: []record.Read{read("a", 1001+n)}})
			b.pass()
		}
		if n%2000 == 0 {
			marks := make([]uint64, len(b.core.sessions))
			marks[0] = b.core.sessions[0].written
			b.model.sessions[0].mark = int(marks[0])
			b.core.cut(marks)
		}
	}
	b.settle()
	if n := b.core.counts; n.offered < 9_500 || n.readsOffered != n.offered {
		t.Errorf("offered %d transactions, %d reads", n.offered, n.readsOffered)
	}
	b.core.opt.Stale = time.Millisecond
	b.later(time.Second)
	b.core.forget()
	length := 0
	for v := b.core.rows.by[rowID{1, "a"}].last; v != nil; v = v.before {
		length++
	}
	if length != 1 {
		t.Errorf("%d versions are kept", length)
	}
}
