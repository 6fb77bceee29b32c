package join

import (
	"fmt"
	"testing"
	"time"

	"zanteyard/condition"
	"zanteyard/record"
)

// Only the last 4,096 quiet moments are kept, or the later half of them; a transaction that began before the first one
// then counts as spanning one.
func TestMomentsAreBounded(t *testing.T) {
	at := func(n int) time.Time { return time.Unix(1000, 0).Add(time.Duration(n) * time.Second) }
	var m moments
	for n := 1; n <= mostMoments; n++ {
		if !m.set(at(n)) {
			t.Fatalf("moment %d isn't set", n)
		}
	}
	if len(m.its) != mostMoments || m.forgot || m.spanned(at(0), at(0)) {
		t.Errorf("%d are kept; some are forgotten: %v", len(m.its), m.forgot)
	}
	if m.set(at(mostMoments)) {
		t.Error("one is set that isn't later")
	}
	m.set(at(mostMoments + 1))
	if len(m.its) != mostMoments/2+1 || !m.forgot || !m.spanned(at(0), at(0)) {
		t.Errorf("%d are kept; some are forgotten: %v", len(m.its), m.forgot)
	}
	if first := mostMoments/2 + 1; !m.its[0].Equal(at(first)) || m.spanned(at(first), at(first)) {
		t.Errorf("the first one is at %v", m.its[0])
	}
}

// A row is queued once for forgetting, however often it is written.
func TestRowsWaitOnceToBeForgotten(t *testing.T) {
	b := newBench(t, Options{Sessions: 1, Rows: 2})
	b.commit(1001, "a")
	b.commit(1002, "a", "b")
	b.commit(1004, "b", "a")
	if n := b.core.rows.written.len(); n != 2 {
		t.Errorf("%d wait", n)
	}
	b.commit(1005, "c") // there is no room for three
	var kept []string
	for id := range b.core.rows.by {
		kept = append(kept, string(id.key))
	}
	if b.core.rows.written.len() != 2 || len(kept) != 2 || b.core.rows.by[rowID{1, "a"}] != nil {
		t.Errorf("kept are %v", kept)
	}
}

// A transaction of a connection outside the sample is left out for that reason.
func TestOutsideTheSample(t *testing.T) {
	b := newBench(t, Options{Sessions: 64, Sample: 0.5})
	in, out := uint64(0), uint64(0)
	for number := uint64(1); number <= 20; number++ {
		if b.core.sampled(number) {
			in++
		} else {
			out++
		}
		b.connect(number)
		b.tell(number, 0, record.Transaction{Reads: []record.Read{read("a", 5)}})
	}
	b.settle()
	if in == 0 || out == 0 {
		t.Fatalf("%d are in the sample, and %d aren't", in, out)
	}
	n := b.core.counts
	if n.offered != in || n.folded[sampledOut] != out || n.leftReads[sampledOut] != out || n.folded[noSession] != 0 {
		t.Errorf("%d are in the sample: offered %d, folded %v", in, n.offered, n.folded)
	}
}

// Nobody looks up a decided transaction by its number any more, whoever reported it first.
func TestWhatIsDecidedTakesNoRoom(t *testing.T) {
	b := newBench(t, Options{Sessions: 1})
	b.connect(1, 2)
	b.tell(1, 0, record.Transaction{Number: 1001}) // offered, and the slot reports it later
	b.tell(2, 0, record.Transaction{Number: 1002}) // left out: its connection has no session
	if len(b.core.writers) != 2 {
		t.Fatalf("waiting are %v", b.core.writers)
	}
	b.commit(1001, "a")
	b.commit(1002, "a")
	b.commit(1003, "a")
	b.tell(1, 1, record.Transaction{Number: 1003}) // the slot reported it before
	if len(b.core.writers) != 0 {
		t.Errorf("waiting are %v", b.core.writers)
	}
	b.settle()
	if len(b.core.writers) != 0 || b.core.counts.offered != 2 {
		t.Errorf("waiting are %v", b.core.writers)
	}
}

// A connection's transactions follow one another by their places: only then does none of them need a quiet moment.
func TestPlacesOfAConnection(t *testing.T) {
	b := newBench(t, Options{Sessions: 1})
	b.connect(1)
	for _, one := range []struct{ place, folded uint64 }{{4, 0}, {5, 0}, {5, 1}, {3, 2}, {6, 2}} {
		b.tell(1, one.place, record.Transaction{Reads: []record.Read{read("a", 5)}})
		if n := b.core.counts.folded[acrossMoment]; n != one.folded {
			t.Errorf("after place %d %d are left out", one.place, n)
		}
	}
}

// A cut that no round waits for, such as one of a previous audit, doesn't answer the next one.
func TestCutThatNoRoundWaitsFor(t *testing.T) {
	for _, one := range []struct{ waiting, left int }{{0, 0}, {1, 0}, {2, 1}} {
		b := newBench(t, Options{Sessions: 1})
		j := &Joiner{core: b.core, commands: make(chan func(), 1), done: make(chan struct{}), unanswered: one.waiting}
		j.Cut([]uint64{0})
		(<-j.commands)()
		if j.unanswered != one.left {
			t.Errorf("of %d rounds %d wait", one.waiting, j.unanswered)
		}
	}
}

// TestRegistersHaveABound: what is kept of conditions is bounded, with the rows that each one passed over.
func TestRegistersHaveABound(t *testing.T) {
	row := condition.NewRow(nil)
	values := map[*condition.Row][2]int{row: {1, 1}}
	b := newBench(t, Options{Sessions: 2, Conditions: 40 * registerBytes})
	b.connect(1)
	for i := 0; i < 4; i++ {
		its := &fakeCondition{kind: "y", d: -i, values: values}
		b.tell(1, uint64(i), record.Transaction{Asks: []record.Ask{{Condition: its, From: b.now}}})
	}
	q := b.core.questions
	for n := uint32(0); n < 30; n++ {
		b.place += 100
		b.core.commit(record.Commit{Number: 1001 + n, LSN: b.place, Start: b.place - 50, Writes: []record.Write{
			{Relation: 1, Key: record.Key(fmt.Sprint(n)), Inserted: true, New: row, Bytes: 10}}})
		if q.bytes > q.most && q.order.Len() > 1 {
			t.Fatalf("%d bytes of %d conditions", q.bytes, q.order.Len())
		}
	}
	if q.order.Len() == 4 || q.dropped == 0 {
		t.Errorf("%d conditions are kept, and %d dropped", q.order.Len(), q.dropped)
	}
	for q.order.Len() > 0 {
		q.drop(q.order.Front().Value.(*question))
	}
	if q.bytes != 0 {
		t.Errorf("%d bytes of nothing", q.bytes)
	}
}

// TestManyRowsArePassedOver: a transaction is offered with only so many rows that its conditions passed over, and the
// others are counted.
func TestManyRowsArePassedOver(t *testing.T) {
	const rows = mostPassed + 20
	row := condition.NewRow(nil)
	its := &fakeCondition{kind: "y", values: map[*condition.Row][2]int{row: {1, 1}}}
	b := newBench(t, Options{Sessions: 2})
	b.connect(1, 2)
	b.tell(1, 0, record.Transaction{Asks: []record.Ask{{Condition: its, From: b.now}}})
	number := uint32(1000)
	for place := 0; place < 2*rows; place++ {
		number++
		b.place += 100
		b.core.commit(record.Commit{Number: number, LSN: b.place, Start: b.place - 50, Writes: []record.Write{{Relation: 1,
			Key: record.Key(fmt.Sprint(place / 2)), Inserted: place%2 == 0, Deleted: place%2 == 1, New: row, Bytes: 10}}})
		b.core.advance(b.place)
		b.tell(2, uint64(place), record.Transaction{Number: uint64(number)})
	}
	b.settle()
	before := b.core.counts
	b.tell(1, 1, record.Transaction{Level: record.ReadCommitted, Asks: []record.Ask{{Condition: its, From: b.now}}})
	b.settle()
	passed, left := b.core.counts.passed-before.passed, b.core.counts.leftPassed[tooManyPassed]
	if passed != mostPassed+ahead || left != rows-mostPassed {
		t.Errorf("%d rows are offered, and %d left out", passed, left)
	}
}

// TestRegistersOfOneCondition: a condition has registers of only so many rows, and the others are counted.
func TestRegistersOfOneCondition(t *testing.T) {
	row := condition.NewRow(nil)
	its := &fakeCondition{kind: "y", values: map[*condition.Row][2]int{row: {1, 1}}}
	b := newBench(t, Options{Sessions: 2})
	b.connect(1)
	b.tell(1, 0, record.Transaction{Asks: []record.Ask{{Condition: its, From: b.now}}})
	for n := uint32(0); n < mostRegisters+20; n++ {
		b.place += 100
		b.core.commit(record.Commit{Number: 1001 + n, LSN: b.place, Start: b.place - 50, Writes: []record.Write{
			{Relation: 1, Key: record.Key(fmt.Sprint(n)), Inserted: true, New: row, Bytes: 10}}})
	}
	q := b.core.questions.order.Front().Value.(*question)
	if n := b.core.counts.leftPassed[tooManyRegisters]; len(q.registers) != mostRegisters || n != 20 {
		t.Errorf("%d registers, and %d rows left out", len(q.registers), n)
	}
}

// TestPassedOverByOneThatIsntReported: who passed over a row waits until it is known whether the writer that hid it is
// offered.
func TestPassedOverByOneThatIsntReported(t *testing.T) {
	row := condition.NewRow(nil)
	its := &fakeCondition{kind: "y", values: map[*condition.Row][2]int{row: {1, 1}}}
	b := newBench(t, Options{Sessions: 3})
	b.connect(1, 2, 3)
	asks := func(place uint64) {
		b.tell(1, place, record.Transaction{Level: record.ReadCommitted, Asks: []record.Ask{{Condition: its, From: b.now}}})
	}
	commit := func(number uint32, deleted bool) {
		b.place += 100
		b.core.commit(record.Commit{Number: number, LSN: b.place, Start: b.place - 50, Writes: []record.Write{
			{Relation: 1, Key: "a", Inserted: !deleted, Deleted: deleted, New: row, Bytes: 10}}})
		b.core.advance(b.place)
	}
	asks(0)
	commit(1001, false)
	b.tell(2, 0, record.Transaction{Number: 1001})
	b.settle()
	before := b.core.counts.passed
	b.later(10 * time.Millisecond)
	commit(1002, true)
	asks(1)
	b.pass()
	if n := b.core.counts.passed - before; n != 0 {
		t.Errorf("%d rows are offered before it is known who hid one", n)
	}
	b.tell(3, 0, record.Transaction{Number: 1002})
	b.settle()
	if n := b.core.counts.passed - before; n != 1+ahead {
		t.Errorf("%d rows are offered: %v", n, b.core.counts.leftPassed)
	}
}

// TestAsksThatAreDroppedTwice: a condition that isn't known any more takes no room that could be given back, and the index
// may lose one that nobody knows.
func TestAsksThatAreDroppedTwice(t *testing.T) {
	b := newBench(t, Options{Sessions: 2})
	b.connect(1)
	first, second := &fakeCondition{kind: "x", c: 1}, &fakeCondition{kind: "x", c: 2}
	b.tell(1, 0, record.Transaction{Asks: []record.Ask{{Condition: first}, {Condition: second}}})
	q := b.core.questions
	old, left := q.by[first.Key()], q.by[second.Key()]
	for i := 0; i < 2; i++ {
		if q.drop(old); q.bytes != left.size() || len(q.by) != 1 || q.order.Len() != 1 {
			t.Fatalf("dropped %d times: %d bytes, %d known, %d in order", i+1, q.bytes, len(q.by), q.order.Len())
		}
	}
	if q.drop(nil); q.bytes != left.size() {
		t.Errorf("%d bytes", q.bytes)
	}
}

// TestValuesUnknown: a row that was written with a value that isn't known may have been passed over, and is counted, once for
// each condition on that value.
func TestValuesUnknown(t *testing.T) {
	row := condition.NewRow(nil)
	b := newBench(t, Options{Sessions: 2})
	b.connect(1)
	for n := 0; n < 3; n++ {
		its := &fakeCondition{kind: "y", d: n, values: map[*condition.Row][2]int{row: {100, 100}}, unknown: condition.Unknown}
		b.tell(1, uint64(n), record.Transaction{Asks: []record.Ask{{Condition: its, From: b.now}}})
	}
	b.place += 100
	b.core.commit(record.Commit{Number: 1001, LSN: b.place, Start: b.place - 50, Writes: []record.Write{
		{Relation: 1, Key: "1", Inserted: true, New: row, Bytes: 10}}})
	if n := b.core.counts.leftPassed[valueUnknown]; n != 3 {
		t.Errorf("%d rows are counted: %v", n, b.core.counts.leftPassed)
	}
}
