package join

import (
	"encoding/json"
	"fmt"
	"testing"
	"time"

	"zanteyard/record"
)

// plainTables are tables without partitions, except that relation 11 is a partition of 10.
type plainTables struct{}

func (plainTables) Root(r record.Relation) record.Relation {
	if r == 11 {
		return 10
	}
	return r
}

func (plainTables) Use(record.Relation) {}

// Same: a key's identity is 0 as long as nothing has changed.
func (plainTables) Same(_ record.Relation, identity record.Identity) bool { return identity == 0 }

func (plainTables) SameColumns(_ record.Relation, identity record.Identity) bool {
	return identity == 0
}

func (plainTables) Words(r record.Relation, k record.Key) (string, string, []string) {
	return fmt.Sprint("t", r), string(k), []string{"id"}
}

// bench drives a core, and feeds its lines to a plain model of the auditor, which refuses what cobra_audit refuses.
type bench struct {
	t     testing.TB
	core  *core
	now   time.Time
	place uint64
	shows string // what a snapshot shows now
	model *model
	lines []string
}

const base = 1000 // transactions with lower numbers were over when the audit began

func newBench(t testing.TB, opt Options) *bench {
	if opt.First == 0 {
		opt.First = opt.Sessions // none joins later
	}
	b := &bench{t: t, now: time.Unix(1000, 0), place: 100, shows: "3:2000000000:"}
	b.core = newCore(opt, plainTables{}, base, b.line, b.now)
	b.core.open()
	return b
}

func (b *bench) line(text []byte) {
	b.lines = append(b.lines, string(text))
	var it []any
	if err := json.Unmarshal(text, &it); err != nil {
		b.t.Fatalf("line %s: %v", text, err)
	}
	if b.model == nil {
		b.model = &model{sessions: make([]modelSession, int(it[1].(float64))), limit: int(it[2].(float64))}
		if it[3].(float64) != 3 {
			b.t.Errorf("opened by %s", text)
		}
		return
	}
	if refusal := b.model.take(it); refusal != "" {
		b.t.Fatalf("line %s is refused: %s", text, refusal)
	}
}

func (b *bench) connect(numbers ...uint64) {
	for _, number := range numbers {
		b.core.enter(record.Connection{Number: number})
	}
}

// later lets time pass.
func (b *bench) later(d time.Duration) *bench {
	b.now = b.now.Add(d)
	b.core.now = b.now
	return b
}

// commit makes the slot report a transaction. A key with a minus in front is deleted, one with a plus inserted.
func (b *bench) commit(number uint32, keys ...string) { b.commitDropping(number, 0, keys...) }

// commitDropping is commit of a transaction that wrote other rows, too, which the slot's reader didn't keep.
func (b *bench) commitDropping(number uint32, dropped int, keys ...string) {
	b.place += 100
	it := record.Commit{Number: number, LSN: b.place, Start: b.place - 50, Dropped: uint64(dropped)}
	for _, key := range keys {
		one := record.Write{Relation: 1}
		if key[0] == '+' {
			key, one.Inserted = key[1:], true
		}
		if key[0] == '-' {
			key, one.Deleted = key[1:], true
		}
		one.Key = record.Key(key)
		it.Writes = append(it.Writes, one)
	}
	b.core.commit(it)
	b.core.advance(it.LSN)
}

// empty makes the slot report a transaction that emptied the table.
func (b *bench) empty(number uint32) {
	b.place += 100
	b.core.commit(record.Commit{Number: number, LSN: b.place, Start: b.place - 50, Emptied: []record.Relation{1}})
	b.core.advance(b.place)
}

// quiet makes now a quiet moment.
func (b *bench) quiet() { b.core.quiet(b.now) }

// tell makes a session report a transaction that was committed just now.
func (b *bench) tell(connection, place uint64, it record.Transaction) {
	it.Connection, it.Place = connection, place
	if it.Began.IsZero() {
		it.Began = b.now
	}
	b.now = b.now.Add(time.Millisecond)
	b.core.now = b.now
	if it.Ended.IsZero() {
		it.Ended = b.now
	}
	b.core.tell(it)
}

// pass makes the slot pass everything that was reported, and the joiner do what it can.
func (b *bench) pass() {
	if batch, wanted := b.core.wantsPlace(); wanted {
		b.core.placed(batch, Place{At: b.place, Shows: b.shows}, b.now)
	}
	b.core.advance(b.place)
	b.core.step(b.now)
	b.core.flush()
}

// settle lets enough time pass that nothing is undecided.
func (b *bench) settle() {
	b.pass()
	b.later(b.core.opt.Late + time.Millisecond)
	b.core.step(b.now)
	b.core.flush()
}

// overFences lets a meeting pass.
func (b *bench) overFences() {
	b.later(time.Millisecond)
	b.core.meet(b.now)
	b.settle()
	b.core.decideBeyond()
	b.core.round()
}

func read(key string, version uint32) record.Read {
	return record.Read{Relation: 1, Key: record.Key(key), Version: version}
}

func absent(key string) record.Absence { return record.Absence{Relation: 1, Key: record.Key(key)} }
