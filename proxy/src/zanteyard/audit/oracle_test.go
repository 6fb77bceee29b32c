package audit

import (
	"context"
	"errors"
	"fmt"
	"math/rand"
	"sort"
	"strconv"
	"strings"
	"sync"
	"testing"
	"time"

	"zanteyard/catalog"
	"zanteyard/join"
	"zanteyard/record"
	"zanteyard/slot"
)

// output takes what the joiner offers.
type output struct {
	lock   sync.Mutex
	lines  []string
	events chan join.Event
}

func (o *output) Line(line []byte) {
	o.lock.Lock()
	defer o.lock.Unlock()
	o.lines = append(o.lines, string(line))
}

func (o *output) Event(it join.Event) {
	if _, is := it.(join.Coverage); is {
		select {
		case o.events <- it:
		default:
		}
		return
	}
	o.events <- it
}

// nobody is a proxy without sessions.
type nobody struct{}

func (nobody) Meet(_ context.Context, _ []uint64, moment func(time.Duration)) { moment(0) }
func (nobody) Busy([]uint64) (underWay, idle int)                             { return 0, 0 }

func canonical(typeOID uint32, text string) (string, bool) { return text, true }

func TestLockstep(t *testing.T) {
	s := startServer(t, "max_prepared_transactions=10")
	setup := s.connect(t)
	must(t, setup, oracleSchema)
	runs := 1 + *lockstep/2000 // an audit without cuts can't be longer than this
	if runs == 1 {
		runs = 2
	}
	for seed := 1; seed <= runs; seed++ {
		must(t, setup, "DELETE FROM child; DELETE FROM parent; DELETE FROM t; DELETE FROM part; DELETE FROM whole;"+oracleRows)
		t.Run(fmt.Sprint(seed), func(t *testing.T) { runLockstep(t, s, int64(seed), *lockstep/runs, slot.Wal2json) })
	}
	// Without the commits' places savepoints can't be looked up: what is offered is right, and the rest is counted.
	must(t, setup, "DELETE FROM child; DELETE FROM parent; DELETE FROM t; DELETE FROM part; DELETE FROM whole;"+oracleRows)
	few := *lockstep / 4
	if most := 1500; few > most { // as above
		few = most
	}
	t.Run("test_decoding", func(t *testing.T) { runLockstep(t, s, 100, few, slot.TestDecoding) })
}

func runLockstep(t *testing.T, s *server, seed int64, commits int, plugin slot.Plugin) {
	ctx, cancel := context.WithCancel(context.Background())
	defer cancel()
	options := slot.Options{
		Source: s.source(), Name: fmt.Sprint("lockstep_", seed), Canonical: canonical, Plugin: plugin,
	}
	control, tables, err := slot.NewControl(ctx, options)
	if err != nil {
		t.Fatal(err)
	}
	defer control.Close(ctx)
	reader, err := slot.Open(ctx, options, tables)
	if errors.Is(err, slot.ErrNoPlugin) {
		t.Skip("the plugin isn't installed")
	}
	if err != nil {
		t.Fatal(err)
	}
	unseen := control.Inspects(ctx)
	inbox := join.NewInbox(1 << 30)
	out := &output{events: make(chan join.Event, 10)}
	// A commit counts as somebody else's after a time in which no test could pause: the whole run is over by then.
	joiner := join.New(join.Options{Between: time.Hour, Late: time.Hour, Stale: time.Hour}, inbox, tables, control,
		unseen == "" && plugin == slot.Wal2json, nobody{}, out)
	ended := make(chan error, 2)
	go func() { ended <- reader.Read(ctx, joiner) }()
	go func() { ended <- joiner.Run(ctx) }()
	l := &lockstepper{
		t: t, r: rand.New(rand.NewSource(seed)), sink: inbox, observer: s.connect(t), now: map[cell]string{}, first: map[cell]bool{},
		history: map[cell][]step{}, owned: map[string]*done{}, oids: map[string]record.Relation{},
		identities: map[string]record.Identity{},
		leaves:     plugin != slot.Wal2json,
	}
	waitFor[join.Started](t, out)
	for _, row := range must(t, l.observer, contents) {
		l.now[cell{row[0], row[1]}] = row[2] + " " + row[3]
		l.first[cell{row[0], row[1]}] = true
	}
	for _, row := range must(t, l.observer, "SELECT relname, oid FROM pg_class WHERE relkind IN ('r', 'p')") {
		oid, _ := strconv.ParseUint(row[1], 10, 32)
		l.oids[row[0]] = record.Relation(oid)
	}
	for _, row := range must(t, l.observer, "SELECT c.relname, "+catalog.IdentitySQL+
		" FROM pg_class c JOIN pg_index i ON i.indrelid = c.oid AND i.indisprimary") {
		l.identities[row[0]] = catalog.KeyIdentity("public", row[0], row[1])
	}
	for _, number := range []uint64{1, 2, 3, 0} {
		l.connect(s, number)
	}
	for l.commits < commits {
		l.step()
	}
	for _, c := range l.clients {
		if c.open != nil {
			must(t, c.conn, "ROLLBACK")
		}
		c.conn.Close(ctx)
	}
	l.compare(joiner, out)
}

func waitFor[T join.Event](t *testing.T, out *output) T {
	t.Helper()
	for {
		select {
		case it := <-out.events:
			if its, is := it.(T); is {
				return its
			}
			if ended, is := it.(join.Ended); is {
				t.Fatalf("the audit has ended: %s", ended.Reason)
			}
		case <-time.After(5 * time.Minute):
			t.Fatal("an event doesn't come")
		}
	}
}

// compare asks the joiner for everything that it has offered, and compares it with the rows.
func (l *lockstepper) compare(joiner *join.Joiner, out *output) {
	l.t.Helper()
	want := 0
	for _, it := range l.owned {
		if it.offered && !(len(it.reads) == 0 && len(it.absent) == 0 && len(it.wrote) == 0) {
			want++
		}
	}
	var given []join.Description
	for begun := time.Now(); ; time.Sleep(20 * time.Millisecond) {
		var ids [][2]uint64
		for session := uint64(0); session < 3; session++ {
			for n := uint64(0); n < 3000; n++ {
				ids = append(ids, [2]uint64{session, n})
			}
		}
		joiner.Describe(1, ids)
		given = given[:0]
		for _, one := range waitFor[join.Transactions](l.t, out).Given {
			if one.Known {
				given = append(given, one)
			}
		}
		if c := waitFor[join.Coverage](l.t, out); c.Pending == 0 && len(given) >= want {
			l.counted = 0
			for _, n := range c.ReadsLeft {
				l.counted += int(n)
			}
			l.t.Logf("committed %d, offered %d, folded %v, reads left out %v", c.Committed, c.Offered, c.Folded, c.ReadsLeft)
			break
		}
		if time.Since(begun) > 2*time.Minute {
			l.t.Fatalf("%d transactions were offered, and not %d", len(given), want)
		}
	}
	l.judge(given)
}

// judge compares transaction by transaction.
func (l *lockstepper) judge(given []join.Description) {
	byPlace := map[[2]uint64]*done{}
	for _, it := range l.owned {
		if it.offered {
			byPlace[[2]uint64{it.client.number, it.place}] = it
		}
	}
	names := map[string]string{} // by tag
	for i := range given {
		it := byPlace[[2]uint64{given[i].Its.Connection, given[i].Its.Place}]
		if it == nil {
			l.t.Fatalf("a transaction was offered that wasn't committed: %+v", given[i].Its)
		}
		names[it.tag] = fmt.Sprint(given[i].Session, ".", given[i].Number)
	}
	for i := range given {
		l.addUnseen(byPlace[[2]uint64{given[i].Its.Connection, given[i].Its.Place}], &given[i])
	}
	reads, writes, mismatches := 0, 0, 0
	for i := range given {
		it := byPlace[[2]uint64{given[i].Its.Connection, given[i].Its.Place}]
		got, wrote := l.got(&given[i])
		want, folds := l.want(it, names)
		reads, writes = reads+len(got), writes+len(wrote)
		for one := range folds {
			switch {
			case want[one] && !got[one]:
				delete(want, one)
			case want[one]:
				l.exact++
			}
		}
		if l.leaves { // then it has to be counted
			for one := range want {
				if !got[one] {
					l.left++
					delete(want, one)
				}
			}
		}
		if text := difference(got, want); text != "" {
			mismatches++
			l.t.Errorf("%s (%s): %s\n%s", names[it.tag], it.tag, text, l.story(it, text, names))
		}
		for at := range it.wrote {
			if !wrote[at] && at.table != "whole" {
				l.t.Errorf("%s (%s): its write of %v isn't offered", names[it.tag], it.tag, at)
			}
		}
		if mismatches > 10 {
			l.t.FailNow()
		}
	}
	if l.left > l.counted {
		l.t.Errorf("%d reads were left out, and %d are counted", l.left, l.counted)
	}
	l.t.Logf("compared %d transactions, %d reads, %d writes; of the table that is emptied %d reads were as wanted", len(given),
		reads, writes, l.exact)
}

// addUnseen adds the versions that nobody can see: rows that a transaction made and deleted again. Such a row didn't
// exist before.
func (l *lockstepper) addUnseen(it *done, given *join.Description) {
	_, wrote := l.got(given)
	it.given = wrote
	for at := range wrote {
		if at.table == "whole" && it.empties && !it.upserts[at] {
			l.t.Errorf("%s: its write of %v was offered, and it only ran a TRUNCATE", it.tag, at)
		}
		if it.wrote[at] {
			continue
		}
		its := l.history[at]
		i := len(its)
		for i > 0 && its[i-1].commit > it.commit {
			i--
		}
		if i > 0 && !its[i-1].deleted || i == 0 && l.first[at] {
			l.t.Errorf("%s: its write of %v was offered, and nothing of it is to be seen", it.tag, at)
		}
		l.history[at] = append(its[:i:i], append([]step{{it.commit, it.tag, true}}, its[i:]...)...)
		it.wrote[at] = true
	}
}

// emptied says that the transaction wrote the row only by a TRUNCATE, which counts as somebody else's.
func (l *lockstepper) emptied(at cell, it *done) bool {
	return at.table == "whole" && it.empties && !(it.upserts[at] && it.given[at])
}

// got is what was offered; reads have the form "table key from name".
func (l *lockstepper) got(it *join.Description) (map[string]bool, map[cell]bool) {
	rows := map[uint64]cell{}
	for _, row := range it.Rows {
		rows[row.Key] = cell{strings.TrimPrefix(row.Table, "public."), row.Row}
	}
	reads, writes := map[string]bool{}, map[cell]bool{}
	for _, one := range it.Reads {
		from := "init"
		if !one.Initial {
			from = fmt.Sprint(one.Session, ".", one.Number)
		}
		reads[fmt.Sprint(rows[one.Key], " from ", from)] = true
	}
	for _, key := range it.Writes {
		writes[rows[key]] = true
	}
	return reads, writes
}

// want is what has to be offered, according to the rows' tags and the order of the commits. Of the table that TRUNCATE
// empties more is folded: what was committed shortly before, since its definition has been written. Which writes these are
// depends on when the server was asked, so there the writes that were offered count; each read has to name the last of
// them at or before its version. A read may also be left out, if its reader had begun before, and of a row that wasn't
// there only the next one may be known; folds has those.
func (l *lockstepper) want(it *done, names map[string]string) (want, folds map[string]bool) {
	want, folds = map[string]bool{}, map[string]bool{}
	add := func(at cell, upTo int, is bool) { // the row's last offered version among the first upTo ones
		from := "init"
		for _, v := range l.history[at][l.began(at, upTo):upTo] {
			by := l.owned[v.tag]
			if name, offered := names[v.tag]; offered && !(v.deleted && l.emptied(at, by)) && (at.table != "whole" || by.given[at]) {
				from = name
			}
		}
		one := fmt.Sprint(at, " from ", from)
		want[one] = true
		if at.table == "whole" && is {
			folds[one] = true
		}
	}
	for at, tags := range it.reads {
		for tag := range tags {
			for i := len(l.history[at]); i >= 0 && tag != it.tag; i-- {
				if i == 0 || l.history[at][i-1].tag == tag && !l.history[at][i-1].deleted {
					add(at, i, true)
					break
				}
			}
		}
	}
	for at := range it.wrote {
		for i, v := range l.history[at] {
			if v.tag != it.tag || v.deleted && l.emptied(at, it) || at.table == "whole" && !it.given[at] {
				continue
			}
			if l.began(at, i+1) == i {
				want[fmt.Sprint(at, " from init")] = true
			} else {
				add(at, i, false)
			}
		}
	}
	for at, shows := range it.absent {
		upTo := 0
		for upTo < len(l.history[at]) && l.history[at][upTo].commit <= shows {
			upTo++
		}
		isThere := upTo == 0 && l.first[at] || upTo > 0 && !l.history[at][upTo-1].deleted
		ownTruncate := at.table == "whole" && it.empties
		if it.level != record.ReadCommitted && !it.wrote[at] && !isThere && !ownTruncate { // else it is left out
			add(at, upTo, true)
			next := fmt.Sprint(at, " from init") // of the row that comes next
			if want[next] = true; at.table == "whole" {
				folds[next] = true
			}
		}
	}
	return want, folds
}

// began returns where the row began that had the key last among the first upTo versions: its first version's place. What
// is inserted after a deletion is another row.
func (l *lockstepper) began(at cell, upTo int) int {
	for i := upTo - 1; i > 0; i-- {
		by := l.owned[l.history[at][i].tag]
		again := at.table == "whole" && by.empties && by.upserts[at] && !by.kept[at] && !l.history[at][i].deleted
		if l.history[at][i-1].deleted || again {
			return i
		}
	}
	return 0
}

// story lists the versions of the rows in a difference.
func (l *lockstepper) story(it *done, text string, names map[string]string) string {
	var to strings.Builder
	fmt.Fprintf(&to, "commit %d, number %d, snapshot %s, absent %v\n", it.commit, it.number, it.snapshot, it.absent)
	for at, versions := range l.history {
		if !strings.Contains(text, fmt.Sprint(at, " from")) {
			continue
		}
		for _, v := range versions {
			by := l.owned[v.tag]
			fmt.Fprintf(&to, "%v: commit %d by %s, number %d, deleted %v, ran a TRUNCATE %v\n", at, v.commit, names[v.tag], by.number,
				v.deleted, by.empties)
		}
	}
	return to.String()
}

func difference(got, want map[string]bool) string {
	var its []string
	for one := range got {
		if !want[one] {
			its = append(its, "offered, and not owed: "+one)
		}
	}
	for one := range want {
		if !got[one] {
			its = append(its, "owed, and not offered: "+one)
		}
	}
	sort.Strings(its)
	return strings.Join(its, "; ")
}
