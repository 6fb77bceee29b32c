package audit

import (
	"context"
	"errors"
	"fmt"
	"sort"
	"strings"
	"testing"
	"time"

	"github.com/jackc/pgconn"

	"zanteyard/catalog"
	"zanteyard/record"
	"zanteyard/slot"
)

// heard takes what a slot reports, for one goroutine to read.
type heard struct{ commits chan record.Commit }

func (h heard) Commit(it record.Commit) error {
	h.commits <- it
	return nil
}

func (h heard) Advance(uint64) error { return nil }

// next is the next commit that wrote something.
func (h heard) next(t *testing.T) record.Commit {
	t.Helper()
	for {
		select {
		case it := <-h.commits:
			if len(it.Writes)+len(it.Emptied) > 0 {
				return it
			}
		case <-time.After(5 * time.Minute):
			t.Fatal("the slot doesn't tell of a commit")
		}
	}
}

func TestSlot(t *testing.T) {
	for _, plugin := range []slot.Plugin{slot.Wal2json, slot.TestDecoding} {
		t.Run(string(plugin), func(t *testing.T) { hearSlot(t, plugin) })
	}
}

// describeOpen checks that a prepared transaction is described by its number, and by its name only if constants may be
// shown.
func describeOpen(t *testing.T, options slot.Options, number string) {
	ctx := context.Background()
	for _, redacts := range []bool{false, true} {
		options.Redacts = redacts
		control, _, err := slot.NewControl(ctx, options)
		if err != nil {
			t.Fatal(err)
		}
		said := control.Open(ctx)
		control.Close(ctx)
		if !strings.Contains(said, "the prepared transaction "+number+", ") || strings.Contains(said, "'p'") == redacts {
			t.Errorf("with Redacts %v, an open transaction is described as %q", redacts, said)
		}
	}
}

func hearSlot(t *testing.T, plugin slot.Plugin) {
	s := startServer(t, "max_prepared_transactions=10")
	conn := s.connect(t)
	must(t, conn, "CREATE TABLE a (id int PRIMARY KEY, v text); CREATE TABLE b (id int PRIMARY KEY, v text);"+
		"CREATE TABLE none (id int); CREATE SCHEMA aside; CREATE TABLE aside.log (id int PRIMARY KEY);"+
		"CREATE TABLE parts (id int PRIMARY KEY) PARTITION BY RANGE (id); CREATE TABLE aside.part PARTITION OF parts DEFAULT; CREATE EXTENSION pg_walinspect; CREATE TABLE full_row (id int PRIMARY KEY, v text);"+
		"ALTER TABLE full_row REPLICA IDENTITY FULL")
	ctx, cancel := context.WithCancel(context.Background())
	defer cancel()
	asked, err := catalog.ParseFilter("public.*")
	if err != nil {
		t.Fatal(err)
	}
	options := slot.Options{Source: s.source(), Name: "names", Plugin: plugin,
		Asked: asked, Canonical: canonical}
	control, tables, err := slot.NewControl(ctx, options)
	if err != nil {
		t.Fatal(err)
	}
	defer control.Close(ctx)
	reader, err := slot.Open(ctx, options, tables)
	if errors.Is(err, slot.ErrNoPlugin) {
		t.Skip("the plugin isn't installed")
	}
	if err != nil {
		t.Fatal(err)
	}
	h := heard{make(chan record.Commit, 100)}
	go reader.Read(ctx, h)
	oid := func(table string) record.Relation {
		var n uint32
		fmt.Sscan(must(t, conn, "SELECT '"+table+"'::regclass::oid")[0][0], &n)
		return record.Relation(n)
	}
	a, b := oid("a"), oid("b")
	expect := func(sql string, want ...record.Write) record.Commit {
		t.Helper()
		must(t, conn, sql)
		it := h.next(t)
		if fmt.Sprint(it.Writes) != fmt.Sprint(want) {
			t.Errorf("%s: %v, wanted %v", sql, it.Writes, want)
		}
		return it
	}
	expect("INSERT INTO a VALUES (1, 'x')", record.Write{Relation: a, Key: "1", Inserted: true})
	expect("UPDATE a SET id = 2; ", record.Write{Relation: a, Key: "1", Deleted: true},
		record.Write{Relation: a, Key: "2", Inserted: true, Moved: true})
	expect("INSERT INTO full_row VALUES (1, 'x')", record.Write{Relation: oid("full_row"), Key: "1", Inserted: true})
	expect("UPDATE full_row SET id = 3", record.Write{Relation: oid("full_row"), Key: "1", Deleted: true},
		record.Write{Relation: oid("full_row"), Key: "3", Inserted: true, Moved: true})

	it := expect("BEGIN; SAVEPOINT x; UPDATE a SET v = 'y'; RELEASE x; SAVEPOINT y; INSERT INTO b VALUES (7); COMMIT",
		record.Write{Relation: a, Key: "2"}, record.Write{Relation: b, Key: "7", Inserted: true})
	if plugin == slot.Wal2json {
		hearSubtransactions(t, control, it)
	}

	must(t, conn, "BEGIN; UPDATE a SET v = 'prepared'; PREPARE TRANSACTION 'p'; INSERT INTO none VALUES (1)")
	number := must(t, conn, "SELECT transaction FROM pg_prepared_xacts")[0][0]
	describeOpen(t, options, number)
	if it := expect("COMMIT PREPARED 'p'", record.Write{Relation: a, Key: "2"}); fmt.Sprint(it.Number) != number {
		t.Errorf("a prepared transaction is told with the number %d, and not %s", it.Number, number)
	}
	must(t, conn, "INSERT INTO aside.log VALUES (1), (2)")
	expect("INSERT INTO parts VALUES (4); TRUNCATE aside.log", record.Write{Relation: oid("parts"), Key: "4", Inserted: true})
	must(t, conn, "TRUNCATE a")
	if it := h.next(t); len(it.Emptied) != 1 || it.Emptied[0] != a {
		t.Errorf("a TRUNCATE is told as %+v", it)
	}
	if left := leftOut(tables); left["public.none: the table has no primary key"] != 1 {
		t.Errorf("of tables without a key it was told %v", left)
	} else if left["aside.log: a table excluded by --tables"] < 2 || left["aside.part: a table excluded by --tables"] != 0 {
		t.Errorf("of tables that weren't asked for it was told %v", left)
	}

	before, err := control.Place(ctx)
	if err != nil || len(before.Changed) != 0 {
		t.Errorf("nothing has changed, and the place is %+v (%v)", before, err)
	}
	must(t, conn, "BEGIN; ALTER TABLE a RENAME TO c; ALTER TABLE b RENAME TO a; ALTER TABLE c RENAME TO b; COMMIT")
	after, err := control.Place(ctx)
	sort.Slice(after.Changed, func(i, j int) bool { return after.Changed[i] < after.Changed[j] })
	if err != nil || after.Names <= before.Names || len(after.Changed) != 4 || after.Changed[0] != a || after.Changed[3] != b {
		t.Errorf("two tables' names have changed, and the place is %+v (%v)", after, err)
	}
	if it := expect("INSERT INTO a VALUES (9)", record.Write{Relation: b, Key: "9", Inserted: true}); it.Names != after.Names || it.LSN <= after.At {
		t.Errorf("what was written behind the change is told as %+v", it)
	}
	must(t, conn, "BEGIN; ALTER TABLE a RENAME TO c; ALTER TABLE b RENAME TO a; INSERT INTO a VALUES (77); "+
		"ALTER TABLE a RENAME TO b; ALTER TABLE c RENAME TO a; COMMIT")
	swapped := h.next(t) // by the wrong name
	place, err := control.Place(ctx)
	by := map[record.Relation]string{}
	for _, one := range place.Rewritten {
		by[one.Relation] = fmt.Sprint(one.By)
	}
	one := fmt.Sprint([]uint32{swapped.Number})
	if err != nil || len(place.Changed) != 0 || len(by) != 2 || by[a] != one || by[b] != one || place.Names != after.Names {
		t.Errorf("two tables' names were changed and changed back by %d, and the place is %+v (%v)", swapped.Number, place, err)
	}
	must(t, conn, "ALTER TABLE full_row REPLICA IDENTITY NOTHING; ALTER TABLE full_row REPLICA IDENTITY FULL")
	if place, err := control.Place(ctx); err != nil || len(place.Changed) != 0 || len(place.Rewritten) != 1 || place.Rewritten[0].Relation != oid("full_row") {
		t.Errorf("a replica identity was changed and changed back, and the place is %+v (%v)", place, err)
	}
	must(t, conn, "ALTER TABLE full_row SET (fillfactor = 90)")
	must(t, conn, "BEGIN; ALTER SCHEMA public RENAME TO x; ALTER SCHEMA x RENAME TO public; COMMIT")
	place, err = control.Place(ctx)
	for _, its := range place.Rewritten {
		if n := len(its.By); n != 1 && (n != 2 || its.Relation != oid("full_row") || its.By[1] <= its.By[0]) {
			t.Errorf("a table's row was written, and later its schema's, by %v", its)
		}
	}
	if err != nil || len(place.Changed) != 0 || len(place.Rewritten) < 3 {
		t.Errorf("a schema was renamed and renamed back, and the place is %+v (%v)", place, err)
	}
	if place, err := control.Place(ctx); err != nil || len(place.Changed)+len(place.Rewritten) != 0 {
		t.Errorf("nothing has changed, and the place is %+v (%v)", place, err)
	}
	mayMean(t, conn, control)
	if kept, err := control.Health(ctx, "names"); err != nil || kept.Lost || kept.Kept > 1<<30 {
		t.Errorf("the slot is %+v (%v)", kept, err)
	}
	if gone, err := control.Health(ctx, "another"); err != nil || !gone.Lost {
		t.Errorf("a slot that isn't there is %+v (%v)", gone, err)
	}
}

// mayMean: that an operator or a schema was made is noticed, also if it was dropped again by then, or undone; and that a role
// was renamed.
func mayMean(t *testing.T, conn *pgconn.PgConn, control *slot.Control) {
	t.Helper()
	const makes, drops = "CREATE OPERATOR public.@@@@ (LEFTARG = int, RIGHTARG = int, FUNCTION = int4eq)", "DROP OPERATOR public.@@@@ (int, int)"
	for _, one := range []struct {
		text string
		want bool
	}{
		{"SELECT 1", false}, {makes + "; COMMIT; " + drops, true}, {"SELECT 1", false}, {"BEGIN; " + makes + "; " + drops + "; COMMIT", true},
		{"BEGIN; " + makes + "; ROLLBACK", false}, {"BEGIN; " + makes + "; PREPARE TRANSACTION 'made'", false},
		{"COMMIT PREPARED 'made'", true}, {drops, true}, {"CREATE SCHEMA made; COMMIT; DROP SCHEMA made", true},
		{"CREATE TABLE made (id int); COMMIT; DROP TABLE made", false}, {"VACUUM ANALYZE", false},
		{"CREATE ROLE made", true}, {"ALTER ROLE made RENAME TO other", true}, {"ALTER ROLE other CONNECTION LIMIT 5", false},
		{"CREATE ROLE more", true}, {"BEGIN; ALTER ROLE other RENAME TO made; ALTER ROLE more RENAME TO other; COMMIT", true},
	} {
		must(t, conn, one.text)
		if place, err := control.Place(context.Background()); err != nil || place.MayMean != one.want {
			t.Errorf("after %s: %v, wanted %v (%v)", one.text, place.MayMean, one.want, err)
		}
	}
}

func leftOut(tables *slot.Tables) map[string]uint64 {
	its := map[string]uint64{}
	tables.LeftOut(func(table, reason string, n uint64) { its[table+": "+reason] = n })
	return its
}

func hearSubtransactions(t *testing.T, control *slot.Control, it record.Commit) {
	ctx := context.Background()
	subs, err := control.Subtransactions(ctx, []uint64{it.Start})
	if err != nil || len(subs) != 1 || len(subs[0]) != 2 || subs[0][0] != it.Number+1 {
		t.Errorf("the subtransactions of %d are %v (%v)", it.Number, subs, err)
	}
	if subs, err := control.Subtransactions(ctx, []uint64{it.Start, 7, it.Start}); err != nil || len(subs[0]) != 2 || subs[1] != nil || len(subs[2]) != 2 {
		t.Errorf("with a place that holds no record they are %v (%v)", subs, err)
	}
}
