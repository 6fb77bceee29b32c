package audit

import (
	"context"
	"errors"
	"strings"
	"testing"
	"time"

	"zanteyard/keys"
	"zanteyard/record"
	"zanteyard/slot"
)

const unidentified = `CREATE TABLE t (id int PRIMARY KEY); CREATE TABLE none (id int);
	CREATE TABLE "odd.na""me" (id int); CREATE TABLE nothing (id int PRIMARY KEY, v int); ALTER TABLE nothing REPLICA IDENTITY NOTHING;
	CREATE TABLE deferred (id int PRIMARY KEY DEFERRABLE, v int);
	CREATE MATERIALIZED VIEW seen AS SELECT * FROM none; CREATE UNIQUE INDEX ON seen (id)`

// changes are of all these tables but the odd one.
var changes = []string{"INSERT INTO none VALUES (1), (2)", "UPDATE none SET id = id + 1", "DELETE FROM none WHERE id = 2",
	"INSERT INTO nothing VALUES (1, 0)", "UPDATE nothing SET v = 1", "DELETE FROM nothing", "INSERT INTO deferred VALUES (1, 0)",
	"UPDATE deferred SET v = 1", "DELETE FROM deferred", "REFRESH MATERIALIZED VIEW CONCURRENTLY seen", "DELETE FROM none",
	"REFRESH MATERIALIZED VIEW CONCURRENTLY seen"}

// hear reads a slot.
func hear(t *testing.T, options slot.Options) (heard, *slot.Tables, *slot.Control, <-chan error) {
	t.Helper()
	ctx, cancel := context.WithCancel(context.Background())
	t.Cleanup(cancel)
	options.Settings, options.Canonical = keys.SlotSettings(), canonical
	control, tables, err := slot.NewControl(ctx, options)
	if err != nil {
		t.Fatal(err)
	}
	t.Cleanup(func() { control.Close(context.Background()) })
	reader, err := slot.Open(ctx, options, tables)
	if err != nil {
		t.Fatal(err)
	}
	if reader.Plugin() != slot.Wal2json {
		t.Skip("wal2json isn't installed")
	}
	h, ended := heard{make(chan record.Commit, 100)}, make(chan error, 1)
	go func() { ended <- reader.Read(ctx, h) }()
	return h, tables, control, ended
}

// TestQuietLog: wal2json's warnings for rows without an identity aren't written to the server's log. The rows are
// counted, if the audit's role may keep the warnings out of the log; otherwise the slot leaves the tables out.
func TestQuietLog(t *testing.T) {
	s := startServer(t)
	conn := s.connect(t)
	must(t, conn, unidentified)
	must(t, conn, "CREATE ROLE audit LOGIN REPLICATION")
	for _, x := range []struct {
		name, role string
		counts     bool
	}{
		{"the setting", "ALTER ROLE audit SET log_min_messages = error", true},
		{"the privilege", "ALTER ROLE audit RESET log_min_messages; GRANT SET ON PARAMETER log_min_messages TO audit", true},
		{"neither", "ALTER ROLE audit RESET log_min_messages; REVOKE ALL ON PARAMETER log_min_messages FROM audit", false},
		{"a superuser", "ALTER ROLE audit SUPERUSER", true},
	} {
		t.Run(x.name, func(t *testing.T) {
			if _, err := rowsOf(conn, x.role); err != nil {
				t.Skip(err) // the privilege is PostgreSQL 15's
			}
			must(t, conn, "ALTER TABLE none DROP CONSTRAINT IF EXISTS none_pkey; ALTER TABLE none ALTER id DROP NOT NULL; "+
				`DELETE FROM none; DELETE FROM t; DELETE FROM "odd.na""me"; REFRESH MATERIALIZED VIEW seen`)
			h, tables, control, ended := hear(t, slot.Options{Source: s.DSN("audit", "postgres"), Name: "quiet"})
			for _, text := range changes {
				must(t, conn, text)
			}
			if x.counts { // the slot's option can't be given every name
				must(t, conn, `INSERT INTO "odd.na""me" VALUES (1)`)
				must(t, conn, `UPDATE "odd.na""me" SET id = 2`)
			}
			must(t, conn, "INSERT INTO t VALUES (77)")
			for it := h.next(t); it.Writes[0].Key != "77"; it = h.next(t) {
			}
			if log := s.Log(); strings.Contains(log, "no tuple identifier") || strings.Contains(log, "permission denied") {
				t.Errorf("the server's log: %s", log)
			}
			left := leftOut(tables)
			for name, n := range map[string]uint64{
				"public.none: the table has no primary key":                       6,
				"public.deferred: its primary key is deferrable":                  3,
				"public.seen: the table has no primary key":                       2,
				`public.odd.na"me: the table has no primary key`:                  2,
				"public.nothing: its replica identity leaves out the primary key": 3,
			} {
				if !x.counts {
					n = 0
				}
				if left[name] != n {
					t.Errorf("%s: counted %d times in place of %d (%v)", name, left[name], n, left)
				}
			}
			if x.counts {
				return
			}
			must(t, conn, "DELETE FROM none; ALTER TABLE none ADD PRIMARY KEY (id)")
			if _, err := control.Place(context.Background()); !errors.Is(err, slot.ErrHidden) {
				t.Errorf("a table that the slot leaves out has a key now, and the audit goes on (%v)", err)
			}
			select {
			case err := <-ended:
				if !errors.Is(err, slot.ErrHidden) {
					t.Error(err)
				}
			case <-time.After(5 * time.Minute):
				t.Error("the slot is read on")
			}
		})
	}
}
