package main

import (
	"context"
	"testing"

	"github.com/jackc/pgconn"
)

// TestNamesBetweenLooks: what a name refers to changes, or an operator means something else, without a change of the table that
// is asked for, and the sessions hear of it at the next look at the catalog. A transaction that begins before that, when the audit
// knows of the change, asks another table by that name, and reads what somebody wrote together with the first one. To take it
// at its words would be to say that it has seen one half of that.
func TestNamesBetweenLooks(t *testing.T) {
	c := start(t)
	direct, err := pgconn.Connect(context.Background(), sourceOf(c, "postgres"))
	if err != nil {
		t.Fatal(err)
	}
	defer direct.Close(context.Background())
	sql(t, direct, `CREATE TABLE item (id int PRIMARY KEY, status varchar NOT NULL); CREATE TABLE x (id int PRIMARY KEY, v int);
		CREATE TABLE parent (id int PRIMARY KEY); INSERT INTO parent VALUES (1), (2);
		CREATE TABLE child (id int PRIMARY KEY, parent int REFERENCES parent); INSERT INTO x VALUES (1, 0); INSERT INTO child VALUES (1, 1);
		CREATE FUNCTION switches() RETURNS regclass LANGUAGE plpgsql SECURITY DEFINER AS 'BEGIN RETURN pg_catalog.to_regclass(''x''); END';
		CREATE FUNCTION never(varchar, varchar) RETURNS bool LANGUAGE sql IMMUTABLE AS 'SELECT false';
		CREATE ROLE app LOGIN; GRANT ALL ON ALL TABLES IN SCHEMA public TO app`)
	const (
		ask    = "UPDATE item SET status = 'free' WHERE status = 'free'"
		gets   = "SELECT id FROM item WHERE status = 'free'"
		makes  = "CREATE SCHEMA app; CREATE TABLE app.item (id int PRIMARY KEY, status varchar NOT NULL); GRANT USAGE ON SCHEMA app TO app; GRANT ALL ON app.item TO app"
		other  = "CREATE SCHEMA other; CREATE TABLE other.item (id int PRIMARY KEY, status varchar NOT NULL); GRANT USAGE ON SCHEMA other TO app; GRANT ALL ON other.item TO app"
		rename = "ALTER ROLE app RENAME TO other"
	)
	for _, x := range []struct {
		name, before, change, then, ask, table string
		operator                               bool // the name stays, but the operator's meaning doesn't
	}{
		{name: "nothing happens", change: "SELECT 1"},
		{name: "a schema is made", change: makes},
		{name: "a schema is renamed", before: other, change: "ALTER SCHEMA other RENAME TO app"},
		{name: "a right is revoked", before: makes + "; INSERT INTO app.item VALUES (1, 'taken')", change: "REVOKE USAGE ON SCHEMA app FROM app", table: "app.item"},
		{name: "a role is renamed, and settings are reset", before: other, change: rename, then: "RESET ALL"},
		{name: "a role is renamed, and a function runs as somebody else", before: other, change: rename, then: "SELECT switches()"},
		{name: "a role is renamed, and a foreign key is checked", before: other, change: rename, then: "UPDATE public.child SET parent = 3 - parent WHERE id = 1"},
		{name: "a role is renamed, and a schema is made", before: other, change: rename + "; CREATE SCHEMA another"},
		{name: "an operator is made", change: "CREATE OPERATOR public.= (LEFTARG = varchar, RIGHTARG = varchar, FUNCTION = never)", ask: gets, operator: true},
	} {
		t.Run(x.name, func(t *testing.T) {
			if x.then == "" {
				x.then = "SELECT 1"
			}
			if x.ask == "" {
				x.ask = ask
			}
			if x.table == "" {
				x.table = "public.item"
			}
			sql(t, direct, "DELETE FROM item; INSERT INTO item VALUES (1, 'taken')")
			if x.before != "" {
				sql(t, direct, x.before)
			}
			p := begin(t, c, "--between", "10h", "--look", "10h")
			p.until(`["open"`)
			h := &hearing{p: p, g: newGraph()}
			reader, writer := p.connect("user=app"), p.connect()
			was := sql(t, reader, "SELECT 'item'::regclass::oid")
			sql(t, reader, "SELECT v FROM x WHERE id = 1")
			sql(t, reader, x.then)
			sql(t, writer, "UPDATE x SET v = 1 WHERE id = 1")
			sql(t, writer, "UPDATE "+x.table+" SET status = 'taken' WHERE id = 1")
			h.warm(reader, x.ask)
			sql(t, writer, "UPDATE "+x.table+" SET status = 'taken' WHERE id = 1") // the values are known from then on
			h.settle()
			before := h.said.Conditions.Followed
			sql(t, direct, x.change)
			sql(t, writer, "UPDATE x SET v = 1 WHERE id = 1")
			h.settle() // the audit has asked the server since
			sql(t, reader, x.then)
			sql(t, reader, "BEGIN")
			sql(t, reader, x.ask)
			sql(t, writer, "BEGIN")
			sql(t, writer, "UPDATE x SET v = 2 WHERE id = 1")
			sql(t, writer, "UPDATE "+x.table+" SET status = 'free' WHERE id = 1")
			sql(t, writer, "COMMIT")
			if got := sql(t, reader, "SELECT v FROM x WHERE id = 1"); got != "2" {
				t.Errorf("it read %s", got)
			}
			is := sql(t, reader, "SELECT 'item'::regclass::oid")
			sql(t, reader, "COMMIT")
			h.stop()
			same := x.change == "SELECT 1"
			if (is == was) != (same || x.operator) {
				t.Errorf("the name stood for %s, and stands for %s", was, is)
			}
			cycle, wrong := h.g.violation(false)
			if same != (cycle != "") || len(wrong) > 0 {
				t.Errorf("violated: %v %q\n%s", wrong, cycle, h.line)
			}
			if same && h.said.Conditions.Followed == before {
				t.Errorf("it isn't followed: %s", h.line)
			}
			sql(t, direct, "DROP SCHEMA IF EXISTS app CASCADE; DROP SCHEMA IF EXISTS other CASCADE; DROP SCHEMA IF EXISTS another; "+
				"DROP OPERATOR IF EXISTS public.= (varchar, varchar); "+
				"DO $$ BEGIN IF EXISTS (SELECT FROM pg_roles WHERE rolname = 'other') THEN ALTER ROLE other RENAME TO app; END IF; END $$")
		})
	}
}
