package session

import (
	"context"
	"strings"
	"sync/atomic"
	"testing"
	"time"

	"zanteyard/catalog"
	"zanteyard/definitions"
)

// TestNamesByMembership: the server looks at a membership only when some schema changes, so a name that is found in a schema by
// way of one may mean another table later, without a change of anything that is looked at. Names that no result shows aren't
// certain then.
func TestNamesByMembership(t *testing.T) {
	needServer(t)
	alone(t)
	undo := func() {
		sql(t, "GRANT SELECT ON pg_catalog.pg_roles TO PUBLIC")
		sql(t, `DROP SCHEMA IF EXISTS lent CASCADE; DROP SCHEMA IF EXISTS hidden CASCADE; DROP SCHEMA IF EXISTS "Of Mine" CASCADE`)
		for _, role := range []string{"borrower", "lenders"} {
			sql(t, "DO $$ BEGIN IF EXISTS (SELECT FROM pg_roles WHERE rolname = '"+role+"') THEN DROP OWNED BY "+role+"; DROP ROLE "+role+"; END IF; END $$")
		}
	}
	undo()
	defer undo()
	sql(t, "CREATE ROLE borrower LOGIN; CREATE ROLE lenders; GRANT lenders TO borrower; CREATE SCHEMA lent; CREATE SCHEMA hidden")
	sql(t, "CREATE TABLE lent.w (id int PRIMARY KEY, v int); CREATE TABLE lent.x (id int PRIMARY KEY, v int); INSERT INTO lent.x VALUES (1, 1)")
	sql(t, "GRANT ALL ON ALL TABLES IN SCHEMA lent TO borrower")
	const within, update = "SELECT v FROM lent.x WHERE id < 5 AND NOT EXISTS (SELECT FROM w WHERE w.v = 5)", "UPDATE w SET v = 6 WHERE v = 77"
	for _, one := range []struct {
		what, does, path string
		certain          bool
	}{
		{"by a membership", "GRANT USAGE ON SCHEMA lent TO lenders", "lent, public", false},
		{"and by a right of its own", "GRANT USAGE ON SCHEMA lent TO borrower", "lent, public", true},
		{"behind one that can't be used", "SELECT", "hidden, lent, public", false},
		{"behind one that a group may use", "GRANT USAGE ON SCHEMA hidden TO lenders", `"hidden",lent`, false},
		{"behind one that isn't there", "SELECT", `nowhere, "$user", lent`, true},
		{"behind another one that isn't there", "SELECT", `"No where", lent`, true},
		{"of a path that isn't read", "SELECT", `"a""b", lent`, false},
		{"behind one with a name of its own kind", `CREATE SCHEMA "Of Mine"; GRANT USAGE ON SCHEMA "Of Mine" TO lenders`, `"Of Mine", lent`, false},
		{"by everybody's right", "REVOKE USAGE ON SCHEMA lent FROM borrower; GRANT USAGE ON SCHEMA lent TO PUBLIC", "lent", true},
		{"by a membership of its owner", "REVOKE USAGE ON SCHEMA lent FROM PUBLIC; ALTER SCHEMA lent OWNER TO borrower; " +
			"REVOKE ALL ON SCHEMA lent FROM borrower; GRANT USAGE ON SCHEMA lent TO lenders", "lent, public", false},
		{"by its owner's right", "GRANT USAGE ON SCHEMA lent TO borrower", "lent, public", true},
		{"where nobody may read who there is", "REVOKE SELECT ON pg_catalog.pg_roles FROM PUBLIC", "lent", true},
	} {
		sql(t, one.does)
		sql(t, "ALTER ROLE borrower SET search_path = "+one.path)
		its, err := definitions.Open(context.Background(), config(), time.Hour, func(string) {}, catalog.WithColumns, catalog.OnlyCertainLists)
		if err != nil {
			t.Fatal(err)
		}
		p := through(t, "borrower", func(o *Options) { o.Plans, o.Generation, o.Shared = its, its.Generation, NewShared() })
		p.warm(within, update)
		for i := 0; i < 3; i++ {
			p.settle()
			p.sink.take()
			p.query(within)
			p.query(update)
		}
		var got []string
		for _, told := range p.sink.take() {
			for _, ask := range told.Asks {
				got = append(got, shownAsk(ask))
			}
		}
		text := strings.Join(got, "; ")
		if is := !strings.Contains(text, "not: "); is != one.certain || len(got) == 0 {
			t.Errorf("%s, %s: certain %v: %s", one.what, one.path, is, text)
		}
		p.conn.Close()
	}
	// A superuser may cease to be one.
	c := direct(t, "postgres")
	c.query("SET search_path = lent, pg_catalog")
	if path := show(c.query(catalog.PathSQL)); !strings.Contains(path, `[\"\",\"lent\"`) {
		t.Errorf("a superuser's path is certain: %s", path)
	}
}

// TestNamesJustChanged: what names mean has changed, as the audit has seen. What is asked doesn't count before the catalog shows
// that, and the connection was asked once more what its names refer to.
func TestNamesJustChanged(t *testing.T) {
	needServer(t)
	alone(t)
	sql(t, fill)
	its, err := definitions.Open(context.Background(), config(), time.Hour, func(string) {}, catalog.WithColumns)
	if err != nil {
		t.Fatal(err)
	}
	var made, seen atomic.Uint64
	p := through(t, "postgres", func(o *Options) {
		o.Plans, o.Generation, o.Shared = its, its.Generation, NewShared()
		o.Made = func() (uint64, uint64) { return made.Load(), seen.Load() }
	})
	texts := []string{"SELECT v FROM t WHERE v < 20", "UPDATE t SET w = 'z' WHERE v = -7", "SELECT v FROM t WHERE id = -5"}
	p.warm(texts...)
	ask := func() (followed, absent, left int) {
		p.settle()
		p.sink.take()
		p.query("BEGIN ISOLATION LEVEL REPEATABLE READ")
		for _, text := range texts {
			p.query(text)
		}
		p.query("COMMIT")
		for _, told := range p.sink.take() {
			absent += len(told.Absent)
			for _, one := range told.Asks {
				if one.Why == "" {
					followed++
				} else if one.Why == justChanged {
					left++
				}
			}
		}
		return followed, absent, left
	}
	for _, x := range []struct {
		made, seen uint64
		follows    bool
	}{{0, 0, true}, {1, 0, false}, {1, 1, true}, {3, 2, false}, {4, 2, false}, {4, 4, true}} {
		made.Store(x.made)
		seen.Store(x.seen)
		followed, absent, left := ask()
		if x.follows { // once the connection was asked
			for end := time.Now().Add(time.Minute); followed < 2 && time.Now().Before(end); {
				followed, absent, left = ask()
			}
		}
		for i := 0; i < 2; i++ {
			if x.follows != (followed == 2 && absent == 1) || !x.follows && (followed+absent > 0 || left != 2) {
				t.Errorf("of %d changes %d are in the catalog: followed %d, absent %d, left out %d", x.made, x.seen, followed, absent, left)
			}
			time.Sleep(resettlePause) // it is asked again meanwhile
			followed, absent, left = ask()
		}
	}
}
