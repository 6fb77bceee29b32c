package main

import (
	"strings"
	"testing"
	"time"

	"github.com/jackc/pgconn"
)

// TestWhatCantBeHidden: what a trigger stores of current_query(), pg_cursors, and a function that fetches from a client's cursor
// show the hidden columns of a statement.
// With --tables, statements of other tables are passed on as they are.
func TestWhatCantBeHidden(t *testing.T) {
	c := start(t)
	beside := directly(t, c)
	sql(t, beside, `CREATE TABLE noted (id int PRIMARY KEY, v int); INSERT INTO noted VALUES (1, 0); CREATE TABLE notes (said text);
		CREATE FUNCTION note() RETURNS trigger LANGUAGE plpgsql AS $$BEGIN INSERT INTO notes VALUES (current_query()); RETURN NEW; END$$;
		CREATE FUNCTION fetches(c refcursor) RETURNS text LANGUAGE plpgsql AS $$DECLARE r record; BEGIN FETCH c INTO r; RETURN to_json(r); END$$;
		CREATE TRIGGER note AFTER UPDATE ON noted FOR EACH ROW EXECUTE FUNCTION note()`)
	const update, declare = "UPDATE noted SET v = 1 WHERE id = 1", "DECLARE c CURSOR FOR SELECT v FROM noted"
	shown := func(conn *pgconn.PgConn) string {
		sql(t, conn, update)
		sql(t, conn, "BEGIN")
		sql(t, conn, declare)
		cursor := sql(t, conn, "SELECT fetches('c')") + "\n" + sql(t, conn, "SELECT statement FROM pg_cursors")
		sql(t, conn, "COMMIT")
		return sql(t, beside, "SELECT string_agg(said, ';') FROM notes") + "\n" + cursor
	}
	p := begin(t, c, "--tables", "public.account")
	p.until(`["open"`)
	conn := p.connect()
	for i := 0; i < 20; i++ {
		if its := shown(conn); strings.Contains(its, "zanteyard") || !strings.HasPrefix(its, update) || !strings.HasSuffix(its, declare) {
			t.Fatalf("a table that isn't audited: %s", its)
		}
	}
	p.seen(conn, 5)
	if its := shown(conn); strings.Contains(its, "zanteyard") {
		t.Errorf("a table that isn't audited: %s", its)
	}
	p = begin(t, c)
	p.until(`["open"`)
	conn = p.connect()
	for end := time.Now().Add(5 * time.Minute); ; {
		if its := shown(conn); strings.Count(its, " AS zanteyard") > 1 && strings.Contains(its, `"zanteyard":`) {
			break
		}
		if time.Now().After(end) {
			t.Fatal("nothing is seen of an audited table")
		}
	}
}
