package main

import (
	"context"
	"testing"
	"time"

	"github.com/jackc/pgconn"
)

const meantSchema = `CREATE TABLE item (id int PRIMARY KEY, status varchar NOT NULL); CREATE TABLE x (id int PRIMARY KEY, v int);
CREATE TABLE does (what text); INSERT INTO x VALUES (1, 0);
CREATE FUNCTION never(varchar, varchar) RETURNS bool LANGUAGE sql IMMUTABLE AS 'SELECT false';
CREATE FUNCTION done() RETURNS trigger LANGUAGE plpgsql AS 'BEGIN EXECUTE NEW.what; RETURN NULL; END';
CREATE TRIGGER done BEFORE INSERT ON does FOR EACH ROW EXECUTE FUNCTION done();`

// TestMeantSomethingElse: while a statement runs, its operator means something else, or its type, and nothing is left of
// that by the next time that the catalog is looked at. It passes over a row that satisfies what its words usually mean,
// and reads another one that the same transaction has written. To take it at its words would be to say that it has seen
// one half of that transaction.
func TestMeantSomethingElse(t *testing.T) {
	c := start(t)
	direct, err := pgconn.Connect(context.Background(), sourceOf(c, "postgres"))
	if err != nil {
		t.Fatal(err)
	}
	defer direct.Close(context.Background())
	sql(t, direct, meantSchema)
	const (
		ask      = "SELECT id FROM item WHERE status = 'free'"
		change   = "UPDATE item SET status = 'free' WHERE status = 'free'"
		cast     = "SELECT id FROM item WHERE status = 'free'::text"
		makes    = "CREATE OPERATOR public.= (LEFTARG = varchar, RIGHTARG = varchar, FUNCTION = never)"
		drops    = "DROP OPERATOR public.= (varchar, varchar)"
		makeType = "CREATE DOMAIN pg_temp.text AS varchar(1)"
		dropType = "DROP DOMAIN pg_temp.text"
	)
	triggered := func(does string) string { return "INSERT INTO does VALUES ('" + does + "'); " }
	for _, x := range []struct {
		name, ask, before, after string
		makes, drops             string // by somebody else, meanwhile
		means                    bool   // what its words say
	}{
		{name: "nothing happens", ask: ask, means: true},
		{name: "others make an operator", ask: ask, makes: makes, drops: drops},
		{name: "a trigger of its own makes an operator", ask: ask, before: triggered(makes), after: triggered(drops)},
		{name: "one that is undone", ask: ask, before: "SAVEPOINT a; " + triggered(makes), after: "ROLLBACK TO a; "},
		{name: "it makes an operator itself, which is undone", ask: ask, before: "SAVEPOINT a; " + makes + "; ", after: "ROLLBACK TO a; "},
		{name: "a trigger of its own makes a type", ask: cast, before: triggered(makeType), after: triggered(dropType)},
		{name: "a trigger of its own makes a table", ask: change, before: triggered("CREATE TEMPORARY TABLE item (id int, status varchar)"),
			after: triggered("DROP TABLE pg_temp.item")},
		{name: "one that is undone, too", ask: cast, before: "SAVEPOINT a; " + triggered(makeType), after: "ROLLBACK TO a; "},
	} {
		t.Run(x.name, func(t *testing.T) {
			sql(t, direct, "DELETE FROM item; INSERT INTO item VALUES (1, 'taken')")
			p := begin(t, c, "--between", "10h")
			p.until(`["open"`)
			h := &hearing{p: p, g: newGraph()}
			reader, writer := p.connect(), p.connect()
			sql(t, reader, "CREATE TEMPORARY TABLE once (id int); DROP TABLE once") // its schema isn't made meanwhile
			h.warm(reader, x.ask)
			for i := 0; i < 3; i++ {
				sql(t, reader, "SELECT v FROM x WHERE id = 1")
				sql(t, writer, "UPDATE x SET v = 1 WHERE id = 1")
				sql(t, writer, "UPDATE item SET status = 'taken' WHERE id = 1")
				h.settle()
			}
			before := h.said.Conditions.Followed
			sql(t, reader, "BEGIN")
			answered := make(chan string)
			sql(t, direct, "SELECT pg_advisory_lock(1)")
			go func() {
				answered <- sql(t, reader, "SELECT pg_advisory_lock(1); SELECT pg_advisory_unlock(1); "+x.before+x.ask+"; "+x.after+
					"SELECT v FROM x WHERE id = 1")
			}()
			time.Sleep(100 * time.Millisecond) // it waits
			sql(t, writer, "BEGIN")
			sql(t, writer, "UPDATE x SET v = 2 WHERE id = 1")
			sql(t, writer, "UPDATE item SET status = 'free' WHERE id = 1")
			sql(t, writer, "COMMIT")
			h.settle()
			if x.makes != "" { // for so short a time that nobody looks at the catalog meanwhile
				sql(t, direct, x.makes+"; COMMIT; SELECT pg_advisory_unlock(1); COMMIT; SELECT pg_sleep(0.01); "+x.drops)
			} else {
				sql(t, direct, "SELECT pg_advisory_unlock(1)")
			}
			got := <-answered
			sql(t, reader, "COMMIT")
			h.settle()
			h.stop()
			t.Logf("%q, %+v", got, h.said.Conditions)
			cycle, wrong := h.g.violation(false)
			if cycle != "" || len(wrong) > 0 {
				t.Errorf("made up: %v\n%s\n%s", wrong, cycle, h.line)
			}
			if followed := h.said.Conditions.Followed > before; followed != x.means {
				t.Errorf("followed: %v; %s", followed, h.line)
			}
		})
	}
}
