package main

import (
	"fmt"
	"strings"
	"testing"

	"github.com/jackc/pgconn"
)

// TestKeysThatChangeBesideTheProxy: what a key's values mean changes, and the sessions don't hear of it. What they read by
// the old meaning isn't taken for rows of the new one: it is left out, and counted.
func TestKeysThatChangeBesideTheProxy(t *testing.T) {
	c := start(t)
	beside := directly(t, c)
	sql(t, beside, `CREATE TABLE o (id int PRIMARY KEY, v int); INSERT INTO o VALUES (1, 0);
		CREATE TABLE exchanged (id int PRIMARY KEY, code int UNIQUE NOT NULL, v int); INSERT INTO exchanged VALUES (5, 7, 0), (7, 5, 0);
		CREATE TABLE renamed (a int, b int, v int, PRIMARY KEY (a, b)); INSERT INTO renamed VALUES (5, 7, 0), (7, 5, 0);
		CREATE TYPE colour AS ENUM ('red', 'green'); CREATE TABLE labelled (k colour PRIMARY KEY, v int);
		INSERT INTO labelled VALUES ('red', 0), ('green', 0);
		CREATE TABLE one (id int PRIMARY KEY, v int); INSERT INTO one VALUES (5, 0);
		CREATE TABLE two (code int PRIMARY KEY, id int UNIQUE NOT NULL, v int); INSERT INTO two VALUES (5, 7, 0), (7, 5, 0)`)
	p := begin(t, c, "--look", "1h")
	p.until(`["open"`)
	w := &watched{program: p}
	reader, writer := p.connect(), p.connect()
	for _, x := range []struct {
		table, read, change, write string
		before                     bool // the read is before the change
	}{
		{"exchanged", "SELECT v FROM exchanged WHERE id = 5",
			"ALTER TABLE exchanged DROP CONSTRAINT exchanged_pkey, ADD PRIMARY KEY (code)", "UPDATE exchanged SET v = v + 1 WHERE code = 5", false},
		{"renamed", "SELECT v FROM renamed WHERE a = 5 AND b = 7",
			"ALTER TABLE renamed RENAME a TO c; ALTER TABLE renamed RENAME b TO a; ALTER TABLE renamed RENAME c TO b",
			"UPDATE renamed SET v = v + 1 WHERE b = 7 AND a = 5", false},
		{"labelled", "SELECT v FROM labelled WHERE k = 'red'",
			"ALTER TYPE colour RENAME VALUE 'red' TO 'none'; ALTER TYPE colour RENAME VALUE 'green' TO 'red'; ALTER TYPE colour RENAME VALUE 'none' TO 'green'",
			"UPDATE labelled SET v = v + 1 WHERE k = 'red'", true},
		{"one", "SELECT v FROM one WHERE id = 5", "ALTER TABLE one RENAME TO three; ALTER TABLE two RENAME TO one",
			"UPDATE one SET v = v + 1 WHERE code = 5", false},
	} {
		warm(t, reader, x.read, "SELECT v FROM o WHERE id = 1", "UPDATE account SET balance = balance WHERE id = 2")
		warm(t, writer, strings.ReplaceAll(x.write, "WHERE code", "WHERE id"), "UPDATE o SET v = v + 1 WHERE id = 1")
		offered := false
		for try := 1; try <= mostTries && !offered; try++ {
			one, two := fmt.Sprint("reads ", x.table, try), fmt.Sprint("writes ", x.table, try)
			sql(t, reader, "BEGIN /*tag='"+one+"'*/")
			if x.before {
				sql(t, reader, x.read)
			}
			if try == 1 {
				sql(t, beside, "BEGIN; "+x.change+"; COMMIT")
			}
			sql(t, writer, "BEGIN /*tag='"+two+"'*/")
			sql(t, writer, x.write)
			sql(t, writer, "UPDATE o SET v = v + 1 WHERE id = 1")
			sql(t, writer, "COMMIT")
			if !x.before {
				sql(t, reader, x.read)
			}
			sql(t, reader, "SELECT v FROM o WHERE id = 1")
			sql(t, reader, "COMMIT")
			its := w.tagged(reader, writer)
			reads, there := its[one]
			_, written := its[two]
			if offered = there && written && strings.Contains(reads.reads(its), "o 1 from "+two); offered && reads.reads(its) != "o 1 from "+two {
				t.Errorf("%s: it is offered with reads of %s", x.table, reads.reads(its))
			}
		}
		if !offered {
			t.Errorf("%s: nothing was offered", x.table)
		}
	}
	fmt.Fprintln(p.say, `{"command":"stop"}`)
	var last string
	for line := range p.lines {
		if strings.HasPrefix(line, `{"event":"coverage"`) {
			last = line
		}
		if strings.HasPrefix(line, `{"event":"stopped"`) {
			break
		}
	}
	if !strings.Contains(last, "its table's key has changed") {
		t.Errorf("it isn't counted: %s", last)
	}
}

// warm runs statements until they have been tried.
func warm(t *testing.T, conn *pgconn.PgConn, texts ...string) {
	t.Helper()
	for i := 0; i < 4; i++ {
		for _, text := range texts {
			sql(t, conn, text)
		}
	}
}

// TestNamesThatChangeAndBack: a table's owner makes its name stand for something else for a while: for another table, by
// its own name or its schema's, within a transaction that writes to it; or for a view, whose columns are called like a
// table's own. Nothing of that is taken for the table's.
func TestNamesThatChangeAndBack(t *testing.T) {
	c := start(t)
	beside := directly(t, c)
	sql(t, beside, `CREATE TABLE o (id int PRIMARY KEY, v int); INSERT INTO o VALUES (1, 0);
		CREATE TABLE swapped (id int PRIMARY KEY, v int); INSERT INTO swapped VALUES (5, 0);
		CREATE TABLE other (id int PRIMARY KEY, v int); INSERT INTO other VALUES (5, 0);
		CREATE SCHEMA far; CREATE TABLE far.away (id int PRIMARY KEY, v int); INSERT INTO far.away VALUES (5, 0);
		CREATE SCHEMA near; CREATE TABLE near.away (id int PRIMARY KEY, v int); INSERT INTO near.away VALUES (5, 0);
		CREATE TABLE viewed (id int PRIMARY KEY, v int); INSERT INTO viewed VALUES (5, 0)`)
	p := begin(t, c, "--look", "1h")
	p.until(`["open"`)
	w := &watched{program: p}
	reader, writer := p.connect(), p.connect()
	const o = "UPDATE o SET v = v + 1 WHERE id = 1"
	texts := []string{"SELECT v FROM swapped WHERE id = 5", "SELECT v FROM viewed WHERE id = 5", "SELECT v FROM o WHERE id = 1",
		"UPDATE viewed SET v = v + 1 WHERE id = 5", "UPDATE swapped SET v = v + 1 WHERE id = 5", "UPDATE far.away SET v = v + 1 WHERE id = 5", "UPDATE account SET balance = balance WHERE id = 2", o}
	const swap = "ALTER SCHEMA far RENAME TO x; ALTER SCHEMA near RENAME TO far; ALTER SCHEMA x RENAME TO near"
	const view = "ALTER TABLE viewed RENAME TO kept; CREATE VIEW viewed AS SELECT id, v, '2'::xid AS xmin, 'kept'::regclass::oid AS tableoid FROM kept"
	const back = "DROP VIEW viewed; ALTER TABLE kept RENAME TO viewed"
	for _, name := range []string{"another table", "another schema", "a view", "a view, and back"} {
		warm(t, reader, texts...)
		warm(t, writer, texts...)
		offered := false
		for try := 1; try <= mostTries && !offered; try++ {
			one, two := fmt.Sprint("reads, ", name, try), fmt.Sprint("writes, ", name, try)
			isView := strings.HasPrefix(name, "a view")
			if name == "another schema" {
				sql(t, beside, "ALTER TABLE far.away SET (fillfactor = 90)") // the table's own row is written by somebody else
			}
			sql(t, writer, "BEGIN /*tag='"+two+"'*/")
			sql(t, writer, o)
			switch name {
			case "another schema":
				sql(t, writer, swap)
				sql(t, writer, "UPDATE far.away SET v = v + 1 WHERE id = 5")
				sql(t, writer, swap)
			case "another table":
				sql(t, writer, "ALTER TABLE swapped RENAME TO x; ALTER TABLE other RENAME TO swapped; ALTER TABLE x RENAME TO other")
				sql(t, writer, "UPDATE swapped SET v = v + 1 WHERE id = 5")
				sql(t, writer, "ALTER TABLE swapped RENAME TO x; ALTER TABLE other RENAME TO swapped; ALTER TABLE x RENAME TO other")
			default:
				sql(t, writer, "UPDATE viewed SET v = v + 1 WHERE id = 5")
			}
			sql(t, writer, "COMMIT")
			if isView {
				sql(t, beside, "BEGIN; "+view+"; COMMIT")
			}
			sql(t, reader, "BEGIN /*tag='"+one+"'*/")
			if isView {
				sql(t, reader, "SELECT v FROM viewed WHERE id = 5")
			}
			sql(t, reader, "SELECT v FROM o WHERE id = 1")
			sql(t, reader, "COMMIT")
			if name == "a view, and back" {
				sql(t, beside, "BEGIN; "+back+"; COMMIT")
			}
			its := w.tagged(reader, writer)
			reads, there := its[one]
			written, also := its[two]
			offered = there && also && strings.Contains(reads.reads(its), "o 1 from "+two)
			if offered && (reads.reads(its) != "o 1 from "+two || strings.Contains(written.reads(its), "swapped") ||
				strings.Contains(written.reads(its), "away")) {
				t.Errorf("%s: they are offered with reads of %s, and %s", name, reads.reads(its), written.reads(its))
			}
			if name == "a view" {
				sql(t, beside, "BEGIN; "+back+"; COMMIT")
			}
		}
		if !offered {
			t.Errorf("%s: nothing was offered", name)
		}
	}
}

// TestRowSecurityBesideTheProxy: a table's owner switches row security on, and maybe off again, and the sessions don't hear
// of it. A row that it hides from a client who asks for its key isn't taken for one that isn't there.
func TestRowSecurityBesideTheProxy(t *testing.T) {
	c := start(t)
	beside := directly(t, c)
	sql(t, beside, `CREATE TABLE o (id int PRIMARY KEY, v int); INSERT INTO o VALUES (1, 0);
		CREATE TABLE hides (id int PRIMARY KEY, v int); INSERT INTO hides VALUES (5, 0);
		CREATE ROLE limited LOGIN; GRANT ALL ON ALL TABLES IN SCHEMA public TO limited`)
	p := begin(t, c, "--look", "1h")
	p.until(`["open"`)
	w := &watched{program: p}
	reader, writer := p.connect("user=limited"), p.connect()
	const o, asks = "UPDATE o SET v = v + 1 WHERE id = 1", "SELECT v FROM hides WHERE id = "
	for _, x := range []struct {
		name, key string
		on, off   bool
	}{{"never on", "6", false, false}, {"on", "5", true, false}, {"on and off", "5", true, true}} {
		warm(t, reader, asks+x.key, "SELECT v FROM o WHERE id = 1", "UPDATE account SET balance = balance WHERE id = 2")
		warm(t, writer, o, "UPDATE account SET balance = balance WHERE id = 2")
		offered, seen := false, false
		for try := 1; try <= mostTries && (!offered || !x.on && !seen); try++ { // at first the proxy has yet to look at the catalog again
			one, two := fmt.Sprint("reads, ", x.name, try), fmt.Sprint("writes, ", x.name, try)
			if x.on {
				sql(t, beside, "ALTER TABLE hides ENABLE ROW LEVEL SECURITY")
				w.tagged(writer) // the audit has seen that by then, and the sessions haven't
			}
			sql(t, writer, "BEGIN /*tag='"+two+"'*/")
			sql(t, writer, o)
			sql(t, writer, "COMMIT")
			sql(t, reader, "BEGIN ISOLATION LEVEL REPEATABLE READ /*tag='"+one+"'*/")
			sql(t, reader, asks+x.key)
			sql(t, reader, "SELECT v FROM o WHERE id = 1")
			sql(t, reader, "COMMIT")
			if x.off {
				sql(t, beside, "ALTER TABLE hides DISABLE ROW LEVEL SECURITY")
			}
			its := w.tagged(reader, writer)
			reads, there := its[one]
			offered = there && strings.Contains(reads.reads(its), "o 1 from "+two)
			seen = seen || strings.Contains(reads.reads(its), "hides "+x.key+" from init")
			if x.on {
				sql(t, beside, "ALTER TABLE hides DISABLE ROW LEVEL SECURITY")
			}
		}
		if !offered {
			t.Errorf("%s: nothing was offered", x.name)
		}
		if seen != !x.on {
			t.Errorf("%s: it is offered as absent: %v", x.name, seen)
		}
	}
}
