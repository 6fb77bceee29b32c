package session

import (
	"context"
	"testing"
	"time"

	"zanteyard/definitions"
	"zanteyard/wire"
)

// TestFailedInABlock: a statement whose hidden columns may not be read any more, which the proxy hasn't noticed, fails in one
// block at most.
func TestFailedInABlock(t *testing.T) {
	needServer(t)
	sql(t, "DROP TABLE IF EXISTS r; CREATE TABLE r (id int PRIMARY KEY, v int); INSERT INTO r VALUES (1, 1); "+
		"GRANT SELECT (id, v, xmin, tableoid) ON r TO limited")
	d, err := definitions.Open(context.Background(), config(), time.Hour, func(string) {})
	if err != nil {
		t.Fatal(err)
	}
	p := through(t, "limited", func(o *Options) { o.Plans, o.Generation = d, d.Generation })
	block := []string{"BEGIN", "SELECT v FROM r WHERE id = 1", "COMMIT"}
	p.warm(block...)
	p.sink.take()
	for _, text := range block {
		p.query(text)
	}
	if its := p.sink.take(); len(its) == 0 || len(its[0].Reads) == 0 {
		t.Fatalf("nothing was read: %+v, %q", its, p.sink.unseen)
	}
	sql(t, "REVOKE SELECT (xmin) ON r FROM limited")
	for i := 0; i < 3; i++ {
		p.query(block[0])
		if got := p.query(block[1]); i > 0 && fails(got) {
			t.Errorf("block %d: %s", i, show(got))
		}
		p.query(block[2])
		p.settle()
	}
}

// TestFailsOnce: a statement that fails by what a function of it raises isn't run once more, whatever the error's class:
// numbers of sequences and locks of the session outlast the error.
func TestFailsOnce(t *testing.T) {
	needServer(t)
	sql(t, fill)
	sql(t, `DROP SEQUENCE IF EXISTS calls CASCADE; CREATE SEQUENCE calls;
		CREATE OR REPLACE FUNCTION refuses(n int) RETURNS int LANGUAGE plpgsql AS $$BEGIN
			PERFORM nextval('calls');
			IF (SELECT v FROM u WHERE a = 1 LIMIT 1) IS NULL THEN RAISE insufficient_privilege; END IF;
			RETURN n; END$$`)
	defer sql(t, "DROP FUNCTION refuses(int)")
	for _, text := range []string{"SELECT refuses(v) FROM t WHERE id = 3", "UPDATE t SET v = refuses(v) WHERE id = 3"} {
		sql(t, "UPDATE u SET v = 1 WHERE a = 1")
		p := through(t, "postgres", knowing(t))
		p.warm(text)
		p.sink.take()
		if p.query(text); !p.sink.reports() {
			t.Fatalf("%s isn't seen: %q", text, p.sink.unseen)
		}
		sql(t, "UPDATE u SET v = NULL WHERE a = 1")
		before := show(direct(t, "postgres").query("SELECT last_value + 1 FROM calls"))
		if got := p.query(text); !fails(got) {
			t.Errorf("%s: %s", text, show(got))
		}
		if after := show(direct(t, "postgres").query("SELECT last_value + 0 FROM calls")); after != before {
			t.Errorf("%s: it ran more than once: %s, and not %s", text, after, before)
		}
	}
}

// TestDoneOnce: a statement fails when it runs, with an error that hidden columns could cause, too. What it had done by then
// isn't done once more: a number of a sequence and a session's lock outlast the rollback.
func TestDoneOnce(t *testing.T) {
	needServer(t)
	sql(t, fill)
	sql(t, "DROP TABLE IF EXISTS numbered; CREATE TABLE numbered (id serial PRIMARY KEY, x text)")
	defer sql(t, "DROP TABLE numbered")
	const mayFail = "repeat('x', current_setting('my.n')::int)"
	p := through(t, "postgres", knowing(t))
	field := func(text string) string {
		for _, m := range p.query(text) {
			if m[0] == 'D' {
				return string(m[wire.Header+6:])
			}
		}
		return ""
	}
	for _, x := range []struct {
		text, number string
		locks        int
	}{
		{"INSERT INTO numbered (x) VALUES (" + mayFail + ")", "101", 0},
		{"SELECT pg_advisory_lock(id), " + mayFail + " FROM t WHERE id = 3", "100", 1},
		{"UPDATE t SET v = v WHERE id = 3 AND pg_try_advisory_lock(id) AND repeat(" +
			"'x', id + current_setting('my.n')::int) <> ''", "100", 1},
	} {
		p.query("SET my.n = 1")
		p.warm(x.text)
		p.sink.take()
		if p.query(x.text); !p.sink.reports() {
			t.Fatalf("%s isn't seen: %q", x.text, p.sink.unseen)
		}
		for _, text := range []string{"SELECT pg_advisory_unlock_all()", "SET my.n = 2000000000", "SELECT setval('numbered_id_seq', 100)"} {
			p.query(text)
		}
		if got := p.query(x.text); len(got) < 2 || string(wire.Field(got[len(got)-2], 'C')) != "54000" {
			t.Errorf("%s: %s", x.text, show(got))
		}
		if number := field("SELECT last_value FROM numbered_id_seq"); number != x.number {
			t.Errorf("%s: the sequence is at %s, and not at %s", x.text, number, x.number)
		}
		locks := 0
		for field("SELECT pg_advisory_unlock(3)") == "t" {
			locks++
		}
		if locks != x.locks {
			t.Errorf("%s: the lock was taken %d times, and not %d", x.text, locks, x.locks)
		}
	}
}

// reports reports whether hidden columns were read.
func (s *told) reports() bool {
	for _, it := range s.take() {
		if len(it.Reads) > 0 || it.Number != 0 {
			return true
		}
	}
	return false
}

func fails(answers [][]byte) bool {
	for _, one := range answers {
		if one[0] == 'E' {
			return true
		}
	}
	return false
}
