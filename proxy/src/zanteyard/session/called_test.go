package session

import (
	"context"
	"testing"
	"time"

	"zanteyard/definitions"
)

// TestNamesCallNothing: a name of a hidden column's that isn't there any more doesn't become a call of a function with
// that name, which somebody else has put into the client's search path. A superuser runs the statements; the proxy hears
// of the change only afterwards, as if the statement had waited for the table's lock.
func TestNamesCallNothing(t *testing.T) {
	needServer(t)
	const before = "RESET ROLE; DROP SCHEMA IF EXISTS m CASCADE; DROP ROLE IF EXISTS intruder; CREATE ROLE intruder; " +
		"CREATE SCHEMA m AUTHORIZATION intruder; SET ROLE intruder;" +
		"CREATE TABLE m.b (id int PRIMARY KEY, v int); INSERT INTO m.b VALUES (1, 1), (2, 2);" +
		"CREATE TABLE m.c (k int PRIMARY KEY, w int); INSERT INTO m.c VALUES (1, 1), (2, 2);" +
		"CREATE TABLE m.e (e1 int, e2 int, e3 int, e4 int, e5 int, x int, PRIMARY KEY (e1, e2, e3, e4, e5)); " +
		"INSERT INTO m.e VALUES (1, 1, 1, 1, 1, 1); CREATE TABLE m.f (e5 int PRIMARY KEY, y int); INSERT INTO m.f VALUES (1, 1); ANALYZE m.e; ANALYZE m.f;" +
		"CREATE FUNCTION m.gain() RETURNS void LANGUAGE plpgsql AS $$BEGIN IF (SELECT rolsuper FROM pg_roles WHERE " +
		"rolname = current_user) THEN ALTER ROLE intruder SUPERUSER; END IF; END$$;" +
		"CREATE FUNCTION m.id(anyelement) RETURNS int LANGUAGE plpgsql AS $$BEGIN PERFORM m.gain(); RETURN 1; END$$;" +
		"CREATE FUNCTION m.k(anyelement) RETURNS int LANGUAGE plpgsql AS $$BEGIN PERFORM m.gain(); RETURN 1; END$$;" +
		"CREATE FUNCTION m.e5(anyelement) RETURNS int LANGUAGE plpgsql AS $$BEGIN PERFORM m.gain(); RETURN 1; END$$;" +
		"CREATE FUNCTION m.xmin(anyelement) RETURNS xid LANGUAGE plpgsql AS $$BEGIN PERFORM m.gain(); RETURN '7'; END$$;" +
		"CREATE FUNCTION m.tableoid(anyelement) RETURNS oid LANGUAGE plpgsql AS $$BEGIN PERFORM m.gain(); RETURN 7; END$$;"
	const (
		renamed = "SET ROLE intruder; ALTER TABLE m.b RENAME id TO gone"
		other   = "SET ROLE intruder; ALTER TABLE m.c RENAME k TO gone"
		viewed  = "SET ROLE intruder; ALTER TABLE m.b RENAME TO d; CREATE VIEW m.b AS SELECT id, v FROM m.d"
		seen    = "SET ROLE intruder; ALTER TABLE m.c RENAME TO d; CREATE VIEW m.c AS SELECT k, w FROM m.d"
	)
	for name, x := range map[string]struct{ text, change string }{
		"a table's key":                     {"SELECT v FROM b", renamed},
		"an alias":                          {"SELECT v FROM m.b AS id", renamed},
		"a table that becomes a view":       {"SELECT v FROM m.b", viewed},
		"a joined table's key":              {"SELECT v, w FROM b JOIN c ON v = w", renamed},
		"that of the other one":             {"SELECT v, w FROM m.b, m.c q WHERE v = w", other},
		"a joined table that is a view":     {"SELECT v, w FROM b JOIN c ON v = w", viewed},
		"the other one":                     {"SELECT v, w FROM b JOIN c ON v = w", seen},
		"a table and a subquery":            {"SELECT v FROM b, (SELECT 1) q", renamed},
		"the last of many":                  {"SELECT x, y FROM e CROSS JOIN f LIMIT 1", "SET ROLE intruder; ALTER TABLE m.e RENAME e5 TO gone"},
		"one that another table has":        {"SELECT x, y FROM e CROSS JOIN f LIMIT 1", "SET ROLE intruder; ALTER TABLE m.f RENAME e5 TO gone"},
		"a deleted row":                     {"DELETE FROM m.b WHERE id = 1 RETURNING v", renamed},
		"a deleted row by another table":    {"DELETE FROM m.b USING m.c WHERE b.v = c.w RETURNING v", renamed},
		"what a deletion reads":             {"DELETE FROM m.b USING m.c WHERE b.v = c.w RETURNING v", other},
		"what an update reads":              {"UPDATE m.b SET v = w FROM m.c WHERE v = w RETURNING v", other},
		"a view that an update reads":       {"UPDATE m.b SET v = w FROM m.c WHERE v = w RETURNING v", seen},
		"a view in the place of the target": {"UPDATE m.b SET v = w FROM m.c WHERE v = w RETURNING v", viewed},
		"an updated row that is a view's":   {"UPDATE m.b SET v = 2 WHERE v = 1 RETURNING v", viewed},
		"an inserted row":                   {"INSERT INTO m.b (v) VALUES (9) RETURNING v", viewed},
	} {
		x := x
		t.Run(name, func(t *testing.T) {
			sql(t, before)
			d, err := definitions.Open(context.Background(), config(), time.Hour, func(string) {})
			if err != nil {
				t.Fatal(err)
			}
			p := through(t, "postgres", func(o *Options) { o.Plans, o.Generation, o.Shared = d, d.Generation, nil })
			p.query("SET search_path TO m, public")
			p.warm(x.text, x.text)
			isTried := false
			p.session.state.Lock()
			for _, its := range p.session.trust.uses {
				isTried = isTried || its.state == tried
			}
			p.session.state.Unlock()
			if !isTried {
				t.Fatalf("the statement has no hidden columns: %q", p.sink.unseen)
			}
			sql(t, "SELECT 1; "+x.change)
			for i := 0; i < 3; i++ {
				p.query(x.text)
				p.settle()
			}
			if sql(t, "SELECT rolsuper FROM pg_roles WHERE rolname = 'intruder'")[0][0] == "t" {
				t.Error("somebody has become a superuser by a function that the client didn't call")
			}
		})
	}
}
