package session

import (
	"context"
	"testing"
	"time"

	"zanteyard/definitions"
)

// TestOwnersTypes: a table's owner has made a type of the table's key, and a cast that would make its owner a superuser.
// A superuser reads the table. Neither directly nor through the proxy is the cast called.
func TestOwnersTypes(t *testing.T) {
	needServer(t)
	const before = "RESET ROLE; DROP SCHEMA IF EXISTS m CASCADE; DROP ROLE IF EXISTS intruder; CREATE ROLE intruder; " +
		"CREATE SCHEMA m AUTHORIZATION intruder; SET ROLE intruder;"
	const evil = "CREATE FUNCTION m.gain() RETURNS void LANGUAGE plpgsql AS $$BEGIN IF (SELECT rolsuper FROM pg_roles WHERE " +
		"rolname = current_user) THEN ALTER ROLE intruder SUPERUSER; END IF; END$$; CREATE TYPE m.citext AS (a int);" +
		"CREATE FUNCTION m.f(m.citext) RETURNS text LANGUAGE plpgsql AS $$BEGIN PERFORM m.gain(); RETURN 'x'; END$$;" +
		"CREATE FUNCTION m.g(m.citext) RETURNS date LANGUAGE plpgsql AS $$BEGIN PERFORM m.gain(); RETURN '2000-01-01'; END$$;" +
		"CREATE CAST (m.citext AS text) WITH FUNCTION m.f(m.citext) AS IMPLICIT; " +
		"CREATE CAST (m.citext AS date) WITH FUNCTION m.g(m.citext) AS IMPLICIT;"
	const changed = "SET ROLE intruder; ALTER TABLE m.b DROP CONSTRAINT b_pkey, ALTER id TYPE m.citext USING '(1)'::m.citext, ADD PRIMARY KEY (id)"
	for name, x := range map[string]struct{ table, change string }{
		"a type with the name of another":    {"(id m.citext PRIMARY KEY, v int); INSERT INTO m.b VALUES ('(1)', 1)", ""},
		"a key that was a number":            {"(id int PRIMARY KEY, v int); INSERT INTO m.b VALUES (1, 1)", changed},
		"a key that was a text":              {"(id text PRIMARY KEY, v int); INSERT INTO m.b VALUES (1, 1)", changed},
		"a key that was a date":              {"(id date PRIMARY KEY, v int); INSERT INTO m.b VALUES ('2000-01-01', 1)", changed},
		"a key that was a text's, in EUC_JP": {"(id text PRIMARY KEY, v int); INSERT INTO m.b VALUES (1, 1)", changed},
		"a key that was an enumeration's":    {"(id m.mood PRIMARY KEY, v int); INSERT INTO m.b VALUES ('sad', 1)", changed},
	} {
		x := x
		t.Run(name, func(t *testing.T) {
			sql(t, before+evil+"CREATE TYPE m.mood AS ENUM ('sad'); CREATE TABLE m.b "+x.table)
			d, err := definitions.Open(context.Background(), config(), time.Hour, func(string) {})
			if err != nil {
				t.Fatal(err)
			}
			p := through(t, "postgres", func(o *Options) { o.Plans, o.Generation, o.Shared = d, d.Generation, nil })
			if name == "a key that was a text's, in EUC_JP" {
				p.query("SET client_encoding TO EUC_JP")
			}
			p.warm("SELECT v FROM m.b", "SELECT v FROM m.b", "SELECT count(v) FROM m.b", "SELECT count(v) FROM m.b")
			if x.change != "" {
				sql(t, x.change)
			}
			for i := 0; i < 3; i++ {
				p.query("SELECT v FROM m.b")
				p.query("SELECT count(v) FROM m.b")
				p.settle()
			}
			if sql(t, "SELECT rolsuper FROM pg_roles WHERE rolname = 'intruder'")[0][0] == "t" {
				t.Error("the table's owner has become a superuser")
			}
		})
	}
}
