package session

import (
	"context"
	"fmt"
	"strings"
	"testing"
	"time"

	"github.com/jackc/pgproto3/v2"

	"zanteyard/definitions"
)

// madeSince is what a role without rights may make in a schema that a client's names are looked up in first: operators,
// functions, types and views with names that texts of the proxy's use. Each makes the role a superuser if one calls it.
func madeSince() string {
	text := "SET ROLE intruder; CREATE FUNCTION m.gain() RETURNS bool LANGUAGE plpgsql AS $$BEGIN IF (SELECT rolsuper FROM pg_catalog.pg_roles " +
		"WHERE rolname OPERATOR(pg_catalog.=) current_user) THEN ALTER ROLE intruder SUPERUSER; END IF; RETURN true; END$$;"
	n := 0
	for _, operator := range []string{"=", "<>", "/", "||", "&", "<<", "+", "*"} {
		for _, types := range []string{"oid, oid", "oid, bigint", "bigint, bigint", "integer, integer", "integer, bigint", "text, text", "name, text",
			"name, name", "xid, xid", "xid8, xid8", `"char", "char"`, "boolean, boolean", "double precision, bigint", "smallint, smallint"} {
			left, right, _ := strings.Cut(types, ", ")
			text += fmt.Sprintf("CREATE FUNCTION m.o%d(%s, %s) RETURNS boolean LANGUAGE plpgsql AS $$BEGIN RETURN m.gain(); END$$; "+
				"CREATE OPERATOR m.%s (LEFTARG = %s, RIGHTARG = %s, FUNCTION = m.o%d);", n, left, right, operator, left, right, n)
			n++
		}
	}
	for _, one := range []string{"concat(integer)", "concat(text)", "concat(anyelement)", "concat_ws(text, anyelement)", "count(oid)",
		"current_setting(text)", "pg_backend_pid()", "set_config(text, text, boolean)", "pg_is_in_recovery()", "pg_current_snapshot()",
		"pg_current_xact_id_if_assigned()", "to_regclass(text)", "has_column_privilege(oid, smallint, text)", "xmin(anyelement)",
		"tableoid(anyelement)", "id(anyelement)", "pg_postmaster_start_time()", "date_part(text, timestamptz)", "array_agg(text)"} {
		text += "CREATE FUNCTION m." + one + " RETURNS text LANGUAGE plpgsql AS $$BEGIN PERFORM m.gain(); RETURN '1'; END$$;"
	}
	for _, one := range []string{"text", "int8", "oid", "xid8", "float8"} {
		text += "CREATE DOMAIN m." + one + " AS pg_catalog." + one + " CHECK (m.gain());"
	}
	for _, one := range []string{"pg_class", "pg_proc", "pg_locks", "pg_roles", "pg_index", "pg_namespace", "pg_database"} {
		text += "CREATE VIEW m." + one + " AS SELECT o.*, m.gain() AS gained FROM pg_catalog." + one + " o;"
	}
	return text + "RESET ROLE"
}

// TestMadeSinceTheLook: of what somebody makes after the proxy has looked at the catalog nothing is called by what it adds
// to a client's statements, nor by its own, in whatever state the connection is. Nothing that the client sends calls it.
func TestMadeSinceTheLook(t *testing.T) {
	needServer(t)
	sql(t, fill)
	sql(t, "DROP SCHEMA IF EXISTS m CASCADE; DROP ROLE IF EXISTS intruder; CREATE ROLE intruder; CREATE SCHEMA m AUTHORIZATION intruder")
	d, err := definitions.Open(context.Background(), config(), time.Hour, func(string) {})
	if err != nil {
		t.Fatal(err)
	}
	p := through(t, "postgres", func(o *Options) { o.Plans, o.Generation, o.Shared = d, d.Generation, nil })
	p.query("SET search_path TO m, public, pg_catalog")
	p.do(messages('Z', &pgproto3.Parse{Name: "s", Query: "SELECT v FROM t"}, &pgproto3.Sync{}))
	run := messages('Z', &pgproto3.Bind{PreparedStatement: "s"}, &pgproto3.Execute{}, &pgproto3.Sync{})
	texts := []string{"SELECT v FROM t", "UPDATE t SET v = 5", "INSERT INTO u VALUES (5, 'x', 1) ON CONFLICT DO NOTHING RETURNING v",
		"DELETE FROM u RETURNING v", "SELECT v FROM t ORDER BY v, w"}
	p.warm(append([]string{"BEGIN", "COMMIT"}, texts...)...)
	p.do(run)
	p.settle()
	sql(t, madeSince())
	p.sink.take()
	for i := 0; i < 2; i++ {
		for _, text := range texts {
			p.query(text)
		}
		p.do(run)
		p.query("BEGIN ISOLATION LEVEL REPEATABLE READ")
		p.query("SET LOCAL work_mem = '8MB'")
		p.query("SET LOCAL search_path TO m, public")
		p.query("SELECT w, v FROM t")
		p.query("UPDATE t SET v = 6")
		p.query("COMMIT")
		p.query("SELECT w FROM t ORDER BY w, v") // which wasn't seen before
		p.query("RESET ROLE")
		p.query("SET search_path TO m, public, pg_catalog")
		p.settle()
	}
	its := p.sink.take()
	seen := 0
	for _, one := range its {
		seen += len(one.Reads)
	}
	if seen == 0 {
		t.Errorf("nothing was seen: %+v", its)
	}
	if got := sql(t, "SELECT rolsuper FROM pg_catalog.pg_roles WHERE rolname = 'intruder'"); len(got) != 1 || got[0][0] != "f" {
		t.Errorf("the intruder is a superuser: %v", got)
	}
	if p.query("SELECT 1 FROM pg_class WHERE relname = relname"); sql(t, "SELECT rolsuper FROM pg_catalog.pg_roles WHERE rolname = 'intruder'")[0][0] != "t" {
		t.Error("what was made calls nothing")
	}
}
