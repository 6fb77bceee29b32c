package audit

import (
	"context"
	"fmt"
	"testing"
	"time"

	"github.com/jackc/pgconn"

	"zanteyard/definitions"
	"zanteyard/keys"
	"zanteyard/own"
	"zanteyard/slot"
)

// hostile is what a role without rights may leave in a database whose owner it is: functions, types, tables and
// operators with the names that the audit uses, in a schema that every connection looks in first. Each of them makes
// the role a superuser if a superuser calls it.
func hostile() string {
	text := "CREATE ROLE intruder LOGIN; CREATE SCHEMA m AUTHORIZATION intruder; SET ROLE intruder;" +
		"CREATE FUNCTION m.gain() RETURNS boolean LANGUAGE plpgsql AS $$BEGIN IF (SELECT rolsuper FROM pg_catalog.pg_roles " +
		"WHERE rolname OPERATOR(pg_catalog.=) current_user) THEN ALTER ROLE intruder SUPERUSER; END IF; RETURN true; END$$;"
	types := []string{"oid", "integer", "real", "name", "text", `"char"`, "boolean", "bigint", "double precision"}
	n := 0
	for _, operator := range []string{"=", "<>", ">", ">=", "<", "/", "||", "~*"} {
		for _, left := range types {
			for _, right := range types {
				its, value := "boolean", "true"
				if operator == "/" || operator == "||" {
					its, value = "text", "'1'::text"
				}
				text += fmt.Sprintf("CREATE FUNCTION m.o%d(%s, %s) RETURNS %s LANGUAGE plpgsql AS "+
					"$$BEGIN PERFORM m.gain(); RETURN %s; END$$; CREATE OPERATOR m.%s (LEFTARG = %s, RIGHTARG = %s, FUNCTION = m.o%d);",
					n, left, right, its, value, operator, left, right, n)
				n++
			}
		}
	}
	for _, one := range []string{"count(oid)", "sum(bigint)", "unnest(integer[])", "current_database()", "pg_current_wal_insert_lsn()",
		"current_setting(text)", "pg_backend_pid()", "concat(name)", "set_config(text, text, boolean)", "pg_is_in_recovery()",
		"pg_current_xact_id_if_assigned()", "to_regclass(text)", "has_column_privilege(oid, smallint, text)"} {
		text += "CREATE FUNCTION m." + one + " RETURNS text LANGUAGE plpgsql AS $$BEGIN PERFORM m.gain(); RETURN '1'; END$$;"
	}
	text += "CREATE FUNCTION m.check_text(pg_catalog.text) RETURNS boolean LANGUAGE sql AS 'SELECT m.gain()';" +
		"CREATE DOMAIN m.text AS pg_catalog.text CHECK (m.check_text(VALUE));" +
		"CREATE DOMAIN m.int8 AS pg_catalog.int8 CHECK (m.gain()); CREATE DOMAIN m.oid AS pg_catalog.oid CHECK (m.gain());"
	for _, table := range []string{"pg_class", "pg_proc", "pg_replication_slots", "pg_locks", "pg_roles", "pg_index"} {
		text += "CREATE VIEW m." + table + " AS SELECT o.*, m.gain() AS gained FROM pg_catalog." + table + " o;"
	}
	return text + "RESET ROLE;"
}

// rights is a server with that, and the tables t and child.
func rights(t *testing.T) (*server, *pgconn.PgConn) {
	s := startServer(t)
	conn := s.connect(t)
	must(t, conn, hostile())
	must(t, conn, "CREATE TABLE public.t (id int PRIMARY KEY, v int); INSERT INTO public.t VALUES (1, 0), (2, 0);"+
		"ANALYZE; ALTER DATABASE postgres SET search_path = m, public, pg_catalog")
	return s, conn
}

func gained(t *testing.T, conn *pgconn.PgConn) bool {
	t.Helper()
	return must(t, conn, "SELECT rolsuper FROM pg_catalog.pg_roles WHERE rolname OPERATOR(pg_catalog.=) 'intruder'")[0][0] == "t"
}

// TestOwnPath: whatever the audit asks on its own connections, as a superuser, nothing of what the database's owner has
// made is called.
func TestOwnPath(t *testing.T) {
	s, conn := rights(t)
	ctx := context.Background()
	config, err := pgconn.ParseConfig(s.source())
	if err != nil {
		t.Fatal(err)
	}
	plain, err := pgconn.ConnectConfig(ctx, config)
	if err != nil {
		t.Fatal(err)
	}
	defer plain.Close(ctx)
	if _, err := rowsOf(plain, "SELECT 1 FROM pg_class WHERE 1::oid >= 1"); err != nil || !gained(t, conn) {
		t.Fatalf("the database isn't hostile: %v", err)
	}
	must(t, conn, "ALTER ROLE intruder NOSUPERUSER")
	if d, err := definitions.Open(ctx, config, time.Hour, func(string) {}); err != nil || d.Generation() == 0 {
		t.Errorf("the definitions: %v", err)
	}
	options := slot.Options{Source: s.source(), Settings: keys.SlotSettings(), Name: "rights",
		Canonical: canonical, Permanent: true}
	control, tables, err := slot.NewControl(ctx, options)
	if err != nil {
		t.Fatal(err)
	}
	defer control.Close(ctx)
	for i := 0; i < 2; i++ { // the second time, the slot is there
		if _, err := slot.Open(ctx, options, tables); err != nil {
			t.Fatal(err)
		}
	}
	_, err1 := control.Place(ctx)
	_, err2 := control.Base(ctx)
	_, err3 := control.Started(ctx)
	_, err4 := control.Health(ctx, "rights")
	_, err5 := control.Sees(ctx, 7)
	for i, err := range []error{err1, err2, err3, err4, err5} {
		if err != nil {
			t.Errorf("question %d: %v", i, err)
		}
	}
	control.Open(ctx)
	control.Inspects(ctx)
	if gained(t, conn) {
		t.Error("the intruder is a superuser")
	}
}

// TestForeignPath: a connection that didn't get the search path, as behind a pooler that drops it, isn't used.
func TestForeignPath(t *testing.T) {
	s, conn := rights(t)
	must(t, conn, "ALTER ROLE intruder NOSUPERUSER")
	config, err := pgconn.ParseConfig(s.source() + " options='-c search_path=m,pg_catalog'")
	if err != nil {
		t.Fatal(err)
	}
	its, err := own.Connect(context.Background(), config, map[string]string{"search_path": "m"})
	if err != nil {
		t.Fatal(err)
	}
	defer its.Close(context.Background())
	if path, err := own.One(context.Background(), its, own.SQL("SELECT pg_catalog.current_setting('search_path')")); path != own.Path || err != nil {
		t.Errorf("the search path is %q (%v)", path, err)
	}
}

// TestInspector: the function that shows records of the log is called only if it is the extension's, whoever has made
// another one of that name, and whenever.
func TestInspector(t *testing.T) {
	const made = `CREATE FUNCTION %s.pg_get_wal_record_info(%s) RETURNS TABLE(description text) LANGUAGE plpgsql AS
		$$BEGIN ALTER ROLE intruder SUPERUSER; RETURN QUERY SELECT 'subxacts: 1'::text; END$$`
	const extension = "CREATE EXTENSION pg_walinspect SCHEMA public"
	for name, one := range map[string]struct {
		before, after string
		reason        string // of Inspects
	}{
		"no extension":        {fmt.Sprintf(made, "m", "pg_lsn"), "", "the extension pg_walinspect isn't created"},
		"a temporary one":     {fmt.Sprintf(made, "pg_temp", "pg_lsn"), "", "the extension pg_walinspect isn't created"},
		"before the real one": {fmt.Sprintf(made, "m", "pg_lsn"), extension, ""},
		"beside the real one": {"", extension + "; GRANT CREATE ON SCHEMA public TO intruder; SET ROLE intruder; " + fmt.Sprintf(made, "public", "text") + "; " +
			fmt.Sprintf(made, "public", "VARIADIC pg_lsn[]") + "; RESET ROLE", ""},
		"an extension of hers": {"", extension + "; UPDATE pg_extension SET extowner = 'intruder'::regrole WHERE extname = 'pg_walinspect'",
			"the extension pg_walinspect or its function doesn't belong to a superuser"},
		"in a schema of hers": {"", "CREATE EXTENSION pg_walinspect SCHEMA m",
			"the schema of the extension pg_walinspect doesn't belong to a superuser"},
		"in her database": {"", "CREATE EXTENSION pg_walinspect SCHEMA public; ALTER DATABASE postgres OWNER TO intruder",
			"the schema of the extension pg_walinspect doesn't belong to a superuser"},
		"a function of hers in the extension": {fmt.Sprintf(made, "m", "pg_lsn"), extension + ";" +
			"ALTER EXTENSION pg_walinspect DROP FUNCTION pg_get_wal_record_info(pg_lsn); ALTER EXTENSION pg_walinspect ADD FUNCTION m.pg_get_wal_record_info(pg_lsn)",
			"the extension pg_walinspect or its function doesn't belong to a superuser"},
	} {
		t.Run(name, func(t *testing.T) {
			s := startServer(t)
			ctx := context.Background()
			conn := s.connect(t)
			must(t, conn, "CREATE ROLE intruder LOGIN; CREATE SCHEMA m AUTHORIZATION intruder")
			its, err := pgconn.Connect(ctx, s.DSN("intruder", "postgres"))
			if err != nil {
				t.Fatal(err)
			}
			defer its.Close(ctx)
			must(t, its, one.before)
			must(t, conn, one.after)
			control, _, err := slot.NewControl(ctx, slot.Options{Source: s.source(), Settings: keys.SlotSettings(), Canonical: canonical})
			if err != nil {
				t.Fatal(err)
			}
			defer control.Close(ctx)
			if why := control.Inspects(ctx); why != one.reason {
				t.Errorf("subtransactions can't be looked up: %q", why)
			}
			must(t, conn, "CREATE TABLE t (id int)")
			from := must(t, conn, "SELECT pg_current_wal_insert_lsn()::pg_lsn - '0/0'::pg_lsn")[0][0]
			must(t, conn, "BEGIN; INSERT INTO t VALUES (1); SAVEPOINT s; INSERT INTO t VALUES (2); COMMIT")
			if one.reason == "" {
				place := must(t, conn, "SELECT start_lsn::pg_lsn - '0/0'::pg_lsn FROM public.pg_get_wal_records_info('0/0'::pg_lsn + "+from+
					", pg_current_wal_flush_lsn()) WHERE record_type = 'COMMIT' AND resource_manager = 'Transaction' AND description LIKE '%subxacts%'")
				var at uint64
				if _, err := fmt.Sscan(place[0][0], &at); err != nil {
					t.Fatal(err)
				}
				if subs, err := control.Subtransactions(ctx, []uint64{at}); err != nil || len(subs) != 1 || len(subs[0]) != 1 {
					t.Errorf("the subtransactions are %v (%v)", subs, err)
				}
			} else if _, err := control.Subtransactions(ctx, []uint64{1 << 20}); err == nil {
				t.Error("subtransactions were looked up")
			}
			if gained(t, conn) {
				t.Error("the intruder is a superuser")
			}
		})
	}
}
