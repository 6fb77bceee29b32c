package slot

import (
	"context"
	"testing"

	"github.com/jackc/pgconn"
)

// TestInspectorReplaced: after the function of pg_walinspect was looked up, whoever owns its schema puts another one in
// its place. The planner runs that one, even if no row asks for it.
func TestInspectorReplaced(t *testing.T) {
	c := newServer(t)
	ctx := context.Background()
	run := func(user, text string) string {
		t.Helper()
		conn, err := pgconn.Connect(ctx, c.DSN(user, "postgres"))
		if err != nil {
			t.Fatal(err)
		}
		defer conn.Close(ctx)
		results, err := conn.Exec(ctx, text).ReadAll()
		if err != nil {
			t.Fatalf("%s: %v", text, err)
		}
		if last := results[len(results)-1]; len(last.Rows) == 1 {
			return string(last.Rows[0][0])
		}
		return ""
	}
	run("postgres", "CREATE ROLE intruder LOGIN; GRANT CREATE ON DATABASE postgres TO intruder; "+
		"CREATE SCHEMA w AUTHORIZATION intruder; CREATE EXTENSION pg_walinspect SCHEMA w")
	control, _, err := NewControl(ctx, Options{Source: c.DSN("postgres", "postgres"), Canonical: plain})
	if err != nil {
		t.Fatal(err)
	}
	defer control.Close(ctx)
	by, reason := control.inspector(ctx)
	run("intruder", `ALTER SCHEMA w RENAME TO gone; CREATE SCHEMA w;
		CREATE FUNCTION w.gain() RETURNS boolean LANGUAGE plpgsql AS $$BEGIN ALTER ROLE intruder SUPERUSER; RETURN true; END$$;
		CREATE FUNCTION w.e() RETURNS text IMMUTABLE LANGUAGE plpgsql AS $$BEGIN PERFORM w.gain(); RETURN 'subxacts: 1'; END$$;
		CREATE FUNCTION w.pg_get_wal_record_info(pg_lsn) RETURNS TABLE(description text) STABLE LANGUAGE sql AS 'SELECT w.e()'`)
	if reason == "" {
		control.commits(ctx, by, []uint64{1 << 20})
	}
	if run("postgres", "SELECT rolsuper FROM pg_roles WHERE rolname = 'intruder'") != "f" {
		t.Error("the schema's owner is a superuser")
	}
	if reason == "" {
		t.Error("the function is trusted")
	}
}
