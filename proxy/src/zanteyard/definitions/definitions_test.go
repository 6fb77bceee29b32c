package definitions

import (
	"context"
	"errors"
	"fmt"
	"testing"
	"time"

	"github.com/jackc/pgconn"

	"zanteyard/cluster"
)

func TestPauses(t *testing.T) {
	const ms = time.Millisecond
	for _, x := range []struct{ every, took, whole, regular, urgent time.Duration }{
		{time.Second, ms, 30 * ms, time.Second, time.Second},
		{20 * ms, ms / 10, 10 * ms, 20 * ms, 20 * ms},
		{time.Second, 100 * ms, 900 * ms, 12500 * ms, time.Second}, // ten thousand partitions
		{time.Second, 500 * ms, 5 * time.Second, 62500 * ms, 5 * time.Second},
		{time.Minute, ms, 30 * ms, time.Minute, time.Second},
	} {
		regular, urgent := pauses(x.every, x.took, x.whole)
		if regular != x.regular || urgent != x.urgent {
			t.Errorf("%v, if looks take %v and the last %v: %v and %v", x.every, x.took, x.whole, regular, urgent)
		}
	}
	if got := shortest([]time.Duration{3 * ms, ms, 2 * ms}); got != ms {
		t.Errorf("the shortest is %v", got)
	}
}

func open(t *testing.T, every time.Duration) (*Definitions, *pgconn.PgConn) {
	t.Helper()
	c, err := cluster.Start(nil, nil)
	if errors.Is(err, cluster.ErrMissing) {
		t.Skip(err)
	}
	if err != nil {
		t.Fatal(err)
	}
	t.Cleanup(c.Stop)
	config, err := pgconn.ParseConfig(fmt.Sprintf("host=127.0.0.1 port=%d user=postgres dbname=postgres sslmode=disable", c.Port))
	if err != nil {
		t.Fatal(err)
	}
	conn, err := pgconn.ConnectConfig(context.Background(), config)
	if err != nil {
		t.Fatal(err)
	}
	t.Cleanup(func() { conn.Close(context.Background()) })
	return New(config, every, func(text string) { t.Log(text) }), conn
}

func sql(t *testing.T, conn *pgconn.PgConn, text string) {
	t.Helper()
	if _, err := conn.Exec(context.Background(), text).ReadAll(); err != nil {
		t.Fatalf("%s: %v", text, err)
	}
}

// TestTemporaryTables: what only one connection can see is no change of the catalog, whichever way it is made; a change
// of anything else is.
func TestTemporaryTables(t *testing.T) {
	d, conn := open(t, time.Hour)
	ctx := context.Background()
	own, err := pgconn.ConnectConfig(ctx, d.config)
	if err != nil {
		t.Fatal(err)
	}
	defer own.Close(ctx)
	looks := func() uint64 {
		t.Helper()
		if err := d.renew(ctx, own); err != nil {
			t.Fatal(err)
		}
		return d.loads.Load()
	}
	sql(t, conn, "CREATE TABLE t (id int PRIMARY KEY, v text)")
	was := looks()
	for _, text := range []string{"CREATE TEMP TABLE s (id int PRIMARY KEY, v text)", "INSERT INTO s VALUES (1, repeat('x', 9000))",
		"CREATE INDEX ON s (v)", "ALTER TABLE s ADD COLUMN w text", "CREATE TEMP TABLE IF NOT EXISTS s (id int)", "TRUNCATE s",
		"CREATE TEMP TABLE copied AS SELECT 1 AS a", "SELECT 1 AS a INTO TEMP other", "CREATE TEMP VIEW seen AS SELECT id FROM s",
		"CREATE TEMP SEQUENCE numbers", "DROP VIEW seen", "DROP TABLE s, copied, other", "DISCARD TEMP",
		"BEGIN; CREATE TEMP TABLE u (id int) ON COMMIT DROP; COMMIT"} {
		sql(t, conn, text)
		if now := looks(); now != was {
			t.Errorf("%s: the catalog was loaded", text)
			was = now
		}
	}
	for _, text := range []string{"CREATE TABLE u (id int)", "CREATE TABLE child (t int REFERENCES t)", "ALTER TABLE child DISABLE TRIGGER ALL",
		"ALTER TABLE child ENABLE TRIGGER ALL", "DROP TABLE child", "ALTER TABLE t ADD COLUMN w text", "CREATE INDEX ON t (v)", "GRANT SELECT ON t TO PUBLIC",
		"GRANT SELECT (xmin) ON t TO PUBLIC", "REVOKE SELECT (xmin) ON t FROM PUBLIC", "CREATE SCHEMA elsewhere", "CREATE FUNCTION f() RETURNS int LANGUAGE sql AS 'SELECT 1'", "CREATE ROLE somebody", "DROP TABLE u",
		"ALTER TABLE t RENAME TO pg_temp_t", "CREATE SCHEMA pgtemp_1", "ALTER TABLE pg_temp_t DROP CONSTRAINT t_pkey"} {
		sql(t, conn, text)
		now := looks()
		if now != was+1 {
			t.Errorf("%s: the catalog was loaded %d times", text, now-was)
		}
		was = now
	}
}

// TestLoadsAreFew: however many changes are reported, the catalog is loaded again only after a pause.
func TestLoadsAreFew(t *testing.T) {
	d, conn := open(t, time.Hour)
	ctx, cancel := context.WithCancel(context.Background())
	defer cancel()
	loaded, over := make(chan struct{}), make(chan struct{})
	go func() {
		defer close(over)
		d.Run(ctx, func() { close(loaded) })
	}()
	<-loaded
	began, at := time.Now(), d.loads.Load()
	for i := 0; d.loads.Load() < at+2; i++ {
		sql(t, conn, fmt.Sprintf("CREATE TABLE made%d (id int PRIMARY KEY)", i))
		d.Changed()
	}
	// The first of the two may have come at once, the second only after the pause.
	if took := time.Since(began); took < leastPause {
		t.Errorf("the catalog was loaded twice within %v", took)
	}
	cancel()
	<-over
}

// TestMade: what the audit has seen being made counts as known once a look has succeeded that began after that.
func TestMade(t *testing.T) {
	d, conn := open(t, time.Hour)
	ctx := context.Background()
	if made, seen := d.Made(); made != 0 || seen != 0 {
		t.Errorf("at first %d were made, and %d seen", made, seen)
	}
	for i, change := range []string{"SELECT 1", "CREATE SCHEMA made", "SELECT 1"} {
		sql(t, conn, change)
		d.Remade()
		if made, seen := d.Made(); made != uint64(i+1) || seen != uint64(i) {
			t.Errorf("before a look %d were made, and %d seen", made, seen)
		}
		loads := d.loads.Load()
		if err := d.renew(ctx, conn); err != nil {
			t.Fatal(err)
		}
		if made, seen := d.Made(); made != uint64(i+1) || seen != made {
			t.Errorf("after a look %d were made, and %d seen", made, seen)
		}
		if loaded := d.loads.Load() > loads; loaded != (i < 2) {
			t.Errorf("after %s: loaded %v", change, loaded)
		}
	}
	d.Remade()
	conn.Close(ctx)
	if err := d.renew(ctx, conn); err == nil {
		t.Error("a look without a connection has succeeded")
	}
	if made, seen := d.Made(); made != 4 || seen != 3 {
		t.Errorf("after a look that failed %d were made, and %d seen", made, seen)
	}
}

// TestLooksAtOnce: what the audit has seen being made is looked at at once. If anything has changed, it is loaded as seldom as always.
func TestLooksAtOnce(t *testing.T) {
	d, conn := open(t, time.Hour)
	ctx, cancel := context.WithCancel(context.Background())
	defer cancel()
	loaded := make(chan struct{})
	ended := make(chan struct{})
	go func() {
		d.Run(ctx, func() { close(loaded) })
		close(ended)
	}()
	<-loaded
	seen := func(what string) time.Duration {
		t.Helper()
		began := time.Now()
		d.Remade()
		for made, seen := d.Made(); seen < made; made, seen = d.Made() {
			if time.Since(began) > time.Minute {
				t.Fatalf("%s isn't looked at", what)
			}
			time.Sleep(time.Millisecond)
		}
		return time.Since(began)
	}
	for try := 0; seen("nothing") > leastPause/2; try++ { // a busy machine may take longer once
		if try == 20 {
			t.Fatal("nothing is looked at at once")
		}
	}
	for i := 0; i < 3; i++ {
		sql(t, conn, fmt.Sprint("CREATE SCHEMA made", i))
		before, at := d.loads.Load(), d.loadedAt()
		seen("a schema")
		if d.loads.Load() != before+1 || d.loadedAt().Sub(at) < leastPause {
			t.Errorf("loaded %d times, after %v", d.loads.Load()-before, d.loadedAt().Sub(at))
		}
	}
	cancel()
	<-ended
}

// loadedAt is when the catalog was loaded last.
func (d *Definitions) loadedAt() time.Time {
	d.lock.Lock()
	defer d.lock.Unlock()
	return d.read
}
