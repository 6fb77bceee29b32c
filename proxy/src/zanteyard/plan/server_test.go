package plan

import (
	"context"
	"errors"
	"fmt"
	"os"
	"testing"

	"github.com/jackc/pgconn"

	"zanteyard/catalog"
	"zanteyard/cluster"
)

// server is shared by this package's tests; nil if PostgreSQL isn't installed.
var server *cluster.Cluster

func TestMain(m *testing.M) {
	started, err := cluster.Start([]string{"autovacuum=off"}, nil)
	if err != nil && !errors.Is(err, cluster.ErrMissing) {
		fmt.Fprintln(os.Stderr, err)
		os.Exit(1)
	}
	server = started
	status := m.Run()
	if server != nil {
		server.Stop()
	}
	os.Exit(status)
}

// connect returns a connection to a new database with a schema.
func connect(t testing.TB, database, schema string) *pgconn.PgConn {
	t.Helper()
	if server == nil {
		t.Skip(cluster.ErrMissing)
	}
	ctx := context.Background()
	first, err := server.Connect(ctx)
	if err != nil {
		t.Fatal(err)
	}
	run(t, first, "CREATE DATABASE "+database)
	first.Close(ctx)
	connection := again(t, "postgres", database)
	run(t, connection, schema)
	return connection
}

// again returns another connection to a database.
func again(t testing.TB, user, database string) *pgconn.PgConn {
	t.Helper()
	ctx := context.Background()
	connection, err := pgconn.Connect(ctx, server.DSN(user, database))
	if err != nil {
		t.Fatal(err)
	}
	t.Cleanup(func() { connection.Close(ctx) })
	return connection
}

func run(t testing.TB, connection *pgconn.PgConn, sql string) []*pgconn.Result {
	t.Helper()
	results, err := connection.Exec(context.Background(), sql).ReadAll()
	if err != nil {
		t.Fatalf("%s: %v", sql, err)
	}
	return results
}

func load(t testing.TB, connection *pgconn.PgConn, options ...catalog.Option) *catalog.Catalog {
	t.Helper()
	ctx := context.Background()
	c, err := catalog.Load(ctx, cluster.Query(ctx, connection), options...)
	if err != nil {
		t.Fatal(err)
	}
	if c, err = c.In(string(run(t, connection, catalog.PathSQL)[0].Rows[0][0])); err != nil {
		t.Fatal(err)
	}
	return c
}

func ctx() context.Context { return context.Background() }
