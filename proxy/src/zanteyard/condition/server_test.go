package condition_test

import (
	"context"
	"errors"
	"fmt"
	"os"
	"sort"
	"strings"
	"testing"

	"github.com/jackc/pgconn"

	"zanteyard/catalog"
	"zanteyard/cluster"
	"zanteyard/condition"
	"zanteyard/plan"
	"zanteyard/record"
)

// server is shared by this package's tests; nil if PostgreSQL isn't installed.
var server *cluster.Cluster

func TestMain(m *testing.M) {
	started, err := cluster.Start([]string{"autovacuum=off"}, nil)
	if err != nil && !errors.Is(err, cluster.ErrMissing) {
		fmt.Fprintln(os.Stderr, err)
		os.Exit(1)
	}
	server = started
	status := m.Run()
	if server != nil {
		server.Stop()
	}
	os.Exit(status)
}

// open returns a connection to a new database with a schema, and what is in its catalog.
func open(t testing.TB, database, schema string) (*pgconn.PgConn, *catalog.Catalog) {
	t.Helper()
	if server == nil {
		t.Skip(cluster.ErrMissing)
	}
	ctx := context.Background()
	first, err := server.Connect(ctx)
	if err != nil {
		t.Fatal(err)
	}
	defer first.Close(ctx)
	rows(t, first, "CREATE DATABASE "+database)
	conn, err := pgconn.Connect(ctx, server.DSN("postgres", database))
	if err != nil {
		t.Fatal(err)
	}
	t.Cleanup(func() { conn.Close(ctx) })
	rows(t, conn, schema)
	return conn, load(t, conn)
}

// load reads the catalog for a connection that has the search path public.
func load(t testing.TB, conn *pgconn.PgConn) *catalog.Catalog {
	t.Helper()
	all, err := catalog.Load(context.Background(), cluster.Query(context.Background(), conn))
	if err != nil {
		t.Fatal(err)
	}
	return in(t, all, `["public"]`)
}

func in(t testing.TB, all *catalog.Catalog, path string) *catalog.Catalog {
	t.Helper()
	its, err := all.In(path)
	if err != nil {
		t.Fatal(err)
	}
	return its
}

func rows(t testing.TB, conn *pgconn.PgConn, sql string) [][]string {
	t.Helper()
	its, err := cluster.Rows(context.Background(), conn, sql)
	if err != nil {
		t.Fatalf("%s: %v", sql, err)
	}
	return its
}

// parsed is the only statement of a text.
func parsed(t testing.TB, sql string) (map[string]any, error) {
	t.Helper()
	stmts, err := plan.Parse(sql)
	if err != nil || len(stmts) != 1 {
		return nil, fmt.Errorf("%s: %d statements, %v", sql, len(stmts), err)
	}
	return stmts[0], nil
}

// form makes the form of a statement.
func form(t testing.TB, c *catalog.Catalog, sql string) (*condition.Form, error) {
	t.Helper()
	stmt, err := parsed(t, sql)
	if err != nil {
		t.Fatal(err)
	}
	return condition.Make(stmt, sql, c)
}

// made makes the condition of a statement.
func made(t testing.TB, c *catalog.Catalog, sql string, with condition.Arguments) (*condition.Condition, error) {
	t.Helper()
	its, err := form(t, c, sql)
	if err != nil {
		return nil, err
	}
	return its.Bind(with)
}

// found returns the conditions that an index has for rows, in order.
func found(index *condition.Index, table uint32, rows ...*condition.Row) string {
	var all []string
	index.Candidates(record.Relation(table), func(its *condition.Condition) {
		all = append(all, strings.TrimPrefix(its.String(), "r WHERE "))
	}, rows...)
	sort.Strings(all)
	return strings.Join(all, ", ")
}
