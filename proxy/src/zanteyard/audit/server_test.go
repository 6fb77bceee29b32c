package audit

import (
	"context"
	"errors"
	"testing"

	"github.com/jackc/pgconn"

	"zanteyard/cluster"
)

// server is a PostgreSQL of the test's own.
type server struct{ *cluster.Cluster }

// startServer starts a server that ends with the test, or skips the test if PostgreSQL isn't installed.
func startServer(t testing.TB, settings ...string) *server {
	t.Helper()
	it, err := cluster.Start(append([]string{"autovacuum=off"}, settings...), nil)
	if errors.Is(err, cluster.ErrMissing) {
		t.Skip(err)
	}
	if err != nil {
		t.Fatal(err)
	}
	t.Cleanup(it.Stop)
	return &server{it}
}

func (s *server) source() string { return s.DSN("postgres", "postgres") }

func (s *server) connect(t testing.TB) *pgconn.PgConn {
	t.Helper()
	conn, err := s.Connect(context.Background())
	if err != nil {
		t.Fatal(err)
	}
	t.Cleanup(func() { conn.Close(context.Background()) })
	return conn
}

// rowsOf runs statements, and returns the last one's rows as text.
func rowsOf(conn *pgconn.PgConn, sql string) ([][]string, error) {
	results, err := conn.Exec(context.Background(), sql).ReadAll()
	if err != nil || len(results) == 0 {
		return nil, err
	}
	var rows [][]string
	for _, row := range results[len(results)-1].Rows {
		texts := make([]string, len(row))
		for i, value := range row {
			texts[i] = string(value)
		}
		rows = append(rows, texts)
	}
	return rows, nil
}

func must(t testing.TB, conn *pgconn.PgConn, sql string) [][]string {
	t.Helper()
	rows, err := rowsOf(conn, sql)
	if err != nil {
		t.Fatalf("%s: %v", sql, err)
	}
	return rows
}
