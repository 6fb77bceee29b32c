package cluster

import (
	"context"
	"fmt"

	"github.com/jackc/pgconn"

	"zanteyard/own"
)

// DSN is a connection string for a user and a database, by the server's socket.
func (c *Cluster) DSN(user, database string) string {
	return fmt.Sprintf("host=%s port=%d user=%s dbname=%s sslmode=disable", c.Dir, c.Port, user, database)
}

// Connect opens a connection as the superuser to the database postgres.
func (c *Cluster) Connect(ctx context.Context) (*pgconn.PgConn, error) {
	return pgconn.Connect(ctx, c.DSN("postgres", "postgres"))
}

// Rows runs statements, and returns the rows of all of them as texts.
func Rows(ctx context.Context, conn *pgconn.PgConn, sql string) ([][]string, error) {
	results, err := conn.Exec(ctx, sql).ReadAll()
	if err != nil {
		return nil, err
	}
	var rows [][]string
	for _, result := range results {
		for _, values := range result.Rows {
			row := make([]string, len(values))
			for i, value := range values {
				row[i] = string(value)
			}
			rows = append(rows, row)
		}
	}
	return rows, nil
}

// Query returns a function for catalog.Load.
func Query(ctx context.Context, conn *pgconn.PgConn) func(own.Text) ([][]string, error) {
	return func(text own.Text) ([][]string, error) { return own.Ask(ctx, conn, text) }
}
