// Package own makes the audit's own connections to the server, and the texts that it sends there. They run with rights
// that the applications' roles don't have, so nothing in them may mean something that one of these roles has made: each
// connection begins with pg_catalog as its search path, and each text qualifies its names.
package own

import (
	"context"
	"errors"
	"fmt"
	"strings"

	"github.com/jackc/pgconn"
)

// Path is the search path of every connection of the audit's own.
const Path = "pg_catalog"

// ErrPath says that the server, or a pooler in front of it, doesn't begin a connection with the search path that was
// asked for.
var ErrPath = errors.New("own: a connection of the audit's own didn't get the search path that it asked for")

// ErrPooler says that what answers isn't a server.
var ErrPooler = errors.New("--server leads to a pooler such as pgbouncer, not to the server itself: the proxy has to stand between the " +
	"pooler and the server (application, pooler, proxy, server)")

// pooled reports whether an error is a pooler's: a server knows the settings that are sent.
func pooled(err error) bool {
	its, is := asError(err)
	return is && (strings.HasPrefix(its.Message, "unsupported startup parameter") ||
		its.Code == "08P01" && strings.Contains(its.Message, "replication"))
}

func asError(err error) (*pgconn.PgError, bool) {
	var its *pgconn.PgError
	return its, errors.As(err, &its)
}

var pathText = SQL("SELECT pg_catalog.current_setting('search_path')")

// Connect makes a connection of the audit's own. The settings are sent with the startup message, and count more than
// those of the configuration, the role and the database.
func Connect(ctx context.Context, config *pgconn.Config, settings map[string]string) (*pgconn.PgConn, error) {
	config = config.Copy()
	if config.RuntimeParams == nil {
		config.RuntimeParams = map[string]string{}
	}
	for name, value := range settings {
		config.RuntimeParams[name] = value
	}
	config.RuntimeParams["application_name"] = "zanteyard"
	config.RuntimeParams["search_path"] = Path
	// Limits of the role or the database are meant for its applications: a busy server is waited for (package join).
	config.RuntimeParams["statement_timeout"], config.RuntimeParams["lock_timeout"] = "0", "0"
	conn, err := pgconn.ConnectConfig(ctx, config)
	if pooled(err) {
		return nil, fmt.Errorf("%w: %v", ErrPooler, err)
	}
	if err != nil {
		return nil, err
	}
	if rows, err := Ask(ctx, conn, pathText); err != nil || len(rows) != 1 || rows[0][0] != Path {
		conn.Close(ctx)
		if err == nil {
			err = ErrPath
		}
		return nil, err
	}
	return conn, nil
}

// Ask runs a text, and returns its rows as texts. NULL is an empty text.
func Ask(ctx context.Context, conn *pgconn.PgConn, text Text) ([][]string, error) {
	results, err := conn.Exec(ctx, text.sql).ReadAll()
	if err != nil {
		return nil, err
	}
	if len(results) == 0 {
		return nil, nil
	}
	return rowsOf(results[len(results)-1])
}

// One returns the only value of a text's answer.
func One(ctx context.Context, conn *pgconn.PgConn, text Text) (string, error) {
	rows, err := Ask(ctx, conn, text)
	if err != nil {
		return "", err
	}
	if len(rows) != 1 || len(rows[0]) != 1 {
		return "", fmt.Errorf("unexpected form of the server's answer to %q", text.sql)
	}
	return rows[0][0], nil
}

// Prepare prepares a text, which AskPrepared runs.
func Prepare(ctx context.Context, conn *pgconn.PgConn, name string, text Text) error {
	_, err := conn.Prepare(ctx, name, text.sql, nil)
	return err
}

// Prepared is a prepared text by its name, with its parameters.
type Prepared struct {
	Name       string
	Parameters []string
}

// AskPrepared runs prepared texts in one transaction and one round trip, and returns the rows of each as texts.
func AskPrepared(ctx context.Context, conn *pgconn.PgConn, its ...Prepared) ([][][]string, error) {
	batch := &pgconn.Batch{}
	for _, one := range its {
		values := make([][]byte, len(one.Parameters))
		for i, value := range one.Parameters {
			values[i] = []byte(value)
		}
		batch.ExecPrepared(one.Name, values, nil, nil)
	}
	results, err := conn.ExecBatch(ctx, batch).ReadAll()
	if err != nil {
		return nil, err
	}
	all := make([][][]string, len(results))
	for i, one := range results {
		if all[i], err = rowsOf(one); err != nil {
			return nil, err
		}
	}
	if len(all) != len(its) {
		return nil, fmt.Errorf("the server answered %d of %d prepared statements", len(all), len(its))
	}
	return all, nil
}

func rowsOf(its *pgconn.Result) ([][]string, error) {
	if its.Err != nil {
		return nil, its.Err
	}
	rows := make([][]string, len(its.Rows))
	for i, row := range its.Rows {
		rows[i] = make([]string, len(row))
		for j, value := range row {
			rows[i][j] = string(value)
		}
	}
	return rows, nil
}
