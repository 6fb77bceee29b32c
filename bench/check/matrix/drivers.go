// pgx and lib/pq as clients of bench/check/proxy_matrix.py: drivers pgx|pq PORT. See clients.py.
package main

import (
	"bufio"
	"context"
	"database/sql"
	"encoding/json"
	"errors"
	"fmt"
	"os"
	"strings"
	"time"

	"github.com/jackc/pgconn"
	"github.com/jackc/pgx/v4"
	"github.com/lib/pq"
)

const (
	ask   = "SELECT n FROM matrix WHERE id = $1"
	sleep = "SELECT pg_sleep(60)"
	after = 500 * time.Millisecond
	rows  = 100
	pause = 100 * time.Millisecond
)

type client interface {
	connect(where string) error
	close() error
	ask(ctx context.Context) (string, error)
	run(ctx context.Context, text string) error
	copy(ctx context.Context) error
}

// slow gives a COPY's rows.
type slow struct{ left int }

func (s *slow) Read(to []byte) (int, error) {
	time.Sleep(pause)
	if s.left--; s.left < 0 {
		return 0, errors.New("all were sent")
	}
	return copy(to, "1\n"), nil
}

type byPgx struct{ conn *pgx.Conn }

func (c *byPgx) connect(where string) (err error) {
	c.conn, err = pgx.Connect(context.Background(), where)
	return err
}

func (c *byPgx) close() error {
	if c.conn == nil {
		return nil
	}
	return c.conn.Close(context.Background())
}

func (c *byPgx) ask(ctx context.Context) (string, error) {
	var n int
	err := c.conn.QueryRow(ctx, ask, 1).Scan(&n)
	return fmt.Sprint(n), err
}

func (c *byPgx) run(ctx context.Context, text string) error {
	_, err := c.conn.Exec(ctx, text)
	return err
}

func (c *byPgx) copy(ctx context.Context) error {
	_, err := c.conn.PgConn().CopyFrom(ctx, &slow{rows}, "COPY copied (id) FROM STDIN")
	return err
}

type byPq struct {
	pool *sql.DB
	conn *sql.Conn
}

func (c *byPq) connect(where string) (err error) {
	if c.pool, err = sql.Open("postgres", where); err != nil {
		return err
	}
	if c.conn, err = c.pool.Conn(context.Background()); err != nil {
		return err
	}
	return c.conn.PingContext(context.Background())
}

func (c *byPq) close() error {
	if c.conn == nil {
		return nil
	}
	c.conn.Close()
	return c.pool.Close()
}

func (c *byPq) ask(ctx context.Context) (string, error) {
	var n int
	err := c.conn.QueryRowContext(ctx, ask, 1).Scan(&n)
	return fmt.Sprint(n), err
}

func (c *byPq) run(ctx context.Context, text string) error {
	_, err := c.conn.ExecContext(ctx, text)
	return err
}

func (c *byPq) copy(ctx context.Context) error {
	tx, err := c.conn.BeginTx(ctx, nil)
	if err != nil {
		return err
	}
	defer tx.Rollback()
	its, err := tx.Prepare(pq.CopyIn("copied", "id"))
	if err != nil {
		return err
	}
	for i := 0; i < rows; i++ {
		if _, err := its.Exec(1); err != nil {
			return err
		}
		time.Sleep(pause)
	}
	_, err = its.Exec()
	return err
}

func call(c client, name, port string) (string, error) {
	ctx := context.Background()
	where := "host=127.0.0.1 port=" + port + " user=postgres dbname=postgres sslmode="
	switch name {
	case "connect":
		return "", c.connect(where + "disable")
	case "connect_tls":
		return "", c.connect(where + "require")
	case "close":
		return "", c.close()
	case "ask":
		return c.ask(ctx)
	case "begin":
		return "", c.run(ctx, "BEGIN")
	case "write":
		return "", c.run(ctx, fmt.Sprintf("UPDATE matrix SET n = n + 1 WHERE id = %d", 2+os.Getpid()%1000))
	case "commit":
		return "", c.run(ctx, "COMMIT")
	case "sleep":
		return "", c.run(ctx, sleep)
	case "cancelled":
		ctx, cancel := context.WithTimeout(ctx, after)
		defer cancel()
		return "", c.run(ctx, sleep)
	case "copy":
		return "", c.copy(ctx)
	}
	return "", errors.New(name)
}

func main() {
	var c client = &byPgx{}
	if os.Args[1] == "pq" {
		c = &byPq{}
	}
	lines := bufio.NewScanner(os.Stdin)
	for lines.Scan() {
		its := map[string]any{}
		value, err := call(c, strings.TrimSpace(lines.Text()), os.Args[2])
		var one *pgconn.PgError
		var other *pq.Error
		switch {
		case err == nil:
			its["ok"] = value
		case errors.As(err, &one):
			its["error"], its["state"], its["text"] = "PgError", one.Code, one.Message
		case errors.As(err, &other):
			its["error"], its["state"], its["text"] = "pq.Error", string(other.Code), other.Message
		default:
			its["error"], its["state"], its["text"] = fmt.Sprintf("%T", err), nil, err.Error()
		}
		json.NewEncoder(os.Stdout).Encode(its)
	}
}
