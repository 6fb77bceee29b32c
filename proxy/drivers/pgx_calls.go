// Usual calls of pgx. Prints each answer.
package main

import (
	"context"
	"errors"
	"fmt"
	"os"
	"strings"
	"time"

	"github.com/jackc/pgconn"
	"github.com/jackc/pgtype"
	"github.com/jackc/pgx/v4"
	"github.com/jackc/pgx/v4/pgxpool"
)

var ctx = context.Background()

func must(err error) {
	if err != nil {
		fmt.Println("fault", err)
		os.Exit(1)
	}
}

func told(err error) {
	var its *pgconn.PgError
	if errors.As(err, &its) {
		fmt.Println(its.Code, its.Message, its.Detail, its.Hint, its.Position, its.ConstraintName)
	} else if err != nil {
		fmt.Println(err)
	}
}

func rows(r pgx.Rows, err error) {
	if err != nil {
		told(err)
		return
	}
	for _, f := range r.FieldDescriptions() {
		fmt.Print(string(f.Name), " ", f.DataTypeOID, " ", f.Format, "; ")
	}
	for r.Next() {
		for _, v := range r.RawValues() {
			fmt.Printf("%q ", v)
		}
	}
	fmt.Println(r.CommandTag())
	told(r.Err())
}

type asker interface {
	Query(ctx context.Context, sql string, args ...interface{}) (pgx.Rows, error)
	Exec(ctx context.Context, sql string, args ...interface{}) (pgconn.CommandTag, error)
}

func usual(c asker) {
	for i := 1; i < 7; i++ {
		rows(c.Query(ctx, "SELECT balance, id FROM account WHERE id = $1", i))
		rows(c.Query(ctx, "SELECT * FROM account WHERE id = ANY($1) ORDER BY id", []int32{int32(i), 30}))
		rows(c.Query(ctx, "UPDATE account SET balance = balance + 1 WHERE id = $1 RETURNING id, tags", i))
		rows(c.Query(ctx, "SELECT a.owner, e.* FROM account a JOIN entry e ON e.account = a.id WHERE a.id = $1 ORDER BY e.number", i))
		rows(c.Query(ctx, "SELECT owner, count(*) FROM account GROUP BY owner ORDER BY owner LIMIT $1", i))
		rows(c.Query(ctx, "SELECT nope FROM account WHERE id = $1", i))
		tag, err := c.Exec(ctx, "UPDATE account SET balance = balance + $1::int WHERE id = $2", 1, i)
		fmt.Println(tag, err)
		tag, err = c.Exec(ctx, "INSERT INTO entry VALUES ($1, 9, 1) ON CONFLICT (account, number) DO UPDATE SET amount = entry.amount + 1", i)
		fmt.Println(tag, err)
	}
}

func connect(change func(*pgx.ConnConfig)) *pgx.Conn {
	config, err := pgx.ParseConfig("")
	must(err)
	if change != nil {
		change(config)
	}
	c, err := pgx.ConnectConfig(ctx, config)
	must(err)
	return c
}

func transactions(c *pgx.Conn) {
	for _, level := range []pgx.TxIsoLevel{pgx.ReadCommitted, pgx.RepeatableRead, pgx.Serializable} {
		for _, mode := range []pgx.TxAccessMode{pgx.ReadWrite, pgx.ReadOnly} {
			tx, err := c.BeginTx(ctx, pgx.TxOptions{IsoLevel: level, AccessMode: mode})
			must(err)
			rows(tx.Query(ctx, "SELECT balance FROM account WHERE id = $1", 4))
			rows(tx.Query(ctx, "SELECT balance FROM account WHERE id = $1", 4000))
			inner, err := tx.Begin(ctx)
			must(err)
			_, err = inner.Exec(ctx, "UPDATE account SET balance = 0 WHERE id = $1", 4)
			told(err)
			told(inner.Rollback(ctx))
			if mode == pgx.ReadWrite {
				rows(tx.Query(ctx, "UPDATE account SET balance = balance + 1 WHERE id = $1 RETURNING balance", 4))
			}
			told(tx.Commit(ctx))
		}
	}
}

func batches(c *pgx.Conn) {
	for turn := 0; turn < 3; turn++ {
		var b pgx.Batch
		for i := 0; i < 5; i++ {
			b.Queue("SELECT balance, id FROM account WHERE id = $1", i)
			b.Queue("UPDATE account SET balance = balance + 1 WHERE id = $1", i)
			b.Queue("INSERT INTO journal (line) VALUES ($1) RETURNING id", "batched")
		}
		results := c.SendBatch(ctx, &b)
		for i := 0; i < b.Len(); i++ {
			rows(results.Query())
		}
		told(results.Close())
		b = pgx.Batch{}
		b.Queue("UPDATE account SET balance = 0 WHERE id = 1")
		b.Queue("INSERT INTO account VALUES (2, 'x')")
		b.Queue("SELECT id FROM account WHERE id = 1")
		results = c.SendBatch(ctx, &b)
		for i := 0; i < b.Len(); i++ {
			rows(results.Query())
		}
		told(results.Close())
	}
}

func copies(c *pgx.Conn) {
	n, err := c.CopyFrom(ctx, pgx.Identifier{"entry"}, []string{"account", "number"}, pgx.CopyFromRows([][]interface{}{{30, 1}, {31, 1}}))
	fmt.Println(n, err)
	n, err = c.CopyFrom(ctx, pgx.Identifier{"account"}, []string{"id", "owner"}, pgx.CopyFromRows([][]interface{}{{1, "again"}}))
	fmt.Println(n)
	told(err)
	var out strings.Builder
	tag, err := c.PgConn().CopyTo(ctx, &out, "COPY (SELECT id, owner FROM account WHERE id < 5 ORDER BY id) TO STDOUT CSV")
	fmt.Println(tag, err, out.String())
	tag, err = c.PgConn().CopyFrom(ctx, strings.NewReader("90\tx\n"), "COPY keyless FROM STDIN")
	fmt.Println(tag, err)
}

func definitions(c *pgx.Conn) {
	_, err := c.Prepare(ctx, "star", "SELECT * FROM account WHERE id = $1")
	must(err)
	for _, text := range []string{"ALTER TABLE account ADD COLUMN added int", "ALTER TABLE account ALTER COLUMN id TYPE bigint", "ALTER TABLE account DROP COLUMN added", "CREATE TEMP TABLE account AS SELECT 3 AS id, 4 AS balance",
		"DROP TABLE pg_temp.account", "SET search_path TO public", "RESET search_path", "SET timezone TO 'Asia/Tokyo'", "DEALLOCATE ALL"} {
		_, err := c.Exec(ctx, text)
		told(err)
		for i := 0; i < 3; i++ {
			rows(c.Query(ctx, "star", 3))
			rows(c.Query(ctx, "SELECT balance FROM account WHERE id = $1", 3))
		}
	}
}

func main() {
	c := connect(nil)
	usual(c)
	transactions(c)
	batches(c)
	simple := connect(func(config *pgx.ConnConfig) { config.PreferSimpleProtocol = true })
	usual(simple)
	transactions(simple)
	described := connect(func(config *pgx.ConnConfig) { config.BuildStatementCache = nil })
	usual(described)
	copies(c)
	results, err := c.PgConn().Exec(ctx, "SELECT id FROM account WHERE id < 3 ORDER BY id; UPDATE account SET balance = 1 WHERE id = 1; SELECT owner FROM account WHERE id = 4").ReadAll()
	for _, each := range results {
		fmt.Printf("%q %s\n", each.Rows, each.CommandTag)
	}
	told(err)
	for i := 0; i < 3; i++ {
		rows(c.Query(ctx, "SELECT id, owner FROM account WHERE id < 5 ORDER BY id", pgx.QueryResultFormats{pgx.BinaryFormatCode, pgx.TextFormatCode}))
		rows(c.Query(ctx, "SELECT id, owner FROM account WHERE id < 5 ORDER BY id", pgx.QuerySimpleProtocol(true)))
		var balance pgtype.Numeric
		var tags []*string
		told(c.QueryRow(ctx, "SELECT balance, tags FROM account WHERE id = 5").Scan(&balance, &tags))
		fmt.Println(balance.Int, balance.Exp, len(tags))
		told(c.QueryRow(ctx, "SELECT balance FROM account WHERE id = 5000").Scan(&balance))
		var long string
		told(c.QueryRow(ctx, "SELECT repeat('z', 2000000), id FROM account WHERE id = $1", 5).Scan(&long, nil))
		fmt.Println(len(long))
	}
	other := connect(nil)
	_, err = c.Exec(ctx, "LISTEN pgx_channel")
	told(err)
	_, err = other.Exec(ctx, "SELECT pg_notify('pgx_channel', 'hello')")
	told(err)
	heard, err := c.WaitForNotification(ctx)
	must(err)
	fmt.Println(heard.Channel, heard.Payload)
	go func() {
		for n := 0; n == 0; {
			must(other.QueryRow(ctx, "SELECT count(*) FROM pg_stat_activity WHERE wait_event = 'PgSleep' AND usename = current_user").Scan(&n))
		}
		must(c.PgConn().CancelRequest(ctx))
	}()
	_, err = c.Exec(ctx, "SELECT pg_sleep(100)")
	told(err)
	definitions(c)
	pool, err := pgxpool.Connect(ctx, "pool_max_conns=3")
	must(err)
	ended := make(chan error)
	for i := 40; i < 50; i++ {
		i := i
		go func() {
			ended <- pool.BeginFunc(ctx, func(tx pgx.Tx) error {
				var balance int
				if err := tx.QueryRow(ctx, "SELECT balance::int FROM account WHERE id = $1 FOR UPDATE", i).Scan(&balance); err != nil {
					return err
				}
				_, err := tx.Exec(ctx, "UPDATE account SET balance = $1 WHERE id = $2", balance+1, i)
				return err
			})
		}()
	}
	for i := 40; i < 50; i++ {
		told(<-ended)
	}
	rows(pool.Query(ctx, "SELECT id, balance FROM account WHERE id BETWEEN 40 AND 50 ORDER BY id"))
	short, cancel := context.WithTimeout(ctx, 200*time.Millisecond)
	_, err = pool.Exec(short, "SELECT pg_sleep(100)")
	fmt.Println(err != nil)
	cancel()
	pool.Close()
	must(c.Close(ctx))
	fmt.Println("end")
}
