// Usual calls of lib/pq. Prints each answer.
package main

import (
	"context"
	"database/sql"
	"errors"
	"fmt"
	"os"
	"time"

	"github.com/lib/pq"
)

func must(err error) {
	if err != nil {
		fmt.Println("fault", err)
		os.Exit(1)
	}
}

func told(err error) {
	var its *pq.Error
	if errors.As(err, &its) {
		fmt.Println(its.Code, its.Message, its.Detail, its.Hint, its.Position, its.Constraint)
	} else if err != nil {
		fmt.Println(err)
	}
}

func rows(r *sql.Rows, err error) {
	if err != nil {
		told(err)
		return
	}
	defer r.Close()
	for more := true; more; more = r.NextResultSet() {
		names, _ := r.ColumnTypes()
		for _, each := range names {
			fmt.Print(each.Name(), " ", each.DatabaseTypeName(), "; ")
		}
		values, at := make([]interface{}, len(names)), make([]interface{}, len(names))
		for i := range values {
			at[i] = &values[i]
		}
		for r.Next() {
			told(r.Scan(at...))
			for _, v := range values {
				fmt.Printf("%v ", v)
			}
		}
		fmt.Println()
	}
	told(r.Err())
}

func done(r sql.Result, err error) {
	if err != nil {
		told(err)
		return
	}
	n, err := r.RowsAffected()
	fmt.Println(n, err)
}

type asker interface {
	Query(query string, args ...interface{}) (*sql.Rows, error)
	Exec(query string, args ...interface{}) (sql.Result, error)
	Prepare(query string) (*sql.Stmt, error)
}

func usual(c asker) {
	st, err := c.Prepare("SELECT balance, owner FROM account WHERE id = $1")
	must(err)
	defer st.Close()
	change, err := c.Prepare("UPDATE account SET balance = balance + $1 WHERE id = $2")
	must(err)
	defer change.Close()
	for i := 1; i < 7; i++ {
		rows(st.Query(i))
		done(change.Exec(1, i))
		rows(c.Query("SELECT * FROM account WHERE id = $1", i))
		rows(c.Query("SELECT id, owner FROM account WHERE id < 4 ORDER BY id"))
		rows(c.Query("SELECT id FROM account WHERE id = ANY($1) ORDER BY id", pq.Array([]int{i, 30})))
		rows(c.Query("INSERT INTO journal (line) VALUES ($1) RETURNING id", "line"))
		rows(c.Query("SELECT count(*), sum(amount) FROM entry WHERE account = $1", i))
		rows(c.Query("SELECT id, row_number() OVER (ORDER BY id DESC) FROM account WHERE id < $1 ORDER BY id", i))
		done(c.Exec("UPDATE account SET balance = 3 WHERE id = 3"))
		done(c.Exec("DELETE FROM entry WHERE account = $1 AND number = 2", i))
		done(c.Exec("INSERT INTO entry VALUES ($1, 9) ON CONFLICT DO NOTHING", i))
	}
}

func wrong(db *sql.DB) {
	for _, text := range []string{"SELECT nope FROM account", "SELECT 'ü', id, nope FROM account WHERE id = 1", "INSERT INTO account VALUES (1, 'x')", "SELECT 1/0, id FROM account", "SELEC", "UPDATE account SET owner = NULL WHERE id = 2",
		"SELECT id FROM account WHERE id = 1; SELECT owner FROM account WHERE id = 1", "SELECT id FROM account WHERE id = 1; SELECT nope FROM account"} {
		for i := 0; i < 3; i++ {
			rows(db.Query(text))
			done(db.Exec(text))
		}
	}
	rows(db.Query("SELECT nope FROM account WHERE id = $1", 1))
	rows(db.Query("SELECT owner FROM account WHERE id = $1", "x"))
	rows(db.Query("SELECT owner FROM account WHERE id = $1", 1, 2))
}

func copies(db *sql.DB, keys ...int) {
	tx, err := db.Begin()
	must(err)
	st, err := tx.Prepare(pq.CopyIn("entry", "account", "number"))
	must(err)
	for _, key := range keys {
		_, err = st.Exec(key, 1)
		must(err)
	}
	done(st.Exec())
	told(st.Close())
	told(tx.Commit())
}

func main() {
	ctx := context.Background()
	for _, source := range []string{"", "binary_parameters=yes"} {
		db, err := sql.Open("postgres", source)
		must(err)
		db.SetMaxOpenConns(1)
		usual(db)
		wrong(db)
		for _, level := range []sql.IsolationLevel{sql.LevelReadCommitted, sql.LevelRepeatableRead, sql.LevelSerializable} {
			for _, ends := range []func(*sql.Tx) error{(*sql.Tx).Commit, (*sql.Tx).Rollback} {
				tx, err := db.BeginTx(ctx, &sql.TxOptions{Isolation: level})
				must(err)
				usual(tx)
				done(tx.Exec("SAVEPOINT a"))
				rows(tx.Query("INSERT INTO account VALUES (1, 'x')"))
				done(tx.Exec("ROLLBACK TO a"))
				rows(tx.Query("SELECT balance FROM account WHERE id = $1", 4000))
				rows(tx.Query("SELECT balance FROM account WHERE id = $1 FOR UPDATE", 4))
				told(ends(tx))
			}
		}
		copies(db, 40, 41)
		copies(db, 41, 42)
		copies(db, 4000)
		star, err := db.Prepare("SELECT * FROM account WHERE id = $1")
		must(err)
		for _, text := range []string{"ALTER TABLE account ADD COLUMN added int", "ALTER TABLE account DROP COLUMN added", "CREATE TEMP TABLE account (id int)", "DROP TABLE pg_temp.account", "SET search_path TO public", "RESET search_path",
			"SET timezone TO 'Asia/Tokyo'", "DISCARD ALL"} {
			done(db.Exec(text))
			for i := 0; i < 3; i++ {
				rows(star.Query(3))
				rows(db.Query("SELECT owner FROM account WHERE id = $1", 3))
			}
		}
		done(db.Exec("DELETE FROM entry WHERE account IN (40, 41)"))
		long := ""
		for i := 0; i < 3; i++ {
			told(db.QueryRow("SELECT repeat('z', 2000000) FROM account WHERE id = $1", 5).Scan(&long))
			fmt.Println(len(long))
			rows(db.Query("SELECT id, body FROM blob ORDER BY id"))
		}
		short, cancel := context.WithTimeout(ctx, 300*time.Millisecond)
		_, err = db.ExecContext(short, "SELECT pg_sleep(100)")
		fmt.Println(err != nil)
		cancel()
		rows(db.Query("SELECT owner FROM account WHERE id = $1", 3))
		must(db.Close())
	}
	db, err := sql.Open("postgres", "")
	must(err)
	listener := pq.NewListener("", time.Second, time.Minute, nil)
	must(listener.Listen("pq_channel"))
	done(db.Exec("NOTIFY pq_channel, 'hello'"))
	fmt.Println((<-listener.Notify).Extra)
	must(listener.Close())
	fmt.Println("end")
}
