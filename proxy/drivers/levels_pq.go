// Each way to set an isolation level that lib/pq has; levels.py says what it reads and prints.
package main

import (
	"bufio"
	"context"
	"database/sql"
	"fmt"
	"os"
	"strconv"
	"strings"

	_ "github.com/lib/pq"
)

var ctx = context.Background()

func must(err error) {
	if err != nil {
		fmt.Println("fault", err)
		os.Exit(1)
	}
}

func connect(user, more string) *sql.Conn {
	db, err := sql.Open("postgres", "sslmode=disable user="+user+" "+more)
	must(err)
	its, err := db.Conn(ctx)
	must(err)
	return its
}

type queries interface {
	QueryRowContext(context.Context, string, ...any) *sql.Row
}

func read(its queries, number int) {
	for _, id := range []int{number, number + 100} {
		var got int
		if err := its.QueryRowContext(ctx, "SELECT id FROM way WHERE id = $1", id).Scan(&got); err != sql.ErrNoRows {
			must(err)
		}
	}
	var level string
	must(its.QueryRowContext(ctx, "SHOW transaction_isolation").Scan(&level))
	fmt.Println(number, level)
}

func own(its *sql.Conn) {
	for i, level := range []sql.IsolationLevel{sql.LevelReadCommitted, sql.LevelRepeatableRead, sql.LevelSerializable} {
		tx, err := its.BeginTx(ctx, &sql.TxOptions{Isolation: level})
		must(err)
		read(tx, 50+i)
		must(tx.Commit())
	}
}

func main() {
	user := os.Getenv("PGUSER")
	connections := map[string]*sql.Conn{"plain": connect(user, ""), "role": connect(user+"_role", ""),
		"options": connect(user, "options='-c default_transaction_isolation=serializable'")}
	another, setting := connect(user, ""), connect(user, "default_transaction_isolation=serializable")
	for lines := bufio.NewScanner(os.Stdin); lines.Scan(); fmt.Println("done") {
		if lines.Text() == "own" {
			own(another)
			tx, err := setting.BeginTx(ctx, nil)
			must(err)
			read(tx, 60)
			must(tx.Commit())
			continue
		}
		parts := strings.SplitN(lines.Text(), " ", 3)
		its := connections[parts[0]]
		for _, text := range strings.Split(parts[2], "; ") {
			_, err := its.ExecContext(ctx, text)
			must(err)
		}
		number, err := strconv.Atoi(parts[1])
		must(err)
		read(its, number)
		_, err = its.ExecContext(ctx, "COMMIT")
		must(err)
	}
}
