// Each way to set an isolation level that pgx has; levels.py says what it reads and prints.
package main

import (
	"bufio"
	"context"
	"fmt"
	"os"
	"strconv"
	"strings"

	"github.com/jackc/pgx/v4"
)

var ctx = context.Background()

func must(err error) {
	if err != nil {
		fmt.Println("fault", err)
		os.Exit(1)
	}
}

func connect(user string, settings ...string) *pgx.Conn {
	config, err := pgx.ParseConfig("sslmode=disable user=" + user)
	must(err)
	for i := 0; i < len(settings); i += 2 {
		config.RuntimeParams[settings[i]] = settings[i+1]
	}
	its, err := pgx.ConnectConfig(ctx, config)
	must(err)
	return its
}

func read(its *pgx.Conn, number int) {
	for _, id := range []int{number, number + 100} {
		var got int
		if err := its.QueryRow(ctx, "SELECT id FROM way WHERE id = $1", id).Scan(&got); err != pgx.ErrNoRows {
			must(err)
		}
	}
	var level string
	must(its.QueryRow(ctx, "SHOW transaction_isolation").Scan(&level))
	fmt.Println(number, level)
}

func own(its *pgx.Conn) {
	for i, level := range []pgx.TxIsoLevel{pgx.ReadCommitted, pgx.RepeatableRead, pgx.Serializable} {
		tx, err := its.BeginTx(ctx, pgx.TxOptions{IsoLevel: level})
		must(err)
		read(its, 50+i)
		must(tx.Commit(ctx))
	}
}

func main() {
	user := os.Getenv("PGUSER")
	connections := map[string]*pgx.Conn{"plain": connect(user), "role": connect(user + "_role"),
		"options": connect(user, "options", "-c default_transaction_isolation=serializable")}
	another := connect(user)
	for lines := bufio.NewScanner(os.Stdin); lines.Scan(); fmt.Println("done") {
		if lines.Text() == "own" {
			own(another)
			continue
		}
		parts := strings.SplitN(lines.Text(), " ", 3)
		its := connections[parts[0]]
		for _, text := range strings.Split(parts[2], "; ") {
			_, err := its.Exec(ctx, text)
			must(err)
		}
		number, err := strconv.Atoi(parts[1])
		must(err)
		read(its, number)
		_, err = its.Exec(ctx, "COMMIT")
		must(err)
	}
}
