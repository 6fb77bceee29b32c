package main

import (
	"context"
	"errors"
	"fmt"
	"strings"
	"sync"
	"testing"
	"time"

	"github.com/jackc/pgconn"

	"zanteyard/cluster"
)

// TestPoolerInFront: the clients of a pooler that shares two connections among them, in each of its three modes, are
// audited as two connections. How soon their statements are seen depends on how fast the machine is: one client goes on
// until enough is.
func TestPoolerInFront(t *testing.T) {
	c := start(t)
	p := begin(t, c)
	p.until(`["open"`)
	block := []string{"BEGIN", "SELECT balance FROM account WHERE id = 1", "UPDATE account SET balance = balance + 1 WHERE id = 1",
		"COMMIT"}
	done := 0
	for mode, texts := range map[string][]string{"session": block, "transaction": block, "statement": block[1:3]} {
		done += inFront(t, c, p, mode, texts)
		if got := sql(t, p.connect(), "SELECT balance FROM account WHERE id = 1"); got != fmt.Sprint(100+done) {
			t.Errorf("%s: the clients have counted up to %s", mode, got)
		}
	}
	fmt.Fprintln(p.say, `{"command":"stop"}`)
	at := p.stopped()
	t.Logf("offered %d, fences %d, folded %v, reads %+v", at.Offered, at.Fences, at.Folded, at.Reads)
	for reason := range at.Folded {
		if strings.Contains(reason, "pooler") {
			t.Error(reason)
		}
	}
}

// inFront has clients of a pooler run some statements until enough is seen, and returns how often they did.
func inFront(t *testing.T, c *cluster.Cluster, p *program, mode string, texts []string) int {
	port, stop, err := c.Pgbouncer(p.port, mode)
	if errors.Is(err, cluster.ErrNoPooler) {
		t.Skip(err)
	}
	if err != nil {
		t.Fatal(err)
	}
	defer stop()
	const clients, each, enough = 6, 10, 6
	before := p.counts()
	client := func(times int) {
		conn, err := pgconn.Connect(context.Background(),
			fmt.Sprintf("host=127.0.0.1 port=%d user=postgres dbname=postgres sslmode=disable", port))
		if err != nil {
			t.Error(err)
			return
		}
		defer conn.Close(context.Background())
		for n := 0; n < times; n++ {
			for _, text := range texts {
				if _, err := conn.Exec(context.Background(), text).ReadAll(); err != nil {
					t.Errorf("%s: %v", text, err)
					return
				}
			}
		}
	}
	var all sync.WaitGroup
	for i := 0; i < clients; i++ {
		all.Add(1)
		go func() {
			defer all.Done()
			client(each)
		}()
	}
	all.Wait()
	done := clients * each
	for end := time.Now().Add(5 * time.Minute); ; done += each {
		it := p.counts()
		if it.Offered-it.Fences >= before.Offered-before.Fences+enough && it.Reads.Seen >= before.Reads.Seen+enough {
			return done
		}
		if time.Now().After(end) {
			t.Fatalf("%s: too little was audited: %+v, and %+v before", mode, it, before)
		}
		client(each)
	}
}
