package main

import (
	"errors"
	"fmt"
	"strings"
	"testing"

	"zanteyard/cluster"
)

// TestPoolerAsServer: an audit whose --server is a pooler says where the proxy has to stand, in each of the pooler's
// modes, and goes on passing statements on.
func TestPoolerAsServer(t *testing.T) {
	c := start(t)
	for _, mode := range []string{"session", "transaction", "statement"} {
		port, stop, err := c.Pgbouncer(c.Port, mode)
		if errors.Is(err, cluster.ErrNoPooler) {
			t.Skip(err)
		}
		if err != nil {
			t.Fatal(err)
		}
		t.Cleanup(stop)
		p := begin(t, c, "--server", fmt.Sprintf("host=127.0.0.1 port=%d user=postgres dbname=postgres sslmode=disable", port))
		if line := p.until("ended"); !strings.Contains(line, "the proxy has to stand between the pooler and the server") {
			t.Errorf("%s: %s", mode, line)
		}
		conn := p.connect()
		if got := sql(t, conn, "SELECT balance FROM account WHERE id = 1"); got != "100" {
			t.Errorf("%s: %s", mode, got)
		}
	}
}
