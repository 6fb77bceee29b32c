package main

import (
	"fmt"
	"testing"
)

// TestIdleStaysIdle: a connection that its client doesn't use looks idle to the server, however many meetings there are.
func TestIdleStaysIdle(t *testing.T) {
	c := start(t)
	p := begin(t, c, "--between", "10ms")
	p.until(`["open"`)
	idle, busy, beside := p.connect(), p.connect(), connectTo(t, c)
	process := sql(t, idle, "SELECT pg_backend_pid()")
	for i := 0; i < 3; i++ {
		sql(t, idle, "SELECT balance FROM account WHERE id = 1")
	}
	state := func() string {
		return sql(t, beside, "SELECT concat_ws(' ', state, state_change, query) FROM pg_stat_activity WHERE pid = "+process)
	}
	for tries := 0; ; tries++ {
		before := state()
		for meetings := 0; meetings < 5; meetings++ {
			sql(t, busy, "UPDATE account SET balance = balance + 1 WHERE id = 2")
			fmt.Fprintln(p.say, `{"command":"round"}`)
			p.until("meeting")
		}
		after := state()
		if before == after {
			return
		}
		if tries == 20 { // what was still to be tried on the connection has been by now
			t.Fatalf("an idle connection was %q, and is %q", before, after)
		}
	}
}
