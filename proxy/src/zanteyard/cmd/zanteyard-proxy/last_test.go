package main

import (
	"fmt"
	"path/filepath"
	"syscall"
	"testing"
)

// TestLastRound: a proxy that is told to end goes on without clients until its parent has had its last round, or wants
// none. Service managers send the signal to both.
func TestLastRound(t *testing.T) {
	c := start(t)
	for _, wants := range []bool{true, false} {
		path := filepath.Join(folder(t), "control")
		s := serveAt(t, c, freePort(t), "--control", path)
		parent := attach(t, path, "attach")
		parent.until("started")
		busy := s.connect()
		sql(t, busy, "SELECT 1")
		s.signals <- syscall.SIGTERM
		parent.until("drained")
		if wants {
			fmt.Fprintln(parent, `{"command":"stop"}`)
			parent.until(`["round",`)
			parent.until("stopped")
			fmt.Fprintln(parent, `{"command":"describe","id":7,"transactions":[[0,0]]}`)
			parent.until("transactions")
			parent.Conn.Close()
		} else {
			fmt.Fprintln(parent, `{"command":"leave"}`)
			parent.until("ended")
		}
		if err := <-s.ended; err != nil {
			t.Error(err)
		}
	}
}
