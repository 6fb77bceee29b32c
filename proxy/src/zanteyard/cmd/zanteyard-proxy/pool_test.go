package main

import (
	"context"
	"encoding/json"
	"fmt"
	"math/rand"
	"sync"
	"testing"
	"time"

	"github.com/jackc/pgconn"
)

// metSince waits for a meeting that came after now.
func (p *program) metSince() {
	p.t.Helper()
	now := float64(time.Now().UnixMicro()) / 1e6
	fmt.Fprintln(p.say, `{"command":"round"}`)
	for {
		var it struct{ At float64 }
		if err := json.Unmarshal([]byte(p.until("meeting")), &it); err != nil {
			p.t.Fatal(err)
		}
		if it.At > now {
			return
		}
	}
}

// TestPoolWithFewSessions: of 40 connections of a pool six work at a time, others after each meeting. Eight sessions are
// enough for all that they do, though five times as many connections work in the end.
func TestPoolWithFewSessions(t *testing.T) {
	c := start(t)
	p := begin(t, c, "--sessions", "8")
	p.until(`["open",8,`)
	var all []*pgconn.PgConn
	for n := 0; n < 40; n++ {
		conn := p.connect()
		sql(t, conn, "SELECT balance FROM account WHERE id = 1") // the statement is tried
		all = append(all, conn)
	}
	p.metSince()
	before := p.counts()
	r := rand.New(rand.NewSource(1))
	done := uint64(0)
	for phase := 0; phase < 8; phase++ {
		var busy sync.WaitGroup
		for _, i := range r.Perm(len(all))[:6] {
			conn := all[i]
			busy.Add(1)
			go func() {
				defer busy.Done()
				for n := 0; n < 50; n++ {
					if _, err := conn.Exec(context.Background(), "SELECT balance FROM account WHERE id = 1").ReadAll(); err != nil {
						t.Error(err)
					}
				}
			}()
		}
		busy.Wait()
		done += 6 * 50
		p.metSince()
	}
	fmt.Fprintln(p.say, `{"command":"stop"}`)
	after := p.stopped()
	offered := after.Offered - after.Fences - (before.Offered - before.Fences)
	none := "its connection has no session"
	if left := after.Folded[none] - before.Folded[none]; left > 0 || offered < done/2 {
		t.Errorf("of %d transactions %d were offered, and %d left out for want of a session: %v", done, offered, left, after.Folded)
	}
	t.Logf("of %d transactions %d were offered: %v", done, offered, after.Folded)
}
