package main

import (
	"context"
	"encoding/json"
	"fmt"
	"path/filepath"
	"strings"
	"sync"
	"testing"
	"time"

	"github.com/jackc/pgconn"
)

// ended is how many transactions a line of the feed counts: those of an audit, or those before it.
type ended struct {
	Event             string
	Unaudited, Untold uint64
	Totals            struct {
		Transactions struct {
			All        uint64
			RolledBack uint64 `json:"rolled_back"`
		}
	}
}

// last reads up to an event, and returns the last ones of this kind.
func (its *attached) last(until, kind string) (found ended) {
	its.t.Helper()
	for timeout := time.After(5 * time.Minute); ; {
		select {
		case line, ok := <-its.lines:
			var one ended
			if !ok {
				its.t.Fatalf("the proxy is gone before %s", until)
			}
			if !strings.HasPrefix(line, "{") || json.Unmarshal([]byte(line), &one) != nil {
				continue
			}
			if one.Event == kind {
				found = one
			}
			if one.Event == until {
				return found
			}
		case <-timeout:
			its.t.Fatalf("there is no %s", until)
		}
	}
}

// busy are clients of a proxy that make transactions until they are told to end.
type busy struct {
	t    *testing.T
	stop chan struct{}
	all  sync.WaitGroup
	lock sync.Mutex
	done uint64
}

func (b *busy) client(conn *pgconn.PgConn, id int) {
	defer b.all.Done()
	for i := 0; ; i++ {
		select {
		case <-b.stop:
			return
		default:
		}
		text := fmt.Sprintf("UPDATE account SET balance = balance WHERE id = %d", id)
		if i%5 == 0 {
			text = "BEGIN; " + text + "; ROLLBACK"
		}
		if _, err := conn.Exec(context.Background(), text).ReadAll(); err != nil {
			b.t.Error(err)
			return
		}
		b.lock.Lock()
		b.done++
		b.lock.Unlock()
	}
}

func (b *busy) count() uint64 {
	b.lock.Lock()
	defer b.lock.Unlock()
	return b.done
}

// TestKilledAuditsAreCounted: programs that audit are killed at any moment, with clients at work. Each transaction is then
// in one place: in the last audit, in one whose program was killed, or while there was none. One that was told to stop has
// told what it had.
func TestKilledAuditsAreCounted(t *testing.T) {
	c := start(t)
	path := filepath.Join(folder(t), "control")
	s := serveAt(t, c, freePort(t), "--control", path)
	b := &busy{t: t, stop: make(chan struct{})}
	for id := 1; id <= 4; id++ {
		b.all.Add(1)
		go b.client(s.connect(), id)
	}
	next := func() *attached {
		for {
			its := attach(t, path, "attach")
			if line := <-its.lines; strings.Contains(line, `"attached"`) {
				return its
			}
			its.Close()
		}
	}
	for i := 0; i < 8; i++ {
		its := next()
		if i%2 == 1 { // killed while its audit begins, else at work
			its.until("started")
			for before := b.count(); b.count() < before+uint64(20*i); {
				time.Sleep(time.Millisecond)
			}
		}
		its.Close()
		for before := b.count(); b.count() < before+10; {
			time.Sleep(time.Millisecond)
		}
	}
	its := next()
	before := its.last("started", "earlier")
	for before := b.count(); b.count() < before+50; {
		time.Sleep(time.Millisecond)
	}
	close(b.stop)
	b.all.Wait()
	fmt.Fprintln(its.say, `{"command":"stop"}`)
	told := its.last("stopped", "coverage").Totals.Transactions
	if sum := before.Unaudited + before.Untold + told.All + told.RolledBack; sum != b.count() {
		t.Errorf("%d transactions have ended; counted are %d: %+v before the last audit, %+v in it", b.count(), sum, before, told)
	}
	conn := s.connect()
	sql(t, conn, "UPDATE account SET balance = 1 WHERE id = 1") // after the last round, which the program doesn't tell any more
	its.Close()
	sql(t, conn, "UPDATE account SET balance = 1 WHERE id = 1")
	if before = next().last("started", "earlier"); before.Unaudited+before.Untold != 2 {
		t.Errorf("after an audit that was stopped two have ended, and counted are %+v", before)
	}
}
