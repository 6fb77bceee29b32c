package main

import (
	"context"
	"encoding/json"
	"math/rand"
	"path/filepath"
	"sync"
	"sync/atomic"
	"testing"
	"time"
)

// isFed reports whether a line of a parent's says that another machine's proxy feeds its audit.
func isFed(line string) bool {
	var it struct {
		Event  string
		Remote struct{ Proxies []struct{ Feeds bool } }
	}
	json.Unmarshal([]byte(line), &it)
	return it.Event == "coverage" && len(it.Remote.Proxies) > 0 && it.Remote.Proxies[0].Feeds
}

// awaitFed waits until the other proxy feeds the audit.
func (p *listener) awaitFed() {
	p.t.Helper()
	for end := time.After(2 * time.Minute); ; {
		select {
		case line := <-p.fed:
			if isFed(line) {
				return
			}
		case <-end:
			p.t.Fatal("the other proxy doesn't feed the audit")
		}
	}
}

// TestSumsAcrossAuditsOfTwoProxies: while one proxy's audits begin, end, are killed and begin again, whatever clients did
// through it and through another one is in one place of one outcome.
func TestSumsAcrossAuditsOfTwoProxies(t *testing.T) {
	c := start(t)
	direct := directly(t, c)
	sql(t, direct, `CREATE TABLE crossed (id int PRIMARY KEY, v int); INSERT INTO crossed SELECT generate_series(0, 99), 0;
		CREATE TABLE keyless (v int); INSERT INTO keyless VALUES (0)`)
	shared := []string{"--redis", startRedis(t).url(), "--audit", "shop", "--key", keyFile(t, someKey)}
	path := filepath.Join(folder(t), "control")
	s := serveAt(t, c, freePort(t), append([]string{"--control", path, "--between", "100ms"}, shared...)...)
	other, _ := elsewhere(t, sourceOf(c, "postgres"), shared...)
	s.connect().Close(context.Background())
	var heard told
	first := adopt(t, path)
	first.await("begun", first.opens)
	first.awaitFed() // what ends before is nobody's
	var want amount
	unsure := 0
	var lock sync.Mutex
	var all sync.WaitGroup
	var enough atomic.Bool
	for n := 1; n <= 4; n++ {
		v := &visitor{t: t, port: []int{s.port, other.port}[n%2], number: n, chance: rand.New(rand.NewSource(int64(n))), direct: directly(t, c)}
		all.Add(1)
		go func() {
			defer all.Done()
			for !enough.Load() {
				v.stay()
			}
			lock.Lock()
			defer lock.Unlock()
			want.add(v.done, 1)
			unsure += v.unsure
		}()
	}
	first.leaves(&heard) // killed: it told nobody
	oneAfterAnother(t, path, rand.New(rand.NewSource(*acrossSeed)), direct, &heard)
	enough.Store(true)
	last := adopt(t, path)
	last.await("begun", last.opens)
	all.Wait()
	last.awaitFed()
	last.orders("stop")
	last.await("stopped", last.stopped)
	last.leaves(&heard)
	its := &heard.sums.Totals
	got := amount{its.Transactions.All, its.Transactions.RolledBack, its.Selects.All, its.Writes.All, its.RowsRead.All, its.RowsWritten.All}
	got.add(heard.earlier, 1)
	more := got.transactions + got.undone - want.transactions - want.undone
	lost := its.Transactions.NotChecked["lost on the way from another proxy"]
	t.Logf("audits %v: %+v of %+v; %d more, %d lost on the way, %d unsure, %d bypassed", heard.audits, got, want, more, lost, unsure,
		its.Outside.Transactions)
	if more < -unsure || more > unsure || lost > want.transactions/20 {
		t.Errorf("%d transactions, rolled back or not, are counted, and there were %d",
			got.transactions+got.undone, want.transactions+want.undone)
	}
	if n := got.selects - want.selects; n < -unsure-lost*2 || n > unsure {
		t.Errorf("%d SELECTs are counted, and there were %d", got.selects, want.selects)
	}
	// As with one proxy. What ended without an audit on another machine is known by its number, or else by when it began.
	if n := got.written - want.written; n < -want.written/50 || n > got.transactions-want.transactions+want.written/50 {
		t.Errorf("%d written rows are counted, and there were %d", got.written, want.written)
	}
	if n := its.Outside; n.Transactions+n.RowsWritten > 0 {
		t.Errorf("%d transactions with %d rows are said to bypass the proxies", n.Transactions, n.RowsWritten)
	}
	if !heard.sums.decided() {
		t.Errorf("some isn't in a place: %+v", its)
	}
}
