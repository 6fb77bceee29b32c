//go:build faults

package main

import (
	"encoding/json"
	"fmt"
	"sort"
	"strings"
	"sync"
	"testing"
	"time"

	"github.com/jackc/pgconn"

	"zanteyard/guard"
)

// spared are the places whose fault ends something else than the audit.
var spared = map[string]string{
	"the plan of a statement": "that statement isn't looked at",
	beginning:                 "that connection ends",
}

const beginning = "a connection's beginning"

// counting counts the visits of places, and panics at one of them.
type counting struct {
	lock   sync.Mutex
	visits map[string]int
	place  string
	number int // of the visit at which it panics
	fired  bool
}

func (c *counting) at(place string) {
	c.lock.Lock()
	c.visits[place]++
	fires := place == c.place && c.visits[place] == c.number
	c.fired = c.fired || fires
	c.lock.Unlock()
	if fires {
		panic(fmt.Sprintf("injected at visit %d", c.number))
	}
}

func (c *counting) hasFired() bool {
	c.lock.Lock()
	defer c.lock.Unlock()
	return c.fired
}

// faulty is a proxy with clients that go on whatever happens to its audit.
type faulty struct {
	*program
	clients []*pgconn.PgConn
	mayFail bool // a connection that begins
}

// work does something of each kind.
func (f *faulty) work() {
	f.t.Helper()
	for i, conn := range f.clients {
		sql(f.t, conn, "BEGIN ISOLATION LEVEL REPEATABLE READ")
		sql(f.t, conn, fmt.Sprintf("SELECT balance FROM account WHERE id = %d", i+1))
		sql(f.t, conn, fmt.Sprintf("UPDATE account SET balance = 100 WHERE id = %d", i+1))
		sql(f.t, conn, "SELECT count(*) FROM account")
		sql(f.t, conn, "COMMIT")
	}
	if err := life(f.port, 0); err != nil && !f.mayFail {
		f.t.Error(err)
	}
	for _, command := range []string{`{"command":"describe","id":1,"transactions":[[0,0]]}`, `{"command":"round"}`, `{"command":"dance"}`} {
		fmt.Fprintln(f.say, command)
	}
}

// ended returns the reason of the audit's end, if it has ended; cuts are answered as an auditor would.
func (f *faulty) ended() (reason string, is bool) {
	for {
		select {
		case line := <-f.lines:
			var event struct{ Event, Reason string }
			if json.Unmarshal([]byte(line), &event) == nil && event.Event == "ended" {
				return event.Reason, true
			}
		default:
			return "", false
		}
	}
}

// untilEnded waits for the audit's end, and returns its reason.
func (f *faulty) untilEnded(what string) string {
	f.t.Helper()
	reason, ended := f.endedBy(time.Now().Add(2 * time.Minute))
	if !ended {
		f.t.Fatalf("%s: the audit hasn't ended", what)
	}
	return reason
}

// endedBy waits for the audit's end, and returns its reason, if it comes in time.
func (f *faulty) endedBy(end time.Time) (reason string, is bool) {
	for ; ; time.Sleep(time.Millisecond) {
		if reason, is = f.ended(); is || time.Now().After(end) {
			return reason, is
		}
	}
}

// set makes a visit of a place panic.
func (c *counting) set(place string, number int) {
	c.lock.Lock()
	defer c.lock.Unlock()
	c.visits, c.place, c.number, c.fired = map[string]int{}, place, number, false
}

// visited returns how often a place was visited.
func (c *counting) visited(place string) int {
	c.lock.Lock()
	defer c.lock.Unlock()
	return c.visits[place]
}

const restart = `{"command":"restart"}`

// TestFaults: a panic at each place of each goroutine of an audit, at several of its visits. It ends the audit with its
// reason, or less, and no client loses its connection; another audit can begin after it.
func TestFaults(t *testing.T) {
	f := &faulty{program: begin(t, start(t))}
	f.until("started")
	for i := 0; i < 2; i++ {
		f.clients = append(f.clients, f.connect())
	}
	all := &counting{visits: map[string]int{}}
	guard.Inject(all.at)
	defer guard.Inject(nil)
	all.set("a step", 1)
	f.untilEnded("the first audit")
	// Which places there are is seen while an audit begins, works and ends.
	all.set("", 0)
	fmt.Fprintln(f.say, restart)
	for end := time.Now().Add(2 * time.Minute); all.visited("a step") < 400 || all.visited("a round") == 0; {
		if f.work(); time.Now().After(end) {
			t.Fatal("it didn't come that far")
		}
	}
	all.lock.Lock()
	visits := all.visits
	all.lock.Unlock()
	all.set("a step", 1)
	f.untilEnded("the second audit")
	var places []string
	for place := range visits {
		// An audit that has ended reads a restart only if it comes at once. A loop begins only when traffic wants one more.
		if place != "the command restart" && place != "a loop" {
			places = append(places, place)
		}
	}
	sort.Strings(places)
	t.Logf("%d places: %s", len(places), strings.Join(places, ", "))
	if len(places) < 25 {
		t.Errorf("only %d places were visited", len(places))
	}
	injected := 0
	for _, place := range places {
		for number := 1; number <= 4 && number <= visits[place]; number++ {
			before := time.Now()
			for tries := 1; !f.inject(all, place, number); tries++ {
				if tries == 5 {
					t.Fatalf("%s, visit %d: the audit hasn't ended", place, number)
				}
			}
			injected++
			if took := time.Since(before); took > 2*time.Second {
				t.Logf("%s, visit %d: %v", place, number, took)
			}
		}
	}
	t.Logf("%d faults", injected)
}

// inject has one fault happen in an audit of its own. It returns false if the audit hasn't ended by that: the end of an
// earlier connection may be reported, and meet the fault, before the audit begins.
func (f *faulty) inject(all *counting, place string, number int) bool {
	f.t.Helper()
	name := fmt.Sprintf("%s, visit %d", place, number)
	all.set(place, number)
	f.mayFail = place == beginning
	defer func() { f.mayFail = false }()
	fmt.Fprintln(f.say, restart)
	for end := time.Now().Add(2 * time.Minute); !all.hasFired(); {
		if f.work(); time.Now().After(end) {
			f.t.Fatalf("%s: it didn't come that far", name)
		}
	}
	f.work()
	if spared[place] != "" {
		all.set("a step", 1)
		f.untilEnded(name)
		return true
	}
	reason, ended := f.endedBy(time.Now().Add(10 * time.Second))
	if !ended {
		all.set("a step", 1)
		f.untilEnded(name)
		return false
	}
	if !strings.Contains(reason, "a fault of the proxy's, in ") || !strings.Contains(reason, fmt.Sprintf("injected at visit %d", number)) {
		f.t.Errorf("%s: the audit ended because of: %s", name, reason)
	}
	f.work()
	return true
}
