package session

import (
	"fmt"
	"testing"
	"time"
)

// TestPortalsOfAPipeline: each of many portals is bound in a part of a pipeline of its own. Those of later parts stay when a
// part has ended, and to find them takes no time that grows with the square of their number, or faster.
func TestPortalsOfAPipeline(t *testing.T) {
	var levels, doubts uint64
	q, n := queue{levels: &levels, doubts: &doubts}, newNames()
	bind := func(name string) {
		q.push(expectation{kind: clients, message: 'B', undo: undoPortal, name: name, before: n.portals[name]})
		n.setPortal(name, &portal{name: name})
		q.push(expectation{kind: clients, message: 'S'})
	}
	for i := 0; i < mostPortals; i++ {
		bind(fmt.Sprint("p", i))
	}
	bind("p0") // once more, behind all others
	began := time.Now()
	for i := 0; i <= mostPortals; i++ {
		q.pop()
		q.pop()
		n.ended(&q)
		left := mostPortals - i // the next ones and p0
		if i == 0 {
			left = mostPortals
		}
		if len(n.portals) != left || left > 0 && n.portals["p0"] == nil {
			t.Fatalf("after part %d there are %d portals, and not %d", i, len(n.portals), left)
		}
	}
	if took := time.Since(began); took > 5*time.Second {
		t.Errorf("%d parts took %v", mostPortals, took)
	}
	if len(q.binds) > 0 {
		t.Errorf("still bound: %v", q.binds)
	}
}
