package slot

import (
	"testing"
	"time"
)

// TestUnknownNamesDontMakeALoop: a name that stays unknown makes the tables be read again once, not with each change of
// it; another one does.
func TestUnknownNamesDontMakeALoop(t *testing.T) {
	tables := someTables()
	ask := func(name string) bool {
		tables.unknown([]byte("s"), []byte(name))
		missing := tables.Missing()
		tables.set(tables.list()) // they are read again
		return missing
	}
	if !ask("a") || ask("a") || ask("a") || !ask("b") || ask("a") {
		t.Error("the tables are read again at the wrong times")
	}
	tables.strange["s.a"] = time.Now().Add(-patience)
	if !ask("a") {
		t.Error("a name is never looked for again")
	}
	n := uint64(0)
	tables.LeftOut(func(_, reason string, changes uint64) {
		if reason == notKnown {
			n += changes
		}
	})
	if n != 6 {
		t.Errorf("%d changes are counted", n)
	}
}
