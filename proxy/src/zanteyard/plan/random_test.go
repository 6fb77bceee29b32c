package plan

import (
	"math/rand"
	"os"
	"strconv"
	"testing"

	"zanteyard/catalog"
	"zanteyard/statements"
)

// wanted returns how many random statements a test tries: a longer run by hand sets it.
func wanted(usual int) int {
	if number, err := strconv.Atoi(os.Getenv("ZANTEYARD_STATEMENTS")); err == nil {
		return number
	}
	return usual
}

// TestRandomStatements compares statements with their rewritten forms.
func TestRandomStatements(t *testing.T) {
	connection := connect(t, "random", statements.Schema)
	known := load(t, connection)
	caches := [2]*Cache{NewCache(known), NewCache(load(t, connection, catalog.OnlyCertainLists))}
	number := wanted(300)
	changed, failed, sources, copied := 0, 0, 0, 0
	for seed := 0; seed < number; seed++ {
		w := statements.New(rand.New(rand.NewSource(int64(seed))))
		text := w.Statement()
		p, tokens := caches[seed%2].Plan(text)
		if !p.adds() {
			continue
		}
		changed++
		untouched(t, text, p, tokens)
		// Rows without an order come as the server's plan produces them, and wider rows may have another plan.
		if compare(t, connection, known, text, p, tokens, int16(seed/2%2), p.Copied) {
			failed++
		} else {
			copied += isOne(p.Copied)
			sources += len(p.Sources)
			tried(t, connection, p, true)
		}
		if t.Failed() {
			t.Fatalf("statement %d: %q", seed, text)
		}
	}
	t.Logf("%d statements, %d rewritten, %d of them refused by the server in both forms, %d tables seen, %d copied", number,
		changed, failed, sources, copied)
	if changed < number/3 || failed > changed*3/4 || copied < number/30 {
		t.Errorf("too few statements were compared")
	}
}

func isOne(is bool) int {
	if is {
		return 1
	}
	return 0
}
