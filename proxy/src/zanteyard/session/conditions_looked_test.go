package session

import (
	"context"
	"strings"
	"testing"
	"time"

	"zanteyard/catalog"
	"zanteyard/definitions"
)

// TestAsksLookedUp: what a statement passed over is followed where its rows are looked up by their key, also if it finds
// none: the description of its result then shows the table. At serializable nothing is looked up.
func TestAsksLookedUp(t *testing.T) {
	needServer(t)
	alone(t)
	sql(t, fill)
	defer sql(t, fill)
	its, err := definitions.Open(context.Background(), config(), time.Hour, func(string) {}, catalog.WithColumns, catalog.OnlyCertainLists)
	if err != nil {
		t.Fatal(err)
	}
	p := through(t, "postgres", func(o *Options) { o.Plans, o.Generation, o.Shared = its, its.Generation, NewShared() })
	const all, none, join = "SELECT a, b FROM u WHERE a = 1", "SELECT b FROM u WHERE a = 77", "SELECT t.v, u.b FROM t LEFT JOIN u ON u.a = t.id WHERE t.v < 30"
	const missing = "SELECT t.v, u.b FROM t LEFT JOIN u ON u.a = t.id WHERE t.v > 190"
	for i := 0; i < 2; i++ {
		p.warm(all, none, join, missing)
	}
	for _, x := range []struct{ texts, want string }{
		{all, "u WHERE a = 1: 1/b1,1/b5,1/b9"}, {none, "u WHERE a = 77: "},
		{join, "t WHERE v < 30: 1,2; u WHERE a IN (1, 2): 1/b1,1/b5,1/b9,2/b10,2/b2,2/b6"},
		{missing, "t WHERE v > 190: 20; u WHERE a IN (20): "},
		{"BEGIN ISOLATION LEVEL SERIALIZABLE;" + all + ";" + none + ";COMMIT", "not: " + atSerializable + "; u WHERE a = 77: "},
		{"BEGIN ISOLATION LEVEL REPEATABLE READ;" + all + " LIMIT 2;" + all + " ORDER BY a, b LIMIT 2;COMMIT",
			"u WHERE a = 1 AND a < 1: 1/b1,1/b5"}, // the first one might have returned any two; texts aren't compared by their bytes
	} {
		for i := 0; i < 3; i++ { // so that all is tried
			p.settle()
			p.sink.take()
			for _, text := range strings.Split(x.texts, ";") {
				p.query(text)
			}
		}
		var got []string
		for _, one := range p.sink.take() {
			for _, ask := range one.Asks {
				got = append(got, shownAsk(ask))
			}
		}
		if text := strings.Join(got, "; "); text != x.want {
			t.Errorf("%s: %q, wanted %q", x.texts, text, x.want)
		}
	}
}

// TestLookedUpTwice: a transaction sees a row that somebody has deleted since its snapshot, and the one that it has inserted
// with the same key. The client gets both, and neither is told.
func TestLookedUpTwice(t *testing.T) {
	needServer(t)
	alone(t)
	sql(t, fill)
	defer sql(t, fill)
	its, err := definitions.Open(context.Background(), config(), time.Hour, func(string) {}, catalog.WithColumns, catalog.OnlyCertainLists)
	if err != nil {
		t.Fatal(err)
	}
	p := through(t, "postgres", func(o *Options) { o.Plans, o.Generation, o.Shared = its, its.Generation, NewShared() })
	const text = "SELECT a, b FROM u WHERE a = 1"
	p.warm(text, text)
	p.sink.take()
	p.query("BEGIN ISOLATION LEVEL REPEATABLE READ")
	p.query("SELECT 1 FROM t WHERE id = 1")
	sql(t, "DELETE FROM u WHERE a = 1 AND b = 'b5'")
	p.query("INSERT INTO u VALUES (1, 'b5', 0)")
	rows, answer := 0, p.query(text)
	for _, m := range answer {
		rows += btoi(m[0] == 'D')
	}
	if rows != 4 {
		t.Errorf("%d rows: %s", rows, show(answer))
	}
	p.query("COMMIT")
	of := p.sink.take()
	if len(of) != 1 || len(of[0].Asks) != 1 || of[0].Asks[0].Why != twoRows {
		t.Errorf("%+v", of)
	}
	for _, one := range of[0].Reads {
		if one.Key == "1\x00b5" {
			t.Errorf("%+v", one)
		}
	}
}
