package session

import (
	"context"
	"strings"
	"testing"
	"time"

	"zanteyard/catalog"
	"zanteyard/definitions"
)

// TestAsksByLabels: a constant that is a label of an enumeration is sent with its column's type. The client gets what it would
// get without that, also where the constant is no label. If somebody makes a cast that the proxy hasn't noticed, the client's
// own statement is sent again, or fails in one block at most, and nothing is said of what the cast means.
func TestAsksByLabels(t *testing.T) {
	needServer(t)
	alone(t)
	sql(t, `CREATE TYPE mood AS ENUM ('sad', 'happy'); CREATE TABLE felt (id int PRIMARY KEY, m mood, n int);
		INSERT INTO felt VALUES (1, 'sad', 0), (2, 'happy', 0), (3, NULL, 0); CREATE FUNCTION never(mood) RETURNS text LANGUAGE sql IMMUTABLE AS $$SELECT 'never'::text$$`)
	defer sql(t, "DROP TABLE felt; DROP TYPE mood CASCADE")
	its, err := definitions.Open(context.Background(), config(), time.Hour, func(string) {}, catalog.WithColumns)
	if err != nil {
		t.Fatal(err)
	}
	p := through(t, "postgres", func(o *Options) { o.Plans, o.Generation, o.Shared = its, its.Generation, NewShared() })
	plain := through(t, "postgres", func(o *Options) {})
	texts := []string{"SELECT id FROM felt WHERE m = 'sad'", "SELECT id FROM felt WHERE m IN ('happy') OR n > 7", "SELECT id, n FROM felt WHERE m > 'sad'",
		"SELECT n FROM felt WHERE n >= 0 AND m = 'sad'", "SELECT id + 0 FROM felt WHERE m <> 'sad'"}
	wants := []string{"felt WHERE m = 'sad': 1", "felt WHERE m IN ('happy') OR n > 7: 2", "felt WHERE m > 'sad': 2", "felt WHERE n >= 0 AND m = 'sad': 1",
		"felt WHERE m <> 'sad': 2"}
	for i := 0; i < 2; i++ {
		p.warm(texts...)
	}
	for i, text := range texts {
		p.settle()
		p.sink.take()
		if got, want := show(p.query(text)), show(plain.query(text)); got != want {
			t.Errorf("%s: %s, wanted %s", text, got, want)
		}
		p.settle()
		var got []string
		for _, one := range p.sink.take() {
			for _, ask := range one.Asks {
				got = append(got, shownAsk(ask))
			}
		}
		if its := strings.Join(got, "; "); its != wants[i] {
			t.Errorf("%s: %q, wanted %q", text, its, wants[i])
		}
		for _, label := range []string{"'glad'", "B'1'", "U&'sad'", "E'happy'", "7", "'sad'::text"} {
			other := strings.Replace(strings.Replace(text, "'sad'", label, 1), "'happy'", label, 1)
			if got, want := show(p.query(other)), show(plain.query(other)); got != want {
				t.Errorf("%s: %s, wanted %s", other, got, want)
			}
		}
	}
	p.warm(texts...)
	p.settle()
	p.sink.take()
	sql(t, "CREATE CAST (mood AS text) WITH FUNCTION never(mood) AS IMPLICIT")
	if got, want := show(p.query(texts[0])), show(plain.query(texts[0])); got != want {
		t.Errorf("with a cast: %s, wanted %s", got, want)
	}
	for i := 0; i < 3; i++ {
		p.query("BEGIN")
		if got := p.query(texts[2]); fails(got) != (i == 0) {
			t.Errorf("with a cast, block %d: %s", i, show(got))
		}
		p.query("COMMIT")
		p.settle()
	}
	for _, one := range p.sink.take() {
		for _, ask := range one.Asks {
			if ask.Why == "" {
				t.Errorf("with a cast: %s", shownAsk(ask))
			}
		}
	}
}
