package session

import (
	"context"
	"fmt"
	"testing"
	"time"

	"zanteyard/definitions"
)

// TestTemporaryTablesBeside: temporary tables come and go on one connection. All statements of the others are seen, and
// those of its own once the temporary ones are gone.
func TestTemporaryTablesBeside(t *testing.T) {
	needServer(t)
	sql(t, fill)
	d, err := definitions.Open(context.Background(), config(), time.Millisecond, func(string) {})
	if err != nil {
		t.Fatal(err)
	}
	ctx, cancel := context.WithCancel(context.Background())
	over := make(chan struct{})
	go func() {
		defer close(over)
		d.Run(ctx, nil)
	}()
	defer func() { cancel(); <-over }()
	shared := NewShared()
	connect := func() *proxied {
		return through(t, "postgres", func(o *Options) {
			o.Plans, o.Generation, o.Defined, o.Shared = d, d.Generation, d.Changed, shared
		})
	}
	shapes := []string{"SELECT v FROM u WHERE a = %d", "SELECT v, b FROM u WHERE a = %d", "SELECT v + 1 FROM u WHERE a = %d",
		"SELECT b, v FROM u WHERE a = %d FOR SHARE"}
	one, other := connect(), connect()
	seen := func(p *proxied) (n int) {
		for i, shape := range shapes {
			p.query(fmt.Sprintf(shape, i))
		}
		for _, it := range p.sink.take() {
			if len(it.Reads) > 0 {
				n++
			}
		}
		p.settle()
		return n
	}
	for i := 0; i < 3; i++ {
		seen(one)
		seen(other)
	}
	others, owns := 0, 0
	const times = 25
	for i := 0; i < times; i++ {
		one.query("CREATE TEMP TABLE s (x int)")
		others += seen(other)
		one.query("DROP TABLE s")
		others += seen(other)
		one.query("BEGIN")
		one.query("CREATE TEMP TABLE s (x int) ON COMMIT DROP")
		one.query("INSERT INTO s VALUES (1)")
		others += seen(other)
		one.query("COMMIT")
		one.settle()
		owns += seen(one)
	}
	if all := 3 * times * len(shapes); others < all*95/100 {
		t.Errorf("%d of %d statements of the other connection were seen: %v", others, all, other.sink.unseen[len(other.sink.unseen)/2:])
	}
	if all := times * len(shapes); owns < all*95/100 {
		t.Errorf("%d of %d statements of its own were seen", owns, all)
	}
}
