package session

import (
	"context"
	"fmt"
	"testing"

	"github.com/jackc/pgconn"

	"zanteyard/own"
)

// TestCopyOfTheServer: on a copy of the audited server somebody holds a lock with the number of the audit's. Nothing
// that is read there is offered.
func TestCopyOfTheServer(t *testing.T) {
	needServer(t)
	sql(t, fill)
	ctx := context.Background()
	conn, err := pgconn.ConnectConfig(ctx, config())
	if err != nil {
		t.Fatal(err)
	}
	defer conn.Close(ctx)
	here, err := own.SetMark(ctx, conn)
	if err != nil {
		t.Fatal(err)
	}
	there := here ^ 1 // as one that was started a microsecond earlier or later has it
	if _, err := conn.Exec(ctx, fmt.Sprintf("SELECT pg_advisory_lock(%d)", there)).ReadAll(); err != nil {
		t.Fatal(err)
	}
	for mark, audited := range map[int64]bool{here: true, there: false} {
		if sees, err := own.SeesMark(ctx, conn, mark); err != nil || sees != audited {
			t.Errorf("the mark is seen: %v, wanted %v (%v)", sees, audited, err)
		}
		p := through(t, "postgres", func(o *Options) { o.Mark, o.Shared = func() int64 { return mark }, nil })
		p.warm("SELECT v FROM t WHERE id = 1")
		p.query("SELECT v FROM t WHERE id = 1")
		p.settle()
		reads := 0
		for _, it := range p.sink.take() {
			reads += len(it.Reads)
		}
		if audited != (reads > 0) || audited == p.sink.left(Elsewhere) {
			t.Errorf("the audited server: %v; %d reads are offered, left out is %q", audited, reads, p.sink.unseen)
		}
	}
}
